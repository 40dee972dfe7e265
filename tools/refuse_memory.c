// Preloaded before the C library, it counts the calls that ask for memory, and refuses those in a window. tools/refuse_memory sets the
// window and reads the counts in a file that both map, whose path is in REFUSE_MEMORY. A call that gives memory back isn't counted.
#define _GNU_SOURCE
#include <errno.h>
#include <fcntl.h>
#include <stdatomic.h>
#include <stdint.h>
#include <stdlib.h>
#include <sys/mman.h>
#include <unistd.h>

// The names under which the C library has its own calls.
extern void *__libc_malloc(size_t size);
extern void *__libc_calloc(size_t count, size_t size);
extern void *__libc_realloc(void *place, size_t size);
extern void *__libc_memalign(size_t align, size_t size);
extern ssize_t __read(int file, void *buffer, size_t size);

struct Control {
    _Atomic int64_t calls;   // that asked for memory
    _Atomic int64_t refused; // of these
    _Atomic int64_t first;   // the calls from this number on are refused, from 0
    _Atomic int64_t end;     // and up to the one before this
    _Atomic int64_t waits;   // 1 while the program waits for its next piece of the script
};

static struct Control *control;

__attribute__((constructor)) static void share(void) {
    const char *path = getenv("REFUSE_MEMORY");
    int file = path ? open(path, O_RDWR | O_CLOEXEC) : -1;
    if (file < 0) {
        _exit(99);
    }
    void *mapped = mmap(NULL, sizeof *control, PROT_READ | PROT_WRITE, MAP_SHARED, file, 0);
    close(file);
    if (mapped == MAP_FAILED) {
        _exit(99);
    }
    control = mapped;
}

static int is_refused(void) {
    if (!control) {
        return 0;
    }
    int64_t number = control->calls++;
    if (number < control->first || number >= control->end) {
        return 0;
    }
    control->refused++;
    errno = ENOMEM;
    return 1;
}

void *malloc(size_t size) {
    return is_refused() ? NULL : __libc_malloc(size);
}

void *calloc(size_t count, size_t size) {
    return is_refused() ? NULL : __libc_calloc(count, size);
}

void *realloc(void *place, size_t size) {
    return is_refused() ? NULL : __libc_realloc(place, size);
}

void *memalign(size_t align, size_t size) {
    return is_refused() ? NULL : __libc_memalign(align, size);
}

void *aligned_alloc(size_t align, size_t size) {
    return memalign(align, size);
}

int posix_memalign(void **place, size_t align, size_t size) {
    void *taken = memalign(align, size);
    if (!taken) {
        return ENOMEM;
    }
    *place = taken;
    return 0;
}

ssize_t read(int file, void *buffer, size_t size) {
    if (file == STDIN_FILENO) {
        control->waits = 1;
    }
    ssize_t count = __read(file, buffer, size);
    if (file == STDIN_FILENO) {
        control->waits = 0;
    }
    return count;
}
