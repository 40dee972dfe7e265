/* Does the commands of bench/peers on a tree. Each is one line, and one line answers it; the including file has the calls. */
#include <stdio.h>
#include <stdlib.h>
#include <string.h>

/* Each answers whether it was done; `chosen` are nodes that were selected before they are edited. */
static int load(const char *file);
static long count(const char *query);
static int choose(long wanted, const char *query);
static void edit_chosen(void);
static long rename_all(const char *name, const char *query);
static int save(const char *file);

int main(void) {
    static char line[1 << 16];
    while (fgets(line, sizeof line, stdin)) {
        char *rest = strchr(line, ' '), *query;
        long selected = 0;
        line[strcspn(line, "\n")] = 0;
        if (rest) *rest++ = 0;
        query = rest ? strchr(rest, ' ') : NULL;
        if (query) query++;
        if (!strcmp(line, "load")) selected = load(rest) ? 0 : -1;
        else if (!strcmp(line, "count")) selected = count(rest);
        else if (!strcmp(line, "choose")) selected = choose(atol(rest), query) ? 0 : -1;
        else if (!strcmp(line, "edit")) edit_chosen();
        else if (!strcmp(line, "rename-all")) query[-1] = 0, selected = rename_all(rest, query);
        else if (!strcmp(line, "save")) selected = save(rest) ? 0 : -1;
        else selected = -1;
        if (selected < 0) printf("! refused\n");
        else printf("ok selected %ld\n", selected);
        fflush(stdout);
    }
    return 0;
}
