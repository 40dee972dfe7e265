/* expat, which reads a document and builds nothing. */
#include "commands.h"
#include <expat.h>

static int load(const char *file) {
    static char piece[1 << 16];
    XML_Parser parser = XML_ParserCreate(NULL);
    FILE *given = fopen(file, "rb");
    size_t length;
    if (!given) return 0;
    do {
        length = fread(piece, 1, sizeof piece, given);
        if (!XML_Parse(parser, piece, (int)length, length < sizeof piece)) return 0;
    } while (length == sizeof piece);
    XML_ParserFree(parser);
    return fclose(given) == 0;
}

static long count(const char *query) { return -1; }
static int choose(long wanted, const char *query) { return 0; }
static void edit_chosen(void) {}
static long rename_all(const char *name, const char *query) { return -1; }
static int save(const char *file) { return 0; }
