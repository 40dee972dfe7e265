/* libxml2's tree and XPath. */
#include "commands.h"
#include <libxml/parser.h>
#include <libxml/tree.h>
#include <libxml/xpath.h>

static xmlDocPtr document;
static xmlNodePtr *chosen;
static long chosen_count;

static int load(const char *file) {
    document = xmlReadFile(file, NULL, XML_PARSE_NOERROR | XML_PARSE_NOWARNING | XML_PARSE_NONET | XML_PARSE_NOCDATA | XML_PARSE_HUGE);
    return document != NULL;
}

static xmlXPathObjectPtr selected(const char *query) {
    xmlXPathContextPtr context = xmlXPathNewContext(document);
    xmlXPathObjectPtr given = xmlXPathEval(BAD_CAST query, context);
    xmlXPathFreeContext(context);
    return given;
}

static long size(xmlXPathObjectPtr given) { return given && given->nodesetval ? given->nodesetval->nodeNr : 0; }

static long count(const char *query) {
    xmlXPathObjectPtr given = selected(query);
    long found = size(given);
    xmlXPathFreeObject(given);
    return found;
}

static int choose(long wanted, const char *query) {
    xmlXPathObjectPtr given = selected(query);
    chosen = malloc(wanted * sizeof *chosen);
    for (chosen_count = 0; chosen_count < wanted; chosen_count++)
        chosen[chosen_count] = given->nodesetval->nodeTab[chosen_count * size(given) / wanted];
    xmlXPathFreeObject(given);
    return 1;
}

static void edit_chosen(void) {
    for (long at = chosen_count - 1; at >= 0; at--) {
        if (at % 2) xmlSetProp(chosen[at], BAD_CAST "checked", BAD_CAST "yes");
        else xmlNodeSetName(chosen[at], BAD_CAST "edited");
    }
}

static long rename_all(const char *name, const char *query) {
    xmlXPathObjectPtr given = selected(query);
    long found = size(given);
    for (long at = 0; at < found; at++) xmlNodeSetName(given->nodesetval->nodeTab[at], BAD_CAST name);
    xmlXPathFreeObject(given);
    return found;
}

static int save(const char *file) { return xmlSaveFileEnc(file, document, "UTF-8") >= 0; }
