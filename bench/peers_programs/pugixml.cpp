/* pugixml's tree and XPath. */
#include "commands.h"
#include <pugixml.hpp>
#include <vector>

static pugi::xml_document document;
static std::vector<pugi::xml_node> chosen;

static int load(const char *file) {
    return document.load_file(file, pugi::parse_full | pugi::parse_ws_pcdata) ? 1 : 0;
}

static long count(const char *query) { return document.select_nodes(query).size(); }

static int choose(long wanted, const char *query) {
    pugi::xpath_node_set given = document.select_nodes(query);
    given.sort();
    for (long at = 0; at < wanted; at++) chosen.push_back(given[at * given.size() / wanted].node());
    return 1;
}

static void edit_chosen(void) {
    for (long at = chosen.size() - 1; at >= 0; at--) {
        if (at % 2) chosen[at].append_attribute("checked") = "yes";
        else chosen[at].set_name("edited");
    }
}

static long rename_all(const char *name, const char *query) {
    pugi::xpath_node_set given = document.select_nodes(query);
    for (const pugi::xpath_node &found : given) found.node().set_name(name);
    return given.size();
}

static int save(const char *file) { return document.save_file(file, "", pugi::format_raw | pugi::format_no_declaration); }
