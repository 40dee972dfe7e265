"""The names that queries of documents are made of."""
import collections
import re

from documents import walk

XMLNS = re.compile(r'\sxmlns(?::[^\s=]+)?\s*=\s*("[^"]*"|\'[^\']*\')')
# What the queries are made of: the name of an element, those of two of its children, what only some of them have, and an attribute's name.
Names = collections.namedtuple("Names", "outer inner later rare attribute")
NAMES = {
    "records": Names("record", "name", "value", "tag", "id"),
    "log": Names("entry", "from", "message", "note", "level"),
    "catalogue": Names("item", "part", "text", "part/following-sibling::part", "weight"),
}


def without_xmlns(path, to):
    with open(path, newline="") as given, open(to, "w", newline="") as out:
        out.writelines(XMLNS.sub("", line) for line in given)


def names_of(document):
    """The names for queries of a document. Where it isn't made they are, of its elements that aren't the root, the one with most children, its
    commonest children and its rarest, and the commonest attribute."""
    return NAMES.get(document.kind) or names_at(document.path)


def names_at(path):
    children, attributes, open_names = collections.defaultdict(collections.Counter), collections.Counter(), []

    def start(name, given):
        if len(open_names) > 1 and ":" not in name:
            children[open_names[-1]][name] += 1
        attributes.update(attribute for attribute in given if ":" not in attribute)
        open_names.append(name)

    walk(path, start, end=lambda _name: open_names.pop())
    outer = max((name for name in children if ":" not in name), key=lambda name: (len(children[name]) > 1, sum(children[name].values())))
    common = [name for name, _ in children[outer].most_common()]
    return Names(outer, common[0], common[min(1, len(common) - 1)], common[-1], attributes.most_common(1)[0][0])
