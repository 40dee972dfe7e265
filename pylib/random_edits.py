"""Random edits of plain trees."""
import collections

from documents import WORDS
from plain_tree import fragment_of, is_declaration

FEW = 2_000  # nodes below one that is deleted or copied are fewer
DRAWS = 100  # numbers that are tried to find a node of a kind
# How often a command is tried at each kind of node; some of these aren't allowed.
TRIED = {
    "rename": {"element": 10, "attribute": 6, "instruction": 1, "text": 1},
    "value": {"text": 8, "attribute": 8, "comment": 4, "instruction": 1, "element": 1},
    "delete": {"element": 10, "attribute": 4, "text": 4, "comment": 2, "instruction": 1, "document": 1},
    "insert": {"element": 10, "text": 6, "comment": 2, "instruction": 1, "attribute": 1, "document": 1},
    "append": {"element": 16, "text": 1, "attribute": 1, "document": 1},
    "attr": {"element": 16, "text": 1, "attribute": 1, "document": 1},
    "copy": {"element": 10, "text": 6, "comment": 2, "instruction": 1, "attribute": 1, "document": 1},
}
NAMES = ["a", "b", "entry", "item", "part", "x1", "_y", "long-name.2", "\u00e9t\u00e9"]
BAD_NAMES = ["1a", "-a", "&amp;", "\u00d7"]
BAD_SPACED_NAMES = [" a", "a ", "a b", "a<"]
REFERENCES = {"&amp;": "&", "&lt;": "<", "&gt;": ">", "&quot;": '"', "&apos;": "'", "&#9;": "\t", "&#10;": "\n", "&#xD;": "\r", "&#x20AC;": "\u20ac"}
CHARACTERS = [*WORDS * 3, *" " * 20, *"\t>'\"?-\u00e9\U0001f642", "--", "?>", "]]>"]
PIECES = [*REFERENCES.items(), *zip(CHARACTERS, CHARACTERS)]  # of values: each as it is written, and what it means
BAD_PIECES = ["<", "&", "&nbsp;", "&#0;", "&#xFFFE;", "&amp", "<b/>", "<![CDATA[x]]>", "\x01"]
# Of fragments: outermost nodes, of which some are no two texts side by side, and such as may stand beside the root.
TEXTS = ["t", "a &amp; b", "&#xD;&#10;", "<![CDATA[<x>]]>", "caf\u00e9 &#x20AC;", "  "]
ELEMENTS = [
    "<b/>",
    "<item id='1'/>",
    "<entry><title>News</title><link href=\"/1\"/></entry>",
    "<part x1='a&quot;b' _y=''>one<!--c--><b>two</b>three</part>",
    "<a><a><a/></a></a>",
]
ASIDE = ["<!--c-->", "<!-- a comment -->", "<?go now?>", "<?p?>"]
BAD_FRAGMENTS = ["</b>", "<b>", "a & b", "<![CDATA[]]>", "]]>", "<b k='1' k='2'/>", "<a></b>", "&nbsp;", "<!--a--b-->"]

Edit = collections.namedtuple("Edit", "command line answer told")


class RandomEdits:
    """Random edits of a tree, in which each is done when it is drawn."""

    def __init__(self, tree, chance):
        self.tree = tree
        self.chance = chance
        self.kinds = {node.kind for node in tree.nodes}

    def draw(self):
        command = self.chance.choice(list(TRIED))
        number = self.number(command)
        written, given, refusal = getattr(self, f"for_{command}")(number)
        answer, told = self.tree.edit(command, number, given, refusal)
        return Edit(command, " ".join([command, str(number), *written]), answer, told)

    def number(self, command):
        """A number for a command; where no node of the kind is found, that of the document or of the node behind it."""
        nodes, chance = self.tree.nodes, self.chance
        if chance.random() < 0.02:
            return len(nodes) + chance.choice([0, 1, 1_000, 2**63])
        tried = {kind: often for kind, often in TRIED[command].items() if kind in self.kinds}
        [kind] = chance.choices(list(tried), tried.values())
        for _ in range(DRAWS):
            number = chance.randrange(len(nodes))
            node = nodes[number]
            if node.kind == kind and not is_declaration(node) and (command not in ("delete", "copy") or node.below < FEW):
                return number
        return chance.randrange(2)

    def is_bad(self):
        return self.chance.random() < 0.04

    # What an edit of each kind gives: as it is written, what it means, and the refusal where it means nothing.

    def for_rename(self, number):
        if self.is_bad():
            return [self.chance.choice(BAD_NAMES + BAD_SPACED_NAMES)], None, "! bad-name"
        node = self.tree.nodes[number if number < len(self.tree.nodes) else 0]
        names = [node.name[: node.name.find(":") + 1] + name for name in NAMES]
        if node.kind == "attribute":
            names += [other.name for other in self.tree.attributes(number)]
        if node.kind == "instruction":
            names += ["xml", "XmL"]
        name = self.chance.choice(names)
        return [name], [name], None

    def for_value(self, _number):
        written, meant = self.value()
        return [written], [meant], "! bad-value" if meant is None else None

    def for_delete(self, _number):
        return [], [], None

    def for_insert(self, _number):
        if self.is_bad():
            return [self.chance.choice(BAD_FRAGMENTS)], None, "! bad-fragment"
        written = self.fragment()
        return [written], [written, fragment_of(written)], None

    for_append = for_insert

    def for_attr(self, _number):
        name = self.chance.choice(BAD_NAMES if self.is_bad() else NAMES)
        written, meant = self.value()
        refusal = "! bad-name" if name in BAD_NAMES else "! bad-value" if meant is None else None
        return [name, written], [name, meant], refusal

    for_copy = for_delete

    def value(self):
        """A value as it is written, and what it means; None where it is no value."""
        pieces = self.chance.choices(PIECES, k=self.chance.randrange(16))
        written, meant = ("".join(part) for part in zip(*pieces)) if pieces else ("", "")
        if self.is_bad():
            return written + self.chance.choice(BAD_PIECES), None
        return written, meant

    def fragment(self):
        """A fragment of one to four pieces, as it is written; a quarter may stand beside the root."""
        pieces = ASIDE if self.chance.random() < 0.25 else TEXTS + ELEMENTS + ASIDE
        return "".join(self.chance.choices(pieces, k=self.chance.randrange(1, 5)))
