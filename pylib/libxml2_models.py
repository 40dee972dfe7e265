"""Models as lines of a schema, in a DTD and in RelaxNG, and libxml2's validation of a tree that is there."""
import collections
from xml.sax.saxutils import quoteattr

from documents import walk
from libxml2 import LIBRARY, POINTER, TEXT, WHOLE, declare

RELAXNG = "http://relaxng.org/ns/structure/1.0"
AROUND = {"": "{}", "?": "<optional>{}</optional>", "*": "<zeroOrMore>{}</zeroOrMore>", "+": "<oneOrMore>{}</oneOrMore>"}
# It leaves the names of attributes open.
ATTRIBUTES = "<zeroOrMore><attribute><anyName/></attribute></zeroOrMore>"


declare([
    ("xmlParseDTD", POINTER, TEXT, TEXT),
    ("xmlFreeDtd", None, POINTER),
    ("xmlNewValidCtxt", POINTER),
    ("xmlFreeValidCtxt", None, POINTER),
    ("xmlValidateDtd", WHOLE, POINTER, POINTER, POINTER),
    ("xmlRelaxNGNewParserCtxt", POINTER, TEXT),
    ("xmlRelaxNGFreeParserCtxt", None, POINTER),
    ("xmlRelaxNGParse", POINTER, POINTER),
    ("xmlRelaxNGFree", None, POINTER),
    ("xmlRelaxNGNewValidCtxt", POINTER, POINTER),
    ("xmlRelaxNGFreeValidCtxt", None, POINTER),
    ("xmlRelaxNGValidateDoc", WHOLE, POINTER, POINTER),
])  # fmt: skip


class Sequence:
    """Names with their signs, one after another."""

    def __init__(self, *parts):
        self.parts = [(part.rstrip("?*+"), part[len(part.rstrip("?*+")) :]) for part in parts]

    def line(self):
        return ", ".join(name + sign for name, sign in self.parts) or "()"

    def dtd(self, texts):
        return f"({self.line()})" if self.parts else "(#PCDATA)"

    def relaxng(self):
        return "".join(AROUND[sign].format(f"<ref name={quoteattr(name)}/>") for name, sign in self.parts)


class AnyOf:
    """Any number of elements with these names."""

    def __init__(self, names):
        self.names = list(names)

    def line(self):
        return f"({' | '.join(self.names)})*" if self.names else "()"

    def dtd(self, texts):
        parts = ["#PCDATA"] * (texts or not self.names) + self.names
        return f"({' | '.join(parts)}){'*' if self.names else ''}"

    def relaxng(self):
        refs = "".join(f"<ref name={quoteattr(name)}/>" for name in self.names)
        return f"<zeroOrMore><choice>{refs}</choice></zeroOrMore>" if refs else ""


class Shape:
    """Of each name of elements in a document the names of their children, whether there are texts among them, and their attributes."""

    def __init__(self, path):
        self.kids = collections.defaultdict(collections.Counter)
        self.texts, self.attributes, self.counts = set(), collections.defaultdict(set), collections.Counter()
        open_names = [""]

        def start(name, given):
            self.counts[name] += 1
            self.kids[open_names[-1]][name] += 1
            if given:
                self.attributes[name].update(given)
            open_names.append(name)

        def text(data):
            if not data.isspace():
                self.texts.add(open_names[-1])

        walk(path, start, text, lambda _name: open_names.pop())

    def common(self, count):
        """The names with children that most elements have."""
        return [name for name, _ in self.counts.most_common() if self.kids[name]][:count]

    def dtd(self, models):
        lines = []
        for name in dict.fromkeys([*self.counts, *models]):
            content = models[name].dtd(name in self.texts) if name in models else "ANY"
            lines.append(f"<!ELEMENT {name} {content}>\n")
            lines += [f"<!ATTLIST {name} {attribute} CDATA #IMPLIED>\n" for attribute in sorted(self.attributes[name])]
        return "".join(lines)

    def relaxng(self, models):
        """The grammar, in which an element without a model may hold anything."""
        (root,) = self.kids[""]
        lines = [f'<grammar xmlns="{RELAXNG}"><start><ref name={quoteattr(root)}/></start>\n']
        for name in dict.fromkeys([*self.counts, *models]):
            content = models.get(name, AnyOf(self.counts)).relaxng()
            if name in self.texts or name not in models:
                content = f"<mixed>{content}</mixed>" if content else "<text/>"
            content = ATTRIBUTES + (content or "<text/>")
            lines.append(f"<define name={quoteattr(name)}><element name={quoteattr(name)}>{content}</element></define>\n")
        return "".join(lines) + "</grammar>\n"


class Dtd:
    """A DTD that is read."""

    def __init__(self, path):
        self.pointer = LIBRARY.xmlParseDTD(None, path.encode())
        if not self.pointer:
            raise ValueError("libxml2 reads no DTD")

    def allows(self, document):
        context = LIBRARY.xmlNewValidCtxt()
        valid = LIBRARY.xmlValidateDtd(context, document.pointer, self.pointer) == 1
        LIBRARY.xmlFreeValidCtxt(context)
        return valid

    def close(self):
        LIBRARY.xmlFreeDtd(self.pointer)


class RelaxNg:
    """A grammar of RelaxNG that is read."""

    def __init__(self, path):
        parser = LIBRARY.xmlRelaxNGNewParserCtxt(path.encode())
        self.pointer = LIBRARY.xmlRelaxNGParse(parser)
        LIBRARY.xmlRelaxNGFreeParserCtxt(parser)
        if not self.pointer:
            raise ValueError("libxml2 reads no RelaxNG")

    def allows(self, document):
        context = LIBRARY.xmlRelaxNGNewValidCtxt(self.pointer)
        valid = LIBRARY.xmlRelaxNGValidateDoc(context, document.pointer) == 0
        LIBRARY.xmlRelaxNGFreeValidCtxt(context)
        return valid

    def close(self):
        LIBRARY.xmlRelaxNGFree(self.pointer)
