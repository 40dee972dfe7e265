"""libxml2's documents and XPath."""
import ctypes

from libxml2 import LIBRARY, LONG, OPTIONS, POINTER, TEXT, declare

KINDS = {1: "element", 2: "attribute", 3: "text", 7: "instruction", 8: "comment", 9: "document"}
NAMED = ("element", "attribute", "instruction")
NODES, NUMBER = 1, 3  # types of what a query gives


class Prefix(ctypes.Structure):
    _fields_ = [("next", ctypes.c_void_p), ("type", ctypes.c_int), ("address", ctypes.c_char_p), ("prefix", ctypes.c_char_p)]


class Node(ctypes.Structure):
    """The front of a node. An attribute and the document have no `properties`, what stands in its place isn't read."""


Node._fields_ = [
    ("private", ctypes.c_void_p),
    ("type", ctypes.c_int),
    ("name", ctypes.c_char_p),
    *((name, ctypes.POINTER(Node)) for name in ("children", "last", "parent", "next", "previous", "document")),
    ("namespace", ctypes.POINTER(Prefix)),
    ("content", ctypes.c_void_p),
    ("properties", ctypes.POINTER(Node)),
]


class NodeSet(ctypes.Structure):
    _fields_ = [("count", ctypes.c_int), ("room", ctypes.c_int), ("nodes", ctypes.POINTER(ctypes.c_void_p))]


class Given(ctypes.Structure):
    """The front of what a query gives."""

    _fields_ = [
        ("type", ctypes.c_int),
        ("nodes", ctypes.POINTER(NodeSet)),
        ("truth", ctypes.c_int),
        ("number", ctypes.c_double),
    ]


class Context(ctypes.Structure):
    """The front of a context: the document and the node at which a query begins."""

    _fields_ = [("document", ctypes.c_void_p), ("node", ctypes.c_void_p)]


declare([
    ("xmlXPathOrderDocElems", LONG, POINTER),
    ("xmlXPathNewContext", ctypes.POINTER(Context), POINTER),
    ("xmlXPathFreeContext", None, ctypes.POINTER(Context)),
    ("xmlXPathCompile", POINTER, TEXT),
    ("xmlXPathFreeCompExpr", None, POINTER),
    ("xmlXPathCompiledEval", ctypes.POINTER(Given), POINTER, ctypes.POINTER(Context)),
    ("xmlXPathFreeObject", None, ctypes.POINTER(Given)),
])  # fmt: skip


def described(node):
    """A node's kind and name as `query` prints them."""
    kind = KINDS[node.type]
    if kind not in NAMED:
        return kind
    prefix = node.namespace.contents.prefix + b":" if kind != "instruction" and node.namespace else b""
    return f"{kind} {(prefix + node.name).decode()}"


class Document:
    """A document in libxml2; queries begin at the document node."""

    def __init__(self, pointer):
        if not pointer:
            raise ValueError("libxml2 reads no document")
        self.pointer = pointer
        # As xsltproc does: it makes ordering what a query gives faster.
        LIBRARY.xmlXPathOrderDocElems(pointer)
        self.context = LIBRARY.xmlXPathNewContext(pointer)
        self.context.contents.node = pointer

    @staticmethod
    def of(data):
        return Document(LIBRARY.xmlReadMemory(data, len(data), b"", None, OPTIONS))

    @staticmethod
    def at(path):
        return Document(LIBRARY.xmlReadFile(path.encode(), None, OPTIONS))

    def close(self):
        LIBRARY.xmlXPathFreeContext(self.context)
        LIBRARY.xmlFreeDoc(self.pointer)

    def nodes(self):
        """Each node as `query` prints it, under its address, in document order; a DOCTYPE is no node."""
        found = {}

        def visit(node):
            if node.type not in KINDS:
                return
            found[ctypes.addressof(node)] = f"{len(found)} {described(node)}"
            for first in (node.properties,) if node.type == 1 else ():
                visit_all(first)
            if node.type in (1, 9):
                visit_all(node.children)

        def visit_all(pointer):
            while pointer:
                visit(pointer.contents)
                pointer = pointer.contents.next

        visit(Node.from_address(self.pointer))
        return found

    def give(self, query, take):
        """What `take` makes of what the query gives, None where the query is refused."""
        compiled = LIBRARY.xmlXPathCompile(query.encode())
        if not compiled:
            return None
        given = LIBRARY.xmlXPathCompiledEval(compiled, self.context)
        taken = take(given.contents) if given else None
        if given:
            LIBRARY.xmlXPathFreeObject(given)
        LIBRARY.xmlXPathFreeCompExpr(compiled)
        return taken

    def select(self, query):
        """The addresses of the nodes that a query selects; None where it is refused or gives no nodes.

        In brackets, since libxml2 answers short paths by its patterns otherwise, and these leave the document out of `././/.`.
        """
        return self.give(f"({query})", addresses)

    def count(self, query):
        """How many nodes a query selects."""
        return self.give(f"count({query})", lambda given: int(given.number) if given.type == NUMBER else None)


def addresses(given):
    if given.type != NODES:
        return None
    nodes = given.nodes
    return nodes.contents.nodes[: nodes.contents.count] if nodes else []
