"""The same edits of libxml2's tree."""
import ctypes
import os
import sys

from libxml2 import LIBRARY, LONG, OPTIONS, POINTER, TEXT, WHOLE, declare
from libxml2_paths import KINDS, Node
from measuring import timed
from plain_tree import check_nodes, described, is_declaration, ordered, read

AS_XML = 1 << 3 | 1 << 5  # XML_SAVE_NO_XHTML, XML_SAVE_AS_XML


declare([
    ("xmlNodeSetName", None, POINTER, TEXT),
    ("xmlNodeSetContent", None, POINTER, TEXT),
    ("xmlUnlinkNode", None, POINTER),
    ("xmlFreeNode", None, POINTER),
    ("xmlTextMerge", POINTER, POINTER, POINTER),
    ("xmlParseInNodeContext", WHOLE, POINTER, TEXT, WHOLE, WHOLE, POINTER),
    ("xmlAddPrevSibling", POINTER, POINTER, POINTER),
    ("xmlAddChild", POINTER, POINTER, POINTER),
    ("xmlSetProp", POINTER, POINTER, TEXT, TEXT),
    ("xmlDocCopyNode", POINTER, POINTER, POINTER, WHOLE),
    ("xmlDOMWrapCloneNode", WHOLE, POINTER, POINTER, POINTER, POINTER, POINTER, POINTER, WHOLE, WHOLE),
    ("xmlSaveToFilename", POINTER, TEXT, TEXT, WHOLE),
    ("xmlSaveDoc", LONG, POINTER, POINTER),
    ("xmlSaveClose", WHOLE, POINTER),
])  # fmt: skip


def peers(address, is_alone=False):
    """libxml2's nodes from one on in document order, each with its kind; a DOCTYPE is no node, nor is the text of an empty CDATA section."""
    waiting = [ctypes.cast(address, ctypes.POINTER(Node))]
    while waiting:
        pointer = waiting.pop()
        if not pointer:
            continue
        node = pointer.contents
        if not is_alone:
            waiting.append(node.next)
        is_alone = False
        kind = KINDS.get(node.type)
        if kind is None or kind == "text" and ctypes.string_at(node.content, 1) == b"\0":
            continue
        yield ctypes.addressof(node), kind
        if kind in ("document", "element"):
            waiting.append(node.children)
        if kind == "element":
            waiting.append(node.properties)


def siblings(address):
    """The node and those behind it."""
    while address:
        yield address
        following = Node.from_address(address).next
        address = ctypes.addressof(following.contents) if following else None


def give_peers(name, nodes, theirs):
    ours = [node for node in nodes if not is_declaration(node)]
    theirs = list(theirs)
    if [node.kind for node in ours] != [kind for _, kind in theirs]:
        sys.exit(f"{name}: libxml2 has other nodes")
    for node, (address, _) in zip(ours, theirs):
        node.peer = address


def local_part(address, name):
    """The part of a name that a node of libxml2 keeps: without the prefix of its namespace."""
    namespace = Node.from_address(address).namespace
    return name[name.find(":") + 1 :] if namespace and namespace.contents.prefix else name


class Edited:
    """A document in libxml2 whose nodes are the peers of a plain tree's."""

    def __init__(self, name, path, nodes):
        self.name = name
        self.document, self.seconds = timed(LIBRARY.xmlReadFile, path.encode(), None, OPTIONS)
        if not self.document:
            sys.exit(f"{name}: libxml2 reads no document")
        give_peers(name, nodes, peers(self.document))

    def edit(self, command, node, *given):
        """The seconds of the calls that make an edit."""
        return getattr(self, command)(node, *given)

    def rename(self, node, name):
        return timed(LIBRARY.xmlNodeSetName, node.peer, local_part(node.peer, name).encode())[1]

    def value(self, node, value):
        # An attribute's references are read.
        content = value.replace("&", "&amp;").replace("<", "&lt;") if node.kind == "attribute" else value
        return timed(LIBRARY.xmlNodeSetContent, node.peer, content.encode())[1]

    def delete(self, node, met):
        def calls():
            LIBRARY.xmlUnlinkNode(node.peer)
            LIBRARY.xmlFreeNode(node.peer)
            if met:
                LIBRARY.xmlTextMerge(met[0].peer, met[1].peer)

        return timed(calls)[1]

    def insert(self, node, written, came):
        def add(addresses):
            added, at = [], node.peer
            for address in reversed(addresses):  # before a text another text would become one with it
                at = LIBRARY.xmlAddPrevSibling(at, address)
                added.insert(0, at)
            left = getattr(came[0], "peer", added[0])
            if left != added[0]:  # and behind one it stays another
                added[0] = LIBRARY.xmlTextMerge(left, added[0])
            return added

        above = Node.from_address(node.peer).parent
        return self.come(written, ctypes.addressof(above.contents), add, came)

    def append(self, node, written, came):
        return self.come(written, node.peer, lambda addresses: [LIBRARY.xmlAddChild(node.peer, address) for address in addresses], came)

    def come(self, written, above, add, came):
        """Reads a fragment in the place where it comes, and adds its nodes."""
        data = written.encode()

        def calls():
            first = ctypes.c_void_p()
            if LIBRARY.xmlParseInNodeContext(above, data, len(data), OPTIONS, ctypes.byref(first)) != 0:
                sys.exit(f"{self.name}: libxml2 reads no fragment in {written!r}")
            return add(list(siblings(first.value)))

        added, seconds = timed(calls)
        give_peers(f"{self.name}, {written!r}", came, (peer for address in added for peer in peers(address, True)))
        return seconds

    def attr(self, node, name, value, attribute):
        attribute.peer, seconds = timed(LIBRARY.xmlSetProp, node.peer, name.encode(), value.encode())
        return seconds

    def copy(self, node, twins):
        above = ctypes.addressof(Node.from_address(node.peer).parent.contents)

        def calls():
            if node.kind != "element":
                return LIBRARY.xmlAddPrevSibling(node.peer, LIBRARY.xmlDocCopyNode(node.peer, self.document, 1))
            twin = ctypes.c_void_p()
            # `xmlDocCopyNode` would declare again the namespaces that are declared above.
            LIBRARY.xmlDOMWrapCloneNode(None, self.document, node.peer, ctypes.byref(twin), self.document, above, 1, 0)
            return LIBRARY.xmlAddPrevSibling(node.peer, twin)

        added, seconds = timed(calls)
        give_peers(f"{self.name}, copied", twins, peers(added, True))
        return seconds

    def save(self, path):
        out = LIBRARY.xmlSaveToFilename(path.encode(), b"UTF-8", AS_XML)
        LIBRARY.xmlSaveDoc(out, self.document)
        LIBRARY.xmlSaveClose(out)

    def close(self, folder, nodes):
        """Saves the document, which has to be that of the nodes, and adds the seconds of that to those of its reading."""
        path = os.path.join(folder, "d")
        self.seconds += timed(self.save, path)[1]
        LIBRARY.xmlFreeDoc(self.document)
        check_nodes(f"{self.name}, saved by libxml2", ordered(described(read(path))), ordered(described(nodes)))
