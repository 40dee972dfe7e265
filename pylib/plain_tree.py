"""Documents as plain trees that are edited."""
import itertools
import sys
import xml.parsers.expat


class Node:
    """A node with the one above it, how many are below it, and the address of libxml2's node for it, where it has one."""

    __slots__ = ("kind", "name", "value", "parent", "below", "peer")

    def __init__(self, kind, name, value, parent):
        self.kind, self.name, self.value, self.parent, self.below = kind, name, value, parent, 0


def is_declaration(node):
    """Whether it declares a namespace."""
    return node.kind == "attribute" and (node.name == "xmlns" or node.name.startswith("xmlns:"))


def is_aside(nodes):
    """Whether they may stand beside the root element."""
    return all(node.kind in ("comment", "instruction") for node in nodes)


class Reader:
    """The nodes of a document in document order, from expat's calls."""

    def __init__(self):
        self.nodes = [Node("document", "", "", None)]
        self.open = [0]  # numbers of the nodes that haven't ended

    def add(self, kind, name, value):
        self.nodes.append(Node(kind, name, value, self.nodes[self.open[-1]]))

    def start(self, name, attributes):
        self.add("element", name, "")
        self.open.append(len(self.nodes) - 1)
        for attribute, value in zip(attributes[::2], attributes[1::2]):
            self.add("attribute", attribute, value)

    def end(self, _name=""):
        number = self.open.pop()
        self.nodes[number].below = len(self.nodes) - 1 - number

    def text(self, data):
        last = self.nodes[-1]
        if last.kind == "text" and last.parent is self.nodes[self.open[-1]]:
            last.value += data  # expat gives a long text in pieces
        else:
            self.add("text", "", data)


def parse(data):
    reader = Reader()
    parser = xml.parsers.expat.ParserCreate()
    parser.ordered_attributes = True
    parser.buffer_text = True
    parser.buffer_size = 1 << 20
    parser.StartElementHandler = reader.start
    parser.EndElementHandler = reader.end
    parser.CharacterDataHandler = reader.text
    parser.CommentHandler = lambda text: reader.add("comment", "", text)
    parser.ProcessingInstructionHandler = lambda target, text: reader.add("instruction", target, text)
    parser.Parse(data, True)
    reader.end()
    return reader.nodes


def read(path):
    with open(path, "rb") as file:
        return parse(file.read())


def fragment_of(written):
    """The nodes of a fragment, of which the outermost stand under none."""
    _, root, *nodes = parse(f"<r>{written}</r>".encode())
    for node in nodes:
        if node.parent is root:
            node.parent = None
    return nodes


def may_have(kind, value):
    """Whether a node of this kind may have the value."""
    return {
        "attribute": True,
        "text": value != "",
        "comment": "--" not in value + "-" and "\r" not in value,
        "instruction": "?>" not in value and "\r" not in value and not value.startswith((" ", "\t", "\n")),
    }.get(kind, False)


def are_texts(left, right):
    """Whether they are two texts with one parent."""
    return left.kind == right.kind == "text" and left.parent is right.parent


class Tree:
    """A document that is edited, as the list of its nodes in document order: a node's number is its place there."""

    def __init__(self, nodes):
        self.nodes = nodes

    def edit(self, command, number, given, refusal):
        """The line that an edit prints, and what libxml2 is told of it where it is made; a refusal is what comes of what it gives."""
        if number >= len(self.nodes):
            return "! no-node", None
        if refusal:
            return refusal, None
        told = getattr(self, command)(number, self.nodes[number], *given)
        return (f"ok nodes {len(self.nodes)}" if told else "! not-allowed"), told

    def rename(self, number, node, name):
        if node.kind == "attribute":
            allowed = all(other is node or other.name != name for other in self.attributes(number))
        else:
            allowed = node.kind == "element" or node.kind == "instruction" and name.lower() != "xml"
        if not allowed:
            return None
        node.name = name
        return "rename", node, name

    def attributes(self, number):
        """The attributes of the element that has the attribute with this number, or of the element with this number."""
        first, end = number, number + 1
        while self.nodes[first].kind == "attribute":
            first -= 1
        while end < len(self.nodes) and self.nodes[end].kind == "attribute":
            end += 1
        return self.nodes[first + 1 : end]

    def value(self, _number, node, value):
        if not may_have(node.kind, value):
            return None
        node.value = value
        return "value", node, value

    def delete(self, number, node):
        if not self.is_spare(node):
            return None
        end = number + 1 + node.below
        beside = self.nodes[number - 1 : number] + self.nodes[end : end + 1]
        met = beside if len(beside) == 2 and are_texts(*beside) and beside[0].parent is node.parent else None
        if met:
            met[0].value += met[1].value
            end += 1
        self.change(number, end, node.parent, [])
        return "delete", node, met

    def insert(self, number, node, written, nodes):
        above = node.parent
        if above is None or node.kind == "attribute" or above.kind == "document" and not is_aside(nodes):
            return None
        return "insert", node, written, self.come(number, above, nodes)

    def append(self, number, node, written, nodes):
        if node.kind not in ("document", "element") or node.kind == "document" and not is_aside(nodes):
            return None
        return "append", node, written, self.come(number + 1 + node.below, node, nodes)

    def attr(self, number, node, name, value):
        if node.kind != "element":
            return None
        others = self.attributes(number)
        attribute = next((other for other in others if other.name == name), None)
        if attribute is None:
            attribute = Node("attribute", name, value, node)
            end = number + 1 + len(others)
            self.change(end, end, node, [attribute])
        attribute.value = value
        return "attr", node, name, value, attribute

    def copy(self, number, node):
        if node.kind == "attribute" or not self.is_spare(node):
            return None
        if node.kind == "text":
            node.value *= 2
            return "copy", node, [node]
        twins = self.twins(number, node)
        self.change(number, number, node.parent, twins)
        return "copy", node, twins

    def is_spare(self, node):
        """Whether it is neither the document nor the root element."""
        return node.parent is not None and (node.parent.kind != "document" or node.kind != "element")

    def twins(self, number, node):
        """The node with all below it, once more."""
        nodes = self.nodes[number : number + 1 + node.below]
        twins = {id(node.parent): node.parent}
        for other in nodes:
            twin = Node(other.kind, other.name, other.value, twins[id(other.parent)])
            twin.below = other.below
            twins[id(other)] = twin
        return [twins[id(other)] for other in nodes]

    def come(self, number, above, nodes):
        """Puts a fragment among the kids of a node, and answers its nodes; in the place of a text that meets another stands that one."""
        came, rest = list(nodes), list(nodes)
        for node in nodes:
            if node.parent is None:
                node.parent = above
        left = self.nodes[number - 1]
        if are_texts(left, rest[0]):
            left.value += rest.pop(0).value
            came[0] = left
        right = self.nodes[number] if number < len(self.nodes) else None
        if right and rest and are_texts(rest[-1], right):
            right.value = rest.pop().value + right.value
            came[-1] = right
        self.change(number, number, above, rest)
        return came

    def change(self, number, end, above, others):
        """Puts others in the place of nodes below one."""
        self.nodes[number:end] = others
        while above:
            above.below += len(others) - (end - number)
            above = above.parent


def described(nodes):
    """The nodes as tuples that can be compared."""
    return ((node.kind, node.name, node.value, node.below) for node in nodes)


def ordered(tuples):
    """Nodes with the attributes of each element by their names."""
    for are_attributes, group in itertools.groupby(tuples, lambda node: node[0] == "attribute"):
        yield from sorted(group) if are_attributes else group


def check_nodes(what, found, wanted):
    for number, (node, other) in enumerate(itertools.zip_longest(found, wanted)):
        if node != other:
            sys.exit(f"{what}: node {number} is\n  {node!r:.400}\nand should be\n  {other!r:.400}")
