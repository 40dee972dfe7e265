"""Grammar files, put together of pieces, each with how often it stands there."""
import itertools

MAGIC, BOTTOM, PARAMETER = b"TGF1", b"\x00", b"\x01"
DOCUMENT, ELEMENT, ATTRIBUTE, TEXT = range(4)  # kinds of names


def number(value):
    """A number as the file has it."""
    low = []
    while value >= 128:
        low.append(value & 127 | 128)
        value >>= 7
    return bytes([*low, value])


def name(kind, text=b""):
    return bytes([kind]) + number(len(text)) + text


def symbol(place):
    return b"\x02" + number(place)


def call(rule):
    return b"\x03" + number(rule)


def text(value):
    return number(len(value)) + value


def header(*names):
    """The front of a file with a document, an element r, and further names, whose places begin at 2."""
    listed = [name(DOCUMENT), name(ELEMENT, b"r"), *names]
    return MAGIC + number(len(listed)) + b"".join(listed)


def many(count, piece):
    return [(count, piece)]


def each(make, count):
    """Pieces that differ, each made of its number."""
    return ((1, make(at)) for at in range(count))


ROW = symbol(2) + BOTTOM  # a node with nothing below it, to which its next sibling comes
LEAF = b"\x01" + ROW + PARAMETER  # a rule of it
START = b"\x00" + symbol(0) + symbol(1)  # the front of the start rule: r's children come, and then an end
END = BOTTOM * 3
NO_TEXTS = number(0)


def doublings(count, leaf_name, *texts):
    """A rule of a node, and rules that each call the one before twice."""
    rules = each(lambda at: b"\x01" + call(at) * 2 + PARAMETER, count)
    return [many(1, header(leaf_name) + number(count + 2) + LEAF), rules, START, many(1, call(count)), END, *texts]


def joined(*parts):
    """The pieces of parts that are pieces, or bytes that stand there once, or iterators over pieces."""
    return itertools.chain(*(((1, part),) if isinstance(part, bytes) else part for part in parts))


def chunks(pieces):
    """The bytes of the pieces, never many at once: a program's peak of memory is at least what its caller had."""
    for times, piece in pieces:
        most = max(1, 65_536 // len(piece))
        for start in range(0, times, most):
            yield piece * min(most, times - start)


def write(path, pieces):
    with open(path, "wb") as out:
        out.writelines(chunks(pieces))
