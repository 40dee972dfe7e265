"""Reads grammar files, of version 1 or 2, by the rules of docs/FILES.md; ValueError tells in one line why one can't be read."""
from collections import Counter, namedtuple

MARKS = ["document", "{}", "@{}", "#text", "#comment", "?{}"]
VERSIONS = {b"TGF1": 1, b"TGF2": 2}
Grammar = namedtuple("Grammar", "version names rules texts")
Rule = namedtuple("Rule", "rank body")
# The kinds of nodes of a body; the number of a parameter, a symbol or a call stands beside it.
BOTTOM, PARAMETER, SYMBOL, CALL = range(4)
MOST_PARAMETERS = 8
MOST_BYTES = 10  # of a number


class Reader:
    """The bytes of a grammar file, from the front."""

    def __init__(self, data):
        self.data, self.at = data, 0

    def take(self, count):
        if count > len(self.data) - self.at:
            raise ValueError(f"the file ends at byte {len(self.data)}")
        self.at += count
        return self.data[self.at - count : self.at]

    def byte(self):
        return self.take(1)[0]

    def number(self):
        value = 0
        for place in range(MOST_BYTES):
            byte = self.byte()
            value |= (byte & 127) << 7 * place
            if byte < 128 and value < 1 << 64 and (byte or not place):
                return value
            if byte < 128:
                break
        raise ValueError(f"the number before byte {self.at} is padded or too large")

    def many(self, item):
        return [item() for _ in range(self.number())]

    def text(self):
        data = self.take(self.number())
        try:
            return data.decode()
        except UnicodeDecodeError:
            raise ValueError(f"the string before byte {self.at} isn't UTF-8") from None


def read_name(reader):
    kind, name = reader.byte(), reader.text()
    if kind >= len(MARKS):
        raise ValueError(f"no kind of node has the number {kind}")
    return kind, name


def read_names(reader):
    names = reader.many(lambda: read_name(reader))
    if len(set(names)) < len(names):
        raise ValueError("a name stands twice")
    return [MARKS[kind].format(name) for kind, name in names]


def read_rule(reader, names, ranks):
    """A rule; the ranks of the rules before it are known, and its own is added to them."""
    rank, body, open_nodes, parameters = reader.byte(), [], 1, 0
    while open_nodes:
        kind = reader.byte()
        number = reader.number() if kind in (SYMBOL, CALL) else 0
        if kind > CALL or (kind == SYMBOL and number >= len(names)) or (kind == CALL and number >= len(ranks)):
            raise ValueError(f"no label stands before byte {reader.at}")
        parameters += kind == PARAMETER
        body.append((kind, parameters if kind == PARAMETER else number))
        open_nodes += arity(kind, number, ranks) - 1
    if rank > MOST_PARAMETERS or parameters != rank:
        raise ValueError(f"rule {len(ranks)} has the rank {rank} and {parameters} parameters")
    ranks.append(rank)
    return Rule(rank, body)


def arity(kind, number, ranks):
    return 2 if kind == SYMBOL else ranks[number] if kind == CALL else 0


def read_texts(reader, version):
    """The texts; in version 2 the different ones come first, in the order of their first use, and then the place of each text among them."""
    table = reader.many(reader.text)
    if version == 1:
        return table
    if len(set(table)) < len(table):
        raise ValueError("a text stands twice in the table")
    places, used = reader.many(reader.number), 0
    for place in places:
        if place > used or place == len(table):
            raise ValueError(f"place {place} comes where the table has {len(table)} texts, {used} of them used so far")
        used = max(used, place + 1)
    if used < len(table):
        raise ValueError(f"text {used} of the table has no place")
    return [table[place] for place in places]


def read(data):
    """The version, names, rules and texts of a grammar file."""
    reader, ranks = Reader(data), []
    version = VERSIONS.get(reader.take(4))
    if version is None:
        raise ValueError("it begins with neither TGF1 nor TGF2")
    names = read_names(reader)
    rules = reader.many(lambda: read_rule(reader, names, ranks))
    check_calls(rules)
    texts = read_texts(reader, version)
    if reader.at < len(data):
        raise ValueError(f"something follows at byte {reader.at}")
    return Grammar(version, names, rules, texts)


def check_calls(rules):
    """The last rule is the start, and each other one is called."""
    if not rules or rules[-1].rank:
        raise ValueError("it has no start without parameters")
    uncalled = set(range(len(rules) - 1)) - set(calls_of(rules))
    if uncalled:
        raise ValueError(f"rule {min(uncalled)} is not called")


def calls_of(rules):
    """How often each rule is called."""
    return Counter(number for rule in rules for kind, number in rule.body if kind == CALL)
