"""Random documents and queries of the profile."""
ELEMENTS = ["a", "a", "b", "b", "c", "d", "e-f", "g.h", "t\u00e9", "or", "and", "not", "text", "node", "div", "child", "true"]
ATTRIBUTES = ["a", "b", "x", "y", "or", "xml:lang"]
TARGETS = ["go", "a", "or"]
TEXTS = ["t", " ", "\n  ", "x &amp; y", "&#65;", "<![CDATA[<b/>]]>", "\u00e9", "]]", "a"]
AXES = ["child", "descendant", "descendant-or-self", "self", "following-sibling", "attribute"]
KIND_TESTS = ["node", "text", "comment", "processing-instruction"]
# What texts and values of attributes may be compared with, some of them of none.
LITERALS = ["", "1", "v", "t", " ", "x & y", "x &amp; y", "A", "&#65;", "<b/>", "\u00e9", "]]", "a", "ta", "it's", 'so "it" is', "[b", "or"]
LIMIT = 64  # parts of a query outside its filters, and in them


class RandomDocument:
    """A document's text; pieces that were made are used again."""

    def __init__(self, chance):
        self.chance = chance
        self.made = []
        self.text = "".join([self.outside(), self.chance.choice(["", "", "<!DOCTYPE a>"]), self.element(0), self.outside()])

    def outside(self):
        return "".join(self.chance.choice(["\n", "<!--o-->", "<?go now?>"]) for _ in range(self.chance.choice([0, 0, 1, 2])))

    def element(self, depth):
        chance = self.chance
        if depth > 0 and self.made and chance.random() < 0.3:
            return chance.choice(self.made) * chance.choice([1, 1, 2, 5])
        name = chance.choice(ELEMENTS if chance.random() < 0.3 else ELEMENTS[:4])
        names = chance.sample(ATTRIBUTES, chance.choice([0, 0, 0, 1, 1, 2, 3]))
        tag = name + "".join(f' {attribute}="{chance.choice(["", "1", "v"])}"' for attribute in names)
        most = 4 if depth < 7 else 1
        kids = "".join(self.kid(depth + 1) for _ in range(chance.randrange(2, 7) if depth < 2 else chance.randrange(most)))
        text = f"<{tag}>{kids}</{name}>" if kids or chance.random() < 0.2 else f"<{tag}/>"
        if len(text) < 300:
            self.made.append(text)
        return text

    def kid(self, depth):
        chance = self.chance
        kind = chance.random()
        if kind < 0.65:
            return self.element(depth)
        if kind < 0.85:
            return chance.choice(TEXTS)
        return "<!--c-->" if kind < 0.93 else f"<?{chance.choice(TARGETS)} v?>"


class RandomQuery:
    """A query's text, and how many parts it has outside its filters and in them. So often a part of a filter is a comparison."""

    def __init__(self, chance, comparisons=0.0):
        self.chance = chance
        self.comparisons = comparisons
        self.counts = [0, 0]
        large = chance.random() < 0.02
        self.most = 30 if large else chance.choice([1, 2, 3, 4, 5])  # steps of a path
        self.wanted = 100 if large else chance.choice([0, 1, 2, 4, 8, 16])  # parts in filters; where they are reached, no filter begins
        self.spaced = chance.random() < 0.3
        self.text = self.joined("|", [self.path() for _ in range(chance.choice([1, 1, 1, 1, 2, 3]))])

    def is_large(self):
        return max(self.counts) > LIMIT

    def part(self, depth):
        self.counts[min(depth, 1)] += 1

    def goes_on(self, probability):
        """Whether something more of this probability is put into a filter."""
        return self.counts[1] < self.wanted and self.chance.random() < probability

    def gap(self):
        return self.chance.choice(["", "", " ", "\t"]) if self.spaced else ""

    def joined(self, sign, parts):
        return f"{self.gap()}{sign}{self.gap()}".join(parts)

    def path(self):
        front = self.chance.choice(["", "/", "//", "//", "//"])
        if front == "/" and self.chance.random() < 0.1:
            return "/"
        if front == "//":
            self.part(0)
        return front + self.gap() + self.steps(0)

    def steps(self, depth):
        more = self.chance.randrange(self.most) if depth == 0 else self.chance.choice([0, 0, 0, 1, 2])
        parts = [self.step(depth)]
        for _ in range(more):
            sign = self.chance.choice(["/", "/", "//"])
            if sign == "//":
                self.part(depth)
            parts += [self.gap(), sign, self.gap(), self.step(depth)]
        return "".join(parts)

    def step(self, depth):
        chance = self.chance
        self.part(depth)
        if chance.random() < 0.08:
            return "."
        front, attribute = "", False
        how = chance.random()
        if how < 0.12:
            front, attribute = "@" + self.gap(), True
        elif how < 0.6:
            axis = chance.choice(AXES)
            front, attribute = f"{axis}{self.gap()}::{self.gap()}", axis == "attribute"
        step = front + self.test(attribute)
        while self.goes_on(0.5 if depth == 0 else 0.2):
            step += self.gap() + self.filter(depth + 1)
        return step

    def test(self, attribute):
        chance = self.chance
        how = chance.random()
        if how < 0.35:
            return "*"
        if how < 0.55:
            kind = chance.choice(["node"] * 3 + KIND_TESTS)
            return f"{kind}{self.gap()}({self.gap()})"
        if attribute:
            return chance.choice(ATTRIBUTES)
        return chance.choice(ELEMENTS if chance.random() < 0.2 else ELEMENTS[:4])

    def filter(self, depth):
        return f"[{self.gap()}{self.either(depth)}{self.gap()}]"

    def either(self, depth):
        return self.listed(" or ", depth, 0.2, lambda: self.listed(" and ", depth, 0.3, lambda: self.unit(depth)))

    def listed(self, sign, depth, probability, make):
        parts = [make()]
        while self.goes_on(probability):
            self.part(depth)
            parts.append(make())
        return self.joined(sign, parts)

    def unit(self, depth):
        if self.goes_on(0.25):
            self.part(depth)
            return f"not{self.gap()}({self.gap()}{self.either(depth)}{self.gap()})"
        if self.goes_on(0.1):
            self.part(depth)
            return f"{self.chance.choice(['true', 'false'])}{self.gap()}({self.gap()})"
        if self.goes_on(0.1):
            return f"({self.gap()}{self.either(depth)}{self.gap()})"
        if self.goes_on(self.comparisons):
            self.part(depth)
            return self.comparison()
        return self.listed("|", depth, 0.15, lambda: self.steps(depth))

    def comparison(self):
        chance = self.chance
        if chance.random() < 0.5:
            front = chance.choice(["", "", f"child{self.gap()}::{self.gap()}"]) + f"text{self.gap()}({self.gap()})"
        else:
            front = chance.choice(["@", "@", f"attribute{self.gap()}::"]) + self.gap() + chance.choice(ATTRIBUTES)
        literal = chance.choice(LITERALS)
        quote = "'" if '"' in literal else '"' if "'" in literal else chance.choice("'\"")
        return f"{front}{self.gap()}={self.gap()}{quote}{literal}{quote}"
