"""Comparisons of what the program says with what should come of random inputs."""
import collections
import random
import sys
import tempfile

from programs import program_of
from scripts import parser_of


class Comparison:
    """How often each outcome came, and the inputs for which another one came than it should."""

    def __init__(self):
        self.classes = collections.Counter()
        self.wrong = []

    def count(self, name):
        self.classes[name] += 1

    def differs(self, *told):
        self.count("DIFFERENT")
        self.wrong.append(told)

    def end(self, most, show):
        """Prints all, with so many of the differences, the shortest first. The script ends with 1 where there are some."""
        for name, count in sorted(self.classes.items()):
            print(f"{count:>7}  {name}")
        for told in sorted(self.wrong, key=lambda told: len(told[0]) + len(told[1]))[:most]:
            show(*told)
        sys.exit(1 if self.wrong else 0)


def compare_pairs(usage, try_document, show):
    """Calls `try_document` with a comparison, the program, a source of chance, a folder and the most pairs that it may try, until all are tried.
    It answers how many it has tried."""
    parser = parser_of(usage, pairs=20_000, seed=1, show=10)
    parser.add_argument("--program")
    chosen = parser.parse_args()
    program, chance, comparison, left = program_of(chosen.program), random.Random(chosen.seed), Comparison(), chosen.pairs
    with tempfile.TemporaryDirectory() as folder:
        while left > 0:
            left -= try_document(comparison, program, chance, folder, left)
    comparison.end(chosen.show, show)
