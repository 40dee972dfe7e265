"""The words of scripts, and what stands at their end."""
import argparse
import sys
import tempfile

from documents import documents_of, log_and_catalogue, records
from programs import build

HELP = {
    "megabytes": "size of the log and of the catalogue",
    "show": "shows so many differences, the shortest first",
    "times": "for each of the two commands",
}


def parser_of(usage, files=None, **numbers):
    """A parser of a script's words: numbers with what they are where they aren't given, and files. Its help is the script's head."""
    parser = argparse.ArgumentParser(description=usage, formatter_class=argparse.RawDescriptionHelpFormatter)
    for name, given in numbers.items():
        several = "+" if isinstance(given, list) else None
        metavar = "SEED" if name == "seed" else "COUNT"
        parser.add_argument(f"--{name}", type=int, nargs=several, default=given, metavar=metavar, help=HELP.get(name))
    if files:
        parser.add_argument("files", nargs=files, metavar="FILE")
    return parser


def words_of(usage, files=None, **numbers):
    return parser_of(usage, files, **numbers).parse_args()


def number_of(usage, name, given):
    """The number that is a script's only word."""
    parser = parser_of(usage)
    parser.add_argument(name, type=int, nargs="?", default=given, metavar=name.upper())
    return getattr(parser.parse_args(), name)


def usual(chosen):
    """The documents that most scripts make: so many records where the script has a word for them, a log and a catalogue."""
    return [*map(records, [chosen.records] if "records" in chosen else []), *log_and_catalogue(chosen.megabytes)]


def measure_documents(parser, table, wanted=usual, head=None):
    """Calls `table` with a folder, each document, one that is named or one that is made, and the script's words. The script ends with 1 where one
    answers False."""
    chosen = parser.parse_args()
    build()
    if head:
        print(head, flush=True)
    with tempfile.TemporaryDirectory() as folder:
        answered = [table(folder, given, chosen) for given in documents_of(folder, chosen.files, wanted(chosen))]
    sys.exit(1 if False in answered else 0)
