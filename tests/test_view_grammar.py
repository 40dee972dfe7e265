"""Tests of tools/view_grammar, on grammar files that are written byte by byte, as docs/FILES.md says."""
import contextlib
import io
import os
import subprocess
import sys
import tempfile
import unittest
from importlib.machinery import SourceFileLoader
from types import ModuleType
from unittest import mock

sys.dont_write_bytecode = True
TOP = os.path.dirname(os.path.dirname(os.path.realpath(__file__)))
TOOL = os.path.join(TOP, "tools", "view_grammar")


def data_of(*parts):
    """Bytes of hexadecimal digits, and of bytes."""
    return b"".join(part if isinstance(part, bytes) else bytes.fromhex(part) for part in parts)


MARK, MARK_1 = "54 47 46 32", "54 47 46 31"
NAMES = "03  00 00  01 01 61  01 01 62"  # the document, the elements a and b
ROW_RULES = "02  01 02 02 00 02 02 00 01  00 02 00 02 01 03 00 03 00 03 00 00 00 00"
ROW = data_of(MARK, NAMES, ROW_RULES, "00 00")
TEXT_NAMES = "05  00 00  01 01 61  01 01 62  03 00  01 01 63"
TEXT_RULES = "02  00 02 03 00 00  00 02 00 02 01 02 02 03 00 02 02 03 00 02 04 03 00 00 00 00"
TEXTS = data_of(MARK, TEXT_NAMES, TEXT_RULES, "02 01 78 01 79  03 00 00 01")
ONE_RULE = "00 02 00 02 01 00 00 00"  # the start of an empty element a
OTHER_BYTES = [*range(16), *b"ab\x1b\x7f\x80\x81\xc3\xff"]
LARGEST = "FF FF FF FF FF FF FF FF FF 01"  # 2^64 - 1

ROW_SHOWN = """\
rule 0: rank 1, size 4, calls 3, saves 5
    b(bottom, b(bottom, y1))
start: size 8
    document(a(call 0 (call 0 (call 0 (bottom))), bottom), bottom)
version 2 names 3 rules 2 size 12 texts 0
"""
TEXTS_SHOWN = """\
rule 0: rank 0, size 3, calls 3, saves 3
    #text(bottom, bottom)
start: size 11
    document(a(b(call 0, b(call 0, c(call 0, bottom))), bottom), bottom)
version 2 names 5 rules 2 size 14 texts 3
"""


def load_tool():
    """The tool's own functions."""
    loader = SourceFileLoader("view_grammar", TOOL)
    module = ModuleType(loader.name)
    module.__file__ = TOOL
    loader.exec_module(module)
    return module


tool = load_tool()


@contextlib.contextmanager
def file_of(data):
    with tempfile.TemporaryDirectory() as folder:
        path = os.path.join(folder, "g")
        with open(path, "wb") as out:
            out.write(data)
        yield path


def view(data, *words):
    """The tool's status, standard output and standard error, without the file's name, for a file with these bytes."""
    printed, status, errors = io.TextIOWrapper(io.BytesIO(), "utf-8"), 0, ""
    with file_of(data) as path, mock.patch("sys.argv", [TOOL, *words, path]), contextlib.redirect_stdout(printed):
        try:
            tool.main()
        except SystemExit as end:  # of which Python prints a text, with status 1
            status, errors = 1, f"{end.code}\n".replace(f"{path}: ", "")
    printed.flush()
    return status, printed.buffer.getvalue().decode(), errors


def run(data, *words, **settings):
    """As `view`, of a process of its own, whose environment has these settings."""
    with file_of(data) as path:
        done = subprocess.run([sys.executable, TOOL, *words, path], capture_output=True, env={**os.environ, **settings})
        return done.returncode, done.stdout.decode(), done.stderr.decode().replace(f"{path}: ", "")


class ViewGrammar(unittest.TestCase):
    def refused(self, why, *parts):
        """The tool refuses a file of these parts in one line that begins so."""
        status, printed, errors = view(data_of(*parts))
        self.assertEqual((status, printed), (1, ""), parts)
        self.assertRegex(errors, rf"\A{why}[^\n]*\n\Z")

    def test_shared_rule(self):
        for way in (view, run):
            self.assertEqual(way(ROW), (0, ROW_SHOWN, ""))

    def test_texts(self):
        self.assertEqual(view(TEXTS), (0, TEXTS_SHOWN, ""))

    def test_version_1(self):
        row = data_of(MARK_1, NAMES, ROW_RULES, "00")
        texts = data_of(MARK_1, TEXT_NAMES, TEXT_RULES, "03 01 78 01 78 01 79")
        self.assertEqual(view(row), (0, ROW_SHOWN.replace("version 2", "version 1"), ""))
        self.assertEqual(view(texts), (0, TEXTS_SHOWN.replace("version 2", "version 1"), ""))

    def test_chosen_rules(self):
        rule, last = ROW_SHOWN[: ROW_SHOWN.index("start")], ROW_SHOWN.splitlines(True)[-1]
        self.assertEqual(view(ROW, "--rule", "0"), (0, rule + last, ""))
        cut = "start: size 8\n    document(a(.., bottom), bottom)\n" + last
        self.assertEqual(view(ROW, "--rule", "start", "--depth", "2"), (0, cut, ""))
        status, printed, errors = view(ROW, "--rule", "2")
        self.assertEqual((status, printed, errors), (1, "", "the last of its 2 rules is 1, the start\n"))

    def test_lines_for_graphviz(self):
        status, printed, errors = view(ROW, "--dot", "--rule", "0")
        self.assertEqual((status, errors), (0, ""))
        self.assertIn('        n0_0 [label="b"];\n        n0_1 [label="bottom"];\n        n0_0 -> n0_1;\n', printed)
        self.assertEqual(printed.count("->"), 4)

    def test_other_mark(self):
        for data in (b"TGF3" + ROW[4:], b"<a/>", b"\x7fELF"):
            self.refused("it begins with neither TGF1 nor TGF2", data)
        self.refused("the file ends at byte 0", b"")
        self.assertEqual(run(b"<a/>"), (1, "", "it begins with neither TGF1 nor TGF2\n"))

    def test_bad_numbers(self):
        for padded in ("80 00", "83 80 00", "FF " * 9 + "02", "80 " * 11 + "01", "80 " * 10_000):
            self.refused("the number before byte", MARK, padded)
        for large in ("FF FF FF FF 0F", "80 80 80 80 80 80 80 80 80 01", LARGEST):
            self.refused("the file ends", MARK, large)  # names
            self.refused("the file ends", MARK, "01 01", large, b"a")  # bytes of a name
            self.refused("the file ends", MARK, NAMES, large)  # rules
            self.refused("the file ends", MARK, NAMES, "01", ONE_RULE, large)  # texts
            self.refused("no label stands", MARK, NAMES, "01 00 02", large)  # a name's place
            self.refused("no label stands", MARK, NAMES, "01 00 03", large)  # a rule's place
            self.refused("place", MARK, NAMES, "01", ONE_RULE, "01 01 78 01", large)  # a text's place

    def test_bad_names(self):
        self.refused("no kind of node has the number 6", MARK, "01 06 00")
        self.refused("a name stands twice", MARK, "02 01 01 61 01 01 61")
        self.refused("the string before byte 8 isn't UTF-8", MARK, "01 01 01 FF", NAMES)

    def test_bad_rules(self):
        self.refused("no label stands", MARK, NAMES, "02  00 03 00  00 03 00  00 00")  # a call of itself
        self.refused("no label stands", MARK, NAMES, "02  00 03 01", ONE_RULE, "00 00")  # and of a later one
        self.refused("no label stands", MARK, NAMES, "01 00 04  00 00")
        self.refused("no label stands", MARK, NAMES, "01 00 02 03 00 00  00 00")
        self.refused("rule 0 has the rank 1 and 0 parameters", MARK, NAMES, "01 01 00  00 00")
        self.refused("rule 0 has the rank 9 and 9 parameters", MARK, NAMES, "01 09", "02 01 01 " * 9, "00" * 9)
        self.refused("rule 0 is not called", MARK, NAMES, "02 00 00", ONE_RULE, "00 00")
        for none in ("00", "01 01 01"):
            self.refused("it has no start without parameters", MARK, NAMES, none, "00 00")

    def test_bad_texts(self):
        front = data_of(MARK, TEXT_NAMES, TEXT_RULES)
        self.refused("place 1 comes where", front, "02 01 78 01 79  03 01 01 00")
        self.refused("text 1 of the table has no place", front, "02 01 78 01 79  03 00 00 00")
        self.refused("place 2 comes where", front, "02 01 78 01 79  03 00 00 02")
        self.refused("a text stands twice", front, "02 01 78 01 78  03 00 01 01")
        self.refused("the string before byte", front, "01 01 80  01 00")
        self.refused(f"something follows at byte {len(TEXTS)}", TEXTS, b"\0")

    def test_names_that_do_more_than_be_printed(self):
        bell = data_of(MARK, "02 00 00 01 06", b"a\n\x1b[1m", "01", ONE_RULE, "00 00")
        self.assertIn("document(a\\n\\x1b[1m(bottom, bottom), bottom)\n", view(bell)[1])
        letter = data_of(MARK, "02 00 00 01 02 C3 A9", "01", ONE_RULE, "00 00")
        self.assertIn("document(\u00e9(bottom, bottom), bottom)\n", run(letter, PYTHONIOENCODING="utf-8")[1])
        self.assertEqual(run(letter, PYTHONIOENCODING="ascii")[::2], (0, ""))

    def test_cut_and_changed_files(self):
        """Each beginning of a file is refused, and each copy with another byte in one place is refused in one line or shown."""
        for whole in (ROW, TEXTS, data_of(MARK_1, TEXT_NAMES, TEXT_RULES, "03 01 78 01 78 01 79")):
            for length in range(len(whole)):
                with self.assertRaisesRegex(ValueError, rf"\Athe file ends at byte {length}\Z"):
                    tool.read(whole[:length])
            for at in range(len(whole)):
                for byte in OTHER_BYTES:
                    self.show_or_refuse(whole[:at] + bytes([byte]) + whole[at + 1 :])

    def show_or_refuse(self, data):
        try:
            grammar = tool.read(data)
        except ValueError as error:
            self.assertNotIn("\n", str(error))
            return
        seen = tool.View(grammar, None, None)
        with contextlib.redirect_stdout(io.StringIO()) as printed:
            seen.print_rules()
        self.assertEqual(printed.getvalue().count("\n"), 2 * len(grammar.rules) + 1)
        self.assertTrue(list(seen.dot()))

    def test_deep_file(self):
        """Nodes within one another are shown without recursion."""
        count = 100_000
        deep = data_of(MARK, NAMES, "01 00", b"\x02\x00" + b"\x02\x01" * count, b"\0" * (count + 2), "00 00")
        status, printed, errors = view(deep)
        self.assertEqual((status, errors), (0, ""))
        self.assertEqual(printed.count("a("), count)


if __name__ == "__main__":
    unittest.main()
