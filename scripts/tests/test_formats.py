"""Suites and histories that are read and written, and what is said of broken ones."""
import unittest
from pathlib import Path

from support import TOP, InFolder, sealed

from dejavu_tools.errors import ToolError
from dejavu_tools.formats import Entry, History, Test, history_text, read_history, read_suite, suite_text
from dejavu_tools.words import HISTORY_RULES, SUITE_RULES

DIGEST = "f3e7b98b7d4d95f021635d364627ee64e4acd311669841db52966ba816eaeb96"

# The lines 1 to 19; its digests were taken by `sha256sum`.
TWO_TESTS = """dejavu history 3
source f3e7b98b7d4d95f021635d364627ee64e4acd311669841db52966ba816eaeb96
edges 9
tests 2
test A
budget 100
input 41
status exit 0
turns 9
output 42
crossed 5f01
test B
budget 100
input 42
status exit 0
turns 9
output 43
crossed af01
end eac55876d49f0d1fe32a649b9e1751d299b9e79be91b030c71dd123e5014b43c
"""

ALL_ENDS = """dejavu history 3
source f3e7b98b7d4d95f021635d364627ee64e4acd311669841db52966ba816eaeb96
edges 9
tests 3
test unset
budget 100
input -
status trap unset
turns 5
output 78
crossed 0d00
test turns
budget 0
input -
status turns
turns 0
output -
crossed 0000
test exit
budget 10000000
input 00ff
status exit 255
turns 10000000
output 0a0a
crossed 0001
"""

# Of no edges and no tests.
NOTHING = f"""dejavu history 3
source {"0" * 64}
edges 0
tests 0
"""

FIRST = "dejavu suite 1\n"

# Suites, each with the line that is refused and its least rule.
BROKEN_SUITES = (
    ("", 1, "S1"),
    ("\n", 1, "S1"),
    ("dejavu suite 2\n", 1, "S1"),
    ("dejavu suite 1 \ntest A 1 4\n", 1, "S1"),
    ("test A 1 -\n", 1, "S1"),
    ("dejavu suite", 1, "S1"),
    ("dejavu suite 1", 1, "S2"),
    (FIRST + "test", 2, "S2"),
    (FIRST + "test A 1 -\ntest B 1 -", 3, "S2"),
    (FIRST + "\n", 2, "S3"),
    (FIRST + "test A 1\n", 2, "S3"),
    (FIRST + "test A 1 \n", 2, "S3"),
    (FIRST + "test A 1 - \n", 2, "S3"),
    (FIRST + "test A 1 - -\n", 2, "S3"),
    (FIRST + "test  A 1 -\n", 2, "S3"),
    (FIRST + " test A 1 -\n", 2, "S3"),
    (FIRST + "Test A 1 -\n", 2, "S3"),
    (FIRST + "test .a 01 4\n", 2, "S4"),
    (FIRST + "test -a 1 -\n", 2, "S4"),
    (FIRST + "test a/b 1 -\n", 2, "S4"),
    (FIRST + "test a\u00e9 1 -\n", 2, "S4"),
    (FIRST + f"test {'n' * 65} 1 -\n", 2, "S4"),
    (FIRST + "test A 10000001 -\n", 2, "S5"),
    (FIRST + f"test A {'9' * 5000} -\n", 2, "S5"),
    (FIRST + "test A 01 4\n", 2, "S5"),
    (FIRST + "test A +1 -\n", 2, "S5"),
    (FIRST + "test A - -\n", 2, "S5"),
    (FIRST + "test A \u0661 -\n", 2, "S5"),
    (FIRST + "test A 1 4\n", 2, "S6"),
    (FIRST + "test A 1 0A\n", 2, "S6"),
    (FIRST + "test A 1 --\n", 2, "S6"),
    (FIRST + "test A 1 41\r\n", 2, "S6"),
    (FIRST + f"test A 1 {'5a' * 16385}\n", 2, "S7"),
    (FIRST + "test A 1 -\ntest A 1 -\ntest B x -\n", 4, "S5"),
)

# Lines of `TWO_TESTS` by their numbers, what stands in their places, the line that is refused, and its rule.
BROKEN_HISTORIES = (
    (1, "", 1, "H1"),
    (1, "refused: source too long\n", 1, "H1"),
    (1, "dejavu history 03\n", 1, "H1"),
    (1, "dejavu history 3\r\n", 1, "H1"),
    (1, "dejavu history 1000000000\n", 1, "H1"),
    (2, "source f3e7\n", 2, "H2"),
    (2, f"source {DIGEST.upper()}\n", 2, "H2"),
    (2, f"source  {DIGEST}\n", 2, "H2"),
    (3, "edges 10001\n", 3, "H3"),
    (3, "edges\n", 3, "H3"),
    (4, "tests 8193\n", 4, "H4"),
    (4, "test 2\n", 4, "H4"),
    (5, "test -A\n", 5, "H5"),
    (5, "test A B\n", 5, "H5"),
    (12, "test A\n", 12, "H6"),
    (6, "budget 10000001\n", 6, "H7"),
    (7, "input 4\n", 7, "H8"),
    (7, "input \n", 7, "H8"),
    (7, f"input {'41' * 16385}\n", 7, "H8"),
    (8, "status exit 256\n", 8, "H9"),
    (8, "status exit 00\n", 8, "H9"),
    (8, "status trap\n", 8, "H9"),
    (8, "status trap Bounds\n", 8, "H9"),
    (8, "status trap bounds \n", 8, "H9"),
    (15, "status turns 1\n", 15, "H9"),
    (8, "status turns\u00e9\n", 8, "H9"),
    (9, "turns 101\n", 9, "H10"),
    (10, "output 4G\n", 10, "H11"),
    (10, f"output {'41' * 16385}\n", 10, "H11"),
    (11, "crossed 5f\n", 11, "H12"),
    (11, "crossed 5f0100\n", 11, "H12"),
    (11, "crossed -\n", 11, "H12"),
    (11, "crossed 5f03\n", 11, "H12"),
    (3, "edges 8\n", 11, "H12"),
    (19, "end eac5\n", 19, "H13"),
    (4, "tests 1\n", 12, "H13"),
    (4, "tests 3\n", 19, "H5"),
    (20, "\n", 20, "H14"),
    (20, "x", 20, "H14"),
)


class Broken(InFolder):
    """What holds a broken file against its rule."""

    def check_broken(self, read, rules, text, line, rule):
        """The text is refused for a rule that a line breaks, in its words."""
        path = self.write("file", text)
        with self.subTest(text=text[-80:]), self.assertRaises(ToolError) as caught:
            read(path)
        self.assertEqual(str(caught.exception), f"{path}:{line}: {rules[rule].wrong} ({rule})")

    def check_refused(self, read, text, message):
        """The text is refused with a message of the file."""
        path = self.write("file", text)
        with self.assertRaises(ToolError) as caught:
            read(path)
        self.assertEqual((str(caught.exception), caught.exception.status), (f"{path}: {message}", 2))


class Suites(Broken):
    """Suites of tests."""

    def test_examples(self):
        self.assertEqual(read_suite(TOP / "examples/grades/suite"),
                         [Test("none", 100, b""), Test("failed", 100, b"4"), Test("passed", 100, b"7")])
        for name in ("first", "grades", "words", "ledger"):
            path = TOP / "examples" / name / "suite"
            with self.subTest(name):
                self.assertEqual(suite_text(read_suite(path)), path.read_bytes())

    def test_empty_suite(self):
        path = self.write("suite", "dejavu suite 1\n")
        self.assertEqual(read_suite(path), [])
        self.assertEqual(suite_text([]), b"dejavu suite 1\n")

    def test_broken_lines(self):
        for text, line, rule in BROKEN_SUITES:
            self.check_broken(read_suite, SUITE_RULES, text, line, rule)

    def test_names_budgets_and_inputs_at_their_limits(self):
        path = self.write("suite", f"dejavu suite 1\ntest {'n' * 64} 10000000 {'5a' * 16384}\ntest _ 0 -\n")
        self.assertEqual(read_suite(path), [Test("n" * 64, 10_000_000, b"Z" * 16_384), Test("_", 0, b"")])

    def test_name_that_stands_twice(self):
        path = self.write("suite", "dejavu suite 1\ntest A 1 -\ntest B 1 -\ntest B 2 41\ntest A 1 -\n")
        with self.assertRaisesRegex(ToolError, r"suite:4: a test of this name stood on an earlier line$"):
            read_suite(path)

    def test_too_many_tests(self):
        most = "dejavu suite 1\n" + "".join(f"test t{number} 1 -\n" for number in range(8_192))
        self.assertEqual(len(read_suite(self.write("suite", most))), 8_192)
        more = most + "test t8192 1 -\n"
        self.check_refused(read_suite, more, "the suite has 8,193 tests, more than 8,192")
        self.check_broken(read_suite, SUITE_RULES, more + "test\n", 8_195, "S3")

    def test_too_many_bytes(self):
        lines = [f"test t{100_000 + number} 1 {'5a' * 16384}\n" for number in range(511)]
        text = "".join(("dejavu suite 1\n", *lines, f"test the_last 1 {'5a' * 12280}\n"))
        self.assertEqual(len(text), 16_777_216)
        self.assertEqual(len(read_suite(self.write("suite", text))), 512)
        self.check_refused(read_suite, text + "\n", "the suite has more than 16,777,216 bytes")

    def test_no_file(self):
        with self.assertRaisesRegex(ToolError, r"^/no/suite: No such file or directory$"):
            read_suite(Path("/no/suite"))


class Histories(Broken):
    """Histories of version 3."""

    def with_line(self, number, line):
        """`TWO_TESTS` with another line, newline and all, in place of one, or behind the last."""
        lines = TWO_TESTS.splitlines(keepends=True)
        lines[number - 1:number] = [line]
        return "".join(lines)

    def test_two_tests(self):
        entries = [
            Entry(Test("A", 100, b"A"), "exit 0", 9, b"B", b"\x5f\x01"),
            Entry(Test("B", 100, b"B"), "exit 0", 9, b"C", b"\xaf\x01"),
        ]
        self.assertEqual(read_history(self.write("history", TWO_TESTS)), History(DIGEST, 9, entries))

    def test_all_ends(self):
        history = read_history(self.write("history", sealed(ALL_ENDS)))
        self.assertEqual([entry.status for entry in history.entries], ["trap unset", "turns", "exit 255"])
        self.assertEqual([entry.output for entry in history.entries], [b"x", b"", b"\n\n"])

    def test_no_edges_and_no_tests(self):
        self.assertEqual(read_history(self.write("history", sealed(NOTHING))), History("0" * 64, 0, []))
        text = NOTHING.replace("tests 0", "tests 1") + "test E\nbudget 9\ninput -\nstatus exit 0\nturns 5\noutput -\n"
        history = read_history(self.write("history", sealed(text + "crossed -\n")))
        self.assertEqual(history.entries, [Entry(Test("E", 9, b""), "exit 0", 5, b"", b"")])
        self.check_broken(read_history, HISTORY_RULES, text + "crossed 00\n", 11, "H12")

    def test_text_of_what_was_read(self):
        crossed_none = NOTHING.replace("tests 0", "tests 1") + (
            "test E\nbudget 9\ninput -\nstatus trap bounds\nturns 5\noutput -\ncrossed -\n"
        )
        for text in (TWO_TESTS.encode("ascii"), sealed(ALL_ENDS), sealed(NOTHING), sealed(crossed_none)):
            with self.subTest(text[-200:]):
                self.assertEqual(history_text(read_history(self.write("history", text))), text)

    def test_broken_lines(self):
        for number, line, broken, rule in BROKEN_HISTORIES:
            self.check_broken(read_history, HISTORY_RULES, self.with_line(number, line), broken, rule)

    def test_missing_lines_and_newlines(self):
        lines = TWO_TESTS.splitlines(keepends=True)
        rules = ["H1", "H2", "H3", "H4", *["H5", "H7", "H8", "H9", "H10", "H11", "H12"] * 2, "H13"]
        for number, rule in enumerate(rules, 1):
            before = "".join(lines[:number - 1])
            self.check_broken(read_history, HISTORY_RULES, before, number, rule)
            self.check_broken(read_history, HISTORY_RULES, before + lines[number - 1][:-1], number, rule)

    def test_other_versions(self):
        for number in ("0", "1", "2", "4"):
            self.check_refused(read_history, f"dejavu history {number}\n",
                               f"the history is of version {number} of the format")
        self.check_refused(read_history, "dejavu history 999999999\nx",
                           "the history is of version 999,999,999 of the format")

    def test_changed_byte(self):
        changed = "the history was changed since it was written, or damaged"
        self.check_refused(read_history, self.with_line(10, "output 52\n"), changed)
        self.check_refused(read_history, self.with_line(19, f"end {'0' * 64}\n"), changed)

    def test_too_many_bytes(self):
        path = self.write("file", TWO_TESTS)
        with path.open("r+b") as file:
            file.truncate(134_217_729)  # without blocks behind its text
        with self.assertRaisesRegex(ToolError, r"file: the history has more than 134,217,728 bytes$"):
            read_history(path)


if __name__ == "__main__":
    unittest.main()
