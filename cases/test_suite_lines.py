"""The rules of a suite's lines, and each limit of a suite with its next."""
import unittest

from made_history import entry_of, history_of
from program import Answer, Folder
from tables import rows_of, text_of

# A source of 3 edges, whose runs take 5 turns and cross all of them. A run of one turn crosses the first.
SOURCE = "int main(void) { }"

# The line that is refused, its least rule, and the suite.
REFUSED = """
# line 1
1 1 -
1 1 dejavu suite 2|
1 1 dejavu suite 1 |test A 1 4|
1 1 test A 1 -|
1 2 dejavu suite 1
# the end of a line comes before all else that is wrong with it
2 2 dejavu suite 1|test
3 2 dejavu suite 1|test A 1 -|test B 1 -
# four words, the first `test`
2 3 dejavu suite 1||
2 3 dejavu suite 1|test A 1|
2 3 dejavu suite 1|test A 1 |
2 3 dejavu suite 1|test A 1 - |
2 3 dejavu suite 1|test A 1 - -|
2 3 dejavu suite 1|test  A 1 -|
2 3 dejavu suite 1| test A 1 -|
2 3 dejavu suite 1|Test A 1 -|
# the name
2 4 dejavu suite 1|test .a 01 4|
2 4 dejavu suite 1|test -a 1 -|
2 4 dejavu suite 1|test -9 1 -|
2 4 dejavu suite 1|test a/b 1 -|
2 4 dejavu suite 1|test aé 1 -|
# the budget
2 5 dejavu suite 1|test A 10000001 -|
2 5 dejavu suite 1|test A 01 4|
2 5 dejavu suite 1|test A +1 -|
2 5 dejavu suite 1|test A - -|
# the input
2 6 dejavu suite 1|test A 1 4|
2 6 dejavu suite 1|test A 1 0A|
2 6 dejavu suite 1|test A 1 --|
# a later line's fault comes before a name that stands twice
4 5 dejavu suite 1|test A 1 -|test A 1 -|test B x -|
"""

# How many bytes the name has, the budget, how many the input has, and the rule that is broken.
PARTS = (
    (1, 0, 1, None),
    (64, 10_000_000, 16_384, None),
    (65, 10_000_000, 16_384, 4),
    (64, 10_000_001, 16_384, 5),
    (64, 10_000_000, 16_385, 7),
)


def line_of(name, budget, size):
    """The line of a test whose input has so many bytes."""
    return f"test {name} {budget} {'5a' * size}\n"


def run_of(name, budget, size):
    """The entry of that test in the history of SOURCE."""
    if budget < 5:
        crossed = ("00", "01")[budget]
        return entry_of(name, crossed, budget, "5a" * size, status="turns", turns=budget)
    return entry_of(name, "07", budget, "5a" * size, turns=5)


def numbered(count, size):
    """The names, budgets and sizes of so many tests."""
    return [(f"t{100_000 + number}", 1, size) for number in range(count)]


class SuiteLines(unittest.TestCase):
    maxDiff = None

    def setUp(self):
        self.folder = Folder()
        self.addCleanup(self.folder.__exit__)
        self.folder.keep("source", SOURCE)

    def recorded(self, suite):
        """What is told of this suite."""
        self.folder.keep("suite", suite)
        return self.folder.answer("record", "source", "suite")

    def refused(self, suite, cause):
        """The suite is refused for the cause."""
        self.assertEqual(self.recorded(suite), Answer("Suite", f"refused: suite {cause}\n"))

    def accepted(self, tests):
        """The suite of these tests is recorded."""
        suite = "dejavu suite 1\n" + "".join(line_of(*test) for test in tests)
        want = history_of(SOURCE, 3, [run_of(*test) for test in tests])
        self.assertTrue(self.recorded(suite) == Answer("Done", want), f"{len(tests)} tests, the first {tests[0]}")
        return suite

    def test_every_fault_is_named_by_its_line_and_least_rule(self):
        for row in rows_of(REFUSED):
            with self.subTest(row=row):
                line, rule, suite = row.split(" ", 2)
                self.refused(text_of(suite), f"line {line} rule S{rule}")
        self.refused("dejavu suite 1\ntest A 1 41\r\n", "line 2 rule S6")

    def test_a_name_that_stands_twice_is_named_by_its_later_line(self):
        self.refused("dejavu suite 1\ntest A 1 -\ntest B 1 -\ntest B 2 41\ntest A 1 -\n", "line 4 twice")

    def test_a_name_begins_with_no_dash_and_is_not_empty(self):
        self.accepted([("_9.a-B", 1, 1)])
        for name in ("-9", ""):
            with self.subTest(name=name):
                answer = self.folder.answer("explain", "--", "source", "source", "history", name)
                self.assertEqual(answer, Answer("Usage", "refused: usage\n"))

    def test_the_parts_of_a_test_have_limits(self):
        for name, budget, size, rule in PARTS:
            with self.subTest(name=name, budget=budget, size=size):
                test = ("n" * name, budget, size)
                if rule is None:
                    self.accepted([test])
                else:
                    self.refused(f"dejavu suite 1\n{line_of(*test)}", f"line 2 rule S{rule}")

    def test_a_suite_has_at_most_8192_tests(self):
        most = self.accepted(numbered(8_192, 1))
        more = most + line_of("t200000", 1, 1)
        self.refused(more, "tests 8193")
        # a rule that a line breaks comes first
        self.refused(more + "test\n", "line 8195 rule S3")

    def test_a_suite_has_at_most_16777216_bytes(self):
        # line 1 has 15 bytes, 511 lines 32,784 each, and the last 24,577
        most = self.accepted([*numbered(511, 16_384), ("the_last", 1, 12_280)])
        self.assertEqual(len(most), 16_777_216)
        self.refused(f"{most}\n", "too long")
