"""The rules and the causes of histories in version 2, which list the crossed edges."""
import unittest

from made_history import OTHER, SOURCE, TWO_TESTS, digest_of, sealed
from program import Answer, Folder
from tables import before_line, rows_of, text_of, with_line

# The history TWO_TESTS in version 2. The sum was taken by `sha256sum`.
TWO_TESTS_2 = """\
dejavu history 2
source f3e7b98b7d4d95f021635d364627ee64e4acd311669841db52966ba816eaeb96
edges 9
tests 2
test A
budget 100
input 41
status exit 0
turns 9
output 42
crossed 0 1 2 3 4 6 8
test B
budget 100
input 42
status exit 0
turns 9
output 43
crossed 0 1 2 3 5 7 8
end 9174ede2403bebc220bab3f30412b8655668d061f0330d0457b2082fb2652a96
"""

# A number of a line, the line that is refused, its rule, and what stands in place of the first one.
REFUSED = """
# crossed edges are numbers that rise
11 11 12 crossed 0 1 1|
11 11 12 crossed 1 0|
11 11 12 crossed 0 9|
11 11 12 crossed 9|
11 11 12 crossed 4294967296|
11 11 12 crossed 00|
11 11 12 crossed|
11 11 12 crossed |
11 11 12 crossed 0 |
11 11 12 crossed 0  1|
11 11 12 crossed - 1|
11 11 12 crossed 0 -|
11 11 12 crossed --|
11 11 12 crossed 5f01|
# the other rules are those of version 3
1 1 1 dejavu history 02|
2 2 2 source -|
3 11 12 edges 8|
4 19 5 tests 3|
12 12 6 test A|
16 16 10 turns 101|
20 20 14 |
"""

# What may stand in place of the first crossed edges.
WITHIN = ("crossed -\n", "crossed 8\n", "crossed 0 1 2 3 4 5 6 7 8\n")


class Version2(unittest.TestCase):
    maxDiff = None

    def setUp(self):
        self.folder = Folder()
        self.addCleanup(self.folder.__exit__)
        self.folder.keep("source", SOURCE)
        self.folder.keep("other", OTHER)

    def migrated(self, history, old="source"):
        """What is told of this history of the old source."""
        self.folder.keep("history", history)
        return self.folder.answer("migrate", old, "history")

    def refused(self, history, cause, old="source"):
        """The history is refused for the cause."""
        self.assertEqual(self.migrated(history, old), Answer("History", f"refused: history {cause}\n"))

    def test_a_history_in_version_2_is_read_and_written_in_version_3(self):
        self.assertEqual(self.migrated(TWO_TESTS_2), Answer("Done", TWO_TESTS))

    def test_each_version_is_another_for_the_other(self):
        self.refused(TWO_TESTS, "version 3")
        self.refused(with_line(TWO_TESTS_2, 1, "dejavu history 1\n"), "version 1")
        self.folder.keep("history", TWO_TESTS_2)
        answer = self.folder.answer("select", "source", "source", "history")
        self.assertEqual(answer, Answer("History", "refused: history version 2\n"))

    def test_every_line_has_a_rule(self):
        for row in rows_of(REFUSED):
            with self.subTest(row=row):
                number, line, rule, text = row.split(" ", 3)
                self.refused(with_line(TWO_TESTS_2, int(number), text_of(text)), f"line {line} rule H{rule}")

    def test_what_keeps_the_rules_is_within(self):
        for line in WITHIN:
            with self.subTest(line=line):
                # the sum alone is wrong
                history = with_line(TWO_TESTS_2, 11, line)
                self.refused(history, f"sum {TWO_TESTS_2[-65:-1]} {digest_of(before_line(history, 19))}")

    def test_the_causes_are_those_of_version_3(self):
        self.refused(TWO_TESTS_2, f"source {digest_of(SOURCE)} {digest_of(OTHER)}", "other")
        history = with_line(TWO_TESTS_2, 3, "edges 10\n")
        self.refused(sealed(before_line(history, 19)), "edges 10 9")
