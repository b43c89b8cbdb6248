"""The rules of a history's lines, and the causes of which one hides the next."""
import unittest

from made_history import CHANGED, OTHER, SOURCE, TWO_TESTS, digest_of, sealed
from program import Answer, Folder
from tables import before_line, rows_of, text_of, with_line

# A number of a line of TWO_TESTS, the line that is refused, its rule, and what stands in place of the first one.
REFUSED = """
# the version
1 1 1 -
1 1 1 Dejavu history 3|
1 1 1 dejavu history|
1 1 1 dejavu history 03|
1 1 1 dejavu history 3 |
1 1 1 dejavu history  3|
1 1 1 dejavu history 1000000000|
1 1 1 dejavu history -3|
# the source
2 2 2 source f3e7|
2 2 2 source -|
2 2 2 source F3e7b98b7d4d95f021635d364627ee64e4acd311669841db52966ba816eaeb96|
2 2 2 source g3e7b98b7d4d95f021635d364627ee64e4acd311669841db52966ba816eaeb96|
2 2 2 source  f3e7b98b7d4d95f021635d364627ee64e4acd311669841db52966ba816eaeb96|
# the numbers of edges and of tests
3 3 3 edges 10001|
3 3 3 edges 09|
3 3 3 edges|
3 3 3 edges -|
4 4 4 tests 8193|
4 4 4 tests +2|
4 4 4 test 2|
# names
5 5 5 test -A|
5 5 5 test |
5 5 5 test A B|
5 5 5 tests A|
12 12 5 test .B|
12 12 6 test A|
# budgets
6 6 7 budget 10000001|
6 6 7 budget 0100|
13 13 7 budget x|
# inputs and outputs
7 7 8 input 4|
7 7 8 input |
7 7 8 input 4A|
14 14 8 input - 42|
10 10 11 output 4G|
10 10 11 output --|
17 17 11 output 42 43|
# ends of runs
8 8 9 status exit 256|
8 8 9 status exit 00|
8 8 9 status exit -1|
8 8 9 status exit|
8 8 9 status trap|
8 8 9 status trap Bounds|
8 8 9 status trap bound|
8 8 9 status trap bounds |
8 8 9 status turn|
15 15 9 status turns 1|
# turns
9 9 10 turns 101|
9 9 10 turns 09|
16 16 10 turns -|
# crossed edges: the count of bytes, the bits that stand for no edge, the digits
11 11 12 crossed 5f|
11 11 12 crossed 5f0100|
11 11 12 crossed |
11 11 12 crossed -|
11 11 12 crossed --|
11 11 12 crossed 5F01|
11 11 12 crossed 5f0|
11 11 12 crossed 5g01|
11 11 12 crossed 5f03|
11 11 12 crossed 5f81|
11 11 12 crossed 0 1 2 3|
11 11 12 crossed 5f 01|
11 11 12 crossed 5f01 |
11 11 12 crossed 0x5f01|
11 11 12 crossed|
18 18 12 crossed -|
# another number of edges has another count of bytes, or leaves bits that stand for none
3 11 12 edges 0|
3 11 12 edges 8|
3 11 12 edges 17|
3 11 12 edges 10000|
# the end
19 19 13 end eac5|
19 19 13 end Eac55876d49f0d1fe32a649b9e1751d299b9e79be91b030c71dd123e5014b43c|
20 20 14 |
20 20 14 x
20 20 14 end -|end|
# a lesser number of tests leaves lines that follow; a greater asks for an entry
4 12 13 tests 1|
4 19 5 tests 3|
4 5 13 tests 0|
"""

# A number of a line, and what may stand in its place.
WITHIN = """
3 edges 16|
5 test _9.a-B|
6 budget 9|
6 budget 10000000|
7 input -|
7 input 00ff|
8 status exit 255|
8 status trap missing|
8 status turns|
9 turns 0|
9 turns 100|
10 output -|
11 crossed 0000|
11 crossed 0001|
11 crossed ff01|
"""

# The rule of each line of TWO_TESTS; of lines 5 and 12 the lesser.
RULES = (1, 2, 3, 4, 5, 7, 8, 9, 10, 11, 12, 5, 7, 8, 9, 10, 11, 12, 13)

# Versions, with what line 1 has in place of 3.
VERSIONS = ("1", "2", "4", "0", "999999999")

# A number of a line of bytes, its word, and its rule.
LONG_LINES = ((7, "input", 8), (10, "output", 11))


class HistoryLines(unittest.TestCase):
    maxDiff = None

    def setUp(self):
        self.folder = Folder()
        self.addCleanup(self.folder.__exit__)
        self.folder.keep("source", SOURCE)
        self.folder.keep("changed", CHANGED)
        self.folder.keep("other", OTHER)

    def refused(self, history, cause, old="source"):
        """The history is refused for the cause as one of the old source."""
        self.folder.keep("history", history)
        answer = self.folder.answer("select", old, "changed", "history")
        self.assertEqual(answer, Answer("History", f"refused: history {cause}\n"))

    def without_its_sum(self, history, old="source"):
        """Of the history the sum alone is wrong."""
        found = history[-65:-1]
        self.refused(history, f"sum {found} {digest_of(history[:-69])}", old)

    def test_every_line_has_a_rule(self):
        for row in rows_of(REFUSED):
            with self.subTest(row=row):
                number, line, rule, text = row.split(" ", 3)
                self.refused(with_line(TWO_TESTS, int(number), text_of(text)), f"line {line} rule H{rule}")
        self.refused(with_line(TWO_TESTS, 1, "dejavu history 3\r\n"), "line 1 rule H1")

    def test_what_keeps_the_rules_is_within(self):
        for row in rows_of(WITHIN):
            with self.subTest(row=row):
                number, text = row.split(" ", 1)
                self.without_its_sum(with_line(TWO_TESTS, int(number), text_of(text)))

    def test_a_line_that_is_missing_or_has_no_newline_breaks_its_rule(self):
        for line, rule in enumerate(RULES, 1):
            with self.subTest(line=line):
                self.refused(before_line(TWO_TESTS, line), f"line {line} rule H{rule}")
                self.refused(before_line(TWO_TESTS, line + 1)[:-1], f"line {line} rule H{rule}")

    def test_without_edges_a_row_is_a_dash(self):
        history = with_line(TWO_TESTS, 3, "edges 0\n")
        history = with_line(history, 11, "crossed -\n")
        self.refused(history, "line 18 rule H12")
        self.without_its_sum(with_line(history, 18, "crossed -\n"))

    def test_inputs_and_outputs_have_at_most_16384_bytes(self):
        for line, word, rule in LONG_LINES:
            with self.subTest(word=word):
                self.without_its_sum(with_line(TWO_TESTS, line, f"{word} {'5a' * 16_384}\n"))
                self.refused(with_line(TWO_TESTS, line, f"{word} {'5a' * 16_385}\n"), f"line {line} rule H{rule}")

    def test_another_version_is_told(self):
        for version in VERSIONS:
            with self.subTest(version=version):
                line = f"dejavu history {version}\n"
                self.refused(with_line(TWO_TESTS, 1, line), f"version {version}")
                self.refused(line, f"version {version}")
        # without its newline the line is none
        self.refused("dejavu history 3", "line 1 rule H1")

    def test_a_changed_byte_shows_in_the_sum(self):
        history = with_line(TWO_TESTS, 10, "output 52\n")
        # the sum comes before the source and the number of edges
        for old in ("source", "other"):
            with self.subTest(old=old):
                self.without_its_sum(history, old)

    def test_a_history_is_of_one_source_and_its_edges(self):
        # the source comes before the number of edges, which is 8 in one of these and 9 in the other
        for old, text in (("other", OTHER), ("changed", CHANGED)):
            with self.subTest(old=old):
                self.refused(TWO_TESTS, f"source {digest_of(SOURCE)} {digest_of(text)}", old)
        for edges, first, second in ((8, "5f", "af"), (10, "5f01", "af01")):
            with self.subTest(edges=edges):
                history = with_line(TWO_TESTS, 3, f"edges {edges}\n")
                history = with_line(history, 11, f"crossed {first}\n")
                history = with_line(history, 18, f"crossed {second}\n")
                self.refused(sealed(before_line(history, 19)), f"edges {edges} 9")
