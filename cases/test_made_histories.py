"""What the commands make of histories that no run gives: each end of a run, and any set of crossed edges."""
import unittest

from made_history import SOURCE, TRAPS, TWO_TESTS, entry_of, history_of, row_of, sealed
from program import Answer, Folder

# The edges of SOURCE: 0 and 1 are those of `#start`; 2 leads into `main` to where a character is read, 3 from there to the test,
# 4 and 5 to what is written for 65 and for another byte, 6 and 7 from there to the return, and 8 from that to the end.
READS_ANOTHER = SOURCE.replace("getchar()", "getchar() + 0")
RETURNS_ANOTHER = SOURCE.replace("return 0", "return 1")
WRITES_AND_RETURNS_ANOTHER = RETURNS_ANOTHER.replace("putchar(66)", "putchar(68)")

# The edges of `main` have numbers that are greater by two.
WITH_A_FUNCTION = f"int f(void) {{ return 1; }} {SOURCE}"

# The text of a suite, and that of its history of SOURCE without its sum.
RECORDED = (
    # what is empty is a dash
    (
        "dejavu suite 1\ntest Z 0 -\n",
        "dejavu history 3\n"
        "source f3e7b98b7d4d95f021635d364627ee64e4acd311669841db52966ba816eaeb96\n"
        "edges 9\ntests 1\n"
        "test Z\nbudget 0\ninput -\nstatus turns\nturns 0\noutput -\ncrossed 0000\n"
    ),
    # a history may have no entry
    (
        "dejavu suite 1\n",
        "dejavu history 3\n"
        "source f3e7b98b7d4d95f021635d364627ee64e4acd311669841db52966ba816eaeb96\n"
        "edges 9\ntests 0\n"
    ),
)

# What A, C and B crossed in SOURCE; A and C the same, and B two edges that these didn't.
TWO_ALIKE = ({0, 1, 2, 3, 4, 6, 8}, {0, 1, 2, 3, 4, 6, 8}, {0, 1, 2, 3, 5, 7, 8})
FIRST_LEFT = ({0, 1, 3, 4, 6, 8}, {0, 1, 2, 3, 4, 6, 8}, {0, 1, 2, 3, 5, 7, 8})
ALL_ALIKE = ({0, 1, 2, 3, 4, 6, 8}, {0, 1, 2, 3, 4, 6, 8}, {0, 1, 2, 3, 4, 6, 8})

# A and B add as many edges once C is placed.
TWO_EQUALS = ({6}, {7, 8}, {6, 7})

# What A, C and B crossed, the new source, and the order.
ORDERS = (
    (TWO_ALIKE, READS_ANOTHER, "A adds 7\nB adds 2\nC adds 0\nordered 3 of 3\n"),
    (FIRST_LEFT, READS_ANOTHER, "C adds 7\nB adds 2\nordered 2 of 3\n"),
    (TWO_ALIKE, SOURCE, "ordered 0 of 3\n"),
    (TWO_EQUALS, RETURNS_ANOTHER, "C adds 2\nA adds 1\nB adds 0\nordered 3 of 3\n"),
    (ALL_ALIKE, READS_ANOTHER, "A adds 7\nC adds 0\nB adds 0\nordered 3 of 3\n"),
)

# What A, C and B crossed, the new source, and the selection: the least dangerous edge of each test is named.
SELECTIONS = (
    (
        ({0, 1, 2, 3, 4, 6, 7, 8}, {4, 7}, {7}),
        WRITES_AND_RETURNS_ANOTHER,
        "run A edge 4\nrun C edge 4\nrun B edge 7\nselected 3 of 3\n",
    ),
    (
        ({0, 1, 2, 3, 5, 6, 8}, set(), {8}),
        WRITES_AND_RETURNS_ANOTHER,
        "left A\nleft C\nleft B\nselected 0 of 3\n",
    ),
)


def history_with(crossed):
    """A history of SOURCE in which A, C and B crossed these edges."""
    entries = [entry_of(name, row_of(9, edges), turns=8) for name, edges in zip("ACB", crossed)]
    return history_of(SOURCE, 9, entries)


class MadeHistories(unittest.TestCase):
    maxDiff = None

    def setUp(self):
        self.folder = Folder()
        self.addCleanup(self.folder.__exit__)
        self.folder.keep("source", SOURCE)

    def carried(self, history, new):
        """The history of SOURCE, carried to the new source."""
        self.folder.keep("history", history)
        self.folder.keep("new", new)
        return self.folder.done("carry", "source", "new", "history")

    def test_a_history_is_written_and_read_again(self):
        for suite, text in RECORDED:
            with self.subTest(suite=suite):
                self.folder.keep("suite", suite)
                history = sealed(text)
                self.assertEqual(self.folder.done("record", "source", "suite"), history)
                self.assertEqual(self.carried(history, SOURCE), history)
        self.assertEqual(self.carried(TWO_TESTS, SOURCE), TWO_TESTS)

    def test_every_end_of_a_run_has_its_words(self):
        entries = [entry_of(trap, "0d00", status=f"trap {trap}", turns=5, output="78") for trap in TRAPS]
        entries.append(entry_of("exit", "0001", 10_000_000, "00ff", "exit 255", 10_000_000))
        history = history_of(SOURCE, 9, entries)
        self.assertEqual(history[-65:-1], "e310979df4ec9ea873650f2454a21d81a38aefb7232c6187d458a9286fd8c69d")
        self.assertEqual(self.carried(history, SOURCE), history)

    def test_each_bit_of_a_row_stands_for_its_edge(self):
        tests = [{edge} for edge in range(9)] + [{0, 1, 2, 3, 4, 6, 8}, {0, 1, 2, 3, 5, 7, 8}]
        moved = [{edge if edge < 2 else edge + 2 for edge in edges} for edges in tests]
        history = history_of(SOURCE, 9, [entry_of(f"t{at}", row_of(9, edges)) for at, edges in enumerate(tests)])
        want = history_of(WITH_A_FUNCTION, 11, [entry_of(f"t{at}", row_of(11, edges)) for at, edges in enumerate(moved)])
        self.assertEqual(self.carried(history, WITH_A_FUNCTION), want)

    def test_the_order_goes_by_what_each_test_adds(self):
        for crossed, new, want in ORDERS:
            self.folder.keep("history", history_with(crossed))
            self.folder.keep("new", new)
            for workers in ("1", "2", "64"):
                with self.subTest(want=want, workers=workers):
                    answer = self.folder.answer("order", "source", "new", "history", "--workers", workers)
                    self.assertEqual(answer, Answer("Done", want))

    def test_the_least_dangerous_edge_of_each_test_is_named(self):
        for crossed, new, want in SELECTIONS:
            with self.subTest(want=want):
                self.folder.keep("history", history_with(crossed))
                self.folder.keep("new", new)
                answer = self.folder.answer("select", "source", "new", "history")
                self.assertEqual(answer, Answer("Done", want))
