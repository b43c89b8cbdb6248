"""A history that was changed in one place, and its beginnings: why each is refused."""
import unittest
from pathlib import Path

from made_history import CHANGED, SOURCE, TWO_TESTS
from program import Answer, Folder

FOLDER = Path(__file__).resolve().parent


def lines_of(name):
    """The lines of a file that stands beside this one."""
    return (FOLDER / name).read_text(encoding="utf-8").splitlines()


class ChangedHistories(unittest.TestCase):
    def setUp(self):
        self.folder = Folder()
        self.addCleanup(self.folder.__exit__)
        self.folder.keep("old", SOURCE)
        self.folder.keep("new", CHANGED)

    def refused(self, history, line):
        """A selection by this history is refused with this line."""
        self.folder.keep("history", history)
        self.assertEqual(self.folder.answer("select", "old", "new", "history"), Answer("History", f"{line}\n"))

    def test_the_line_says_why_a_changed_history_is_refused(self):
        # What stands in the history, what stands there in its place, and the line.
        for row in lines_of("changed_history.txt"):
            with self.subTest(row):
                that, this, line = row.split(" => ")
                before, _, behind = TWO_TESTS.partition(that)
                self.refused(before + this + behind, line)

    def test_a_history_that_was_cut_names_the_first_line_that_is_not_whole(self):
        # For each line of the history what is told of a beginning that lacks it, or has it in part.
        lines = lines_of("cut_history.txt")
        self.assertEqual(len(lines), TWO_TESTS.count("\n"))
        for length in range(len(TWO_TESTS)):
            beginning = TWO_TESTS[:length]
            with self.subTest(length=length):
                self.refused(beginning, lines[beginning.count("\n")])
