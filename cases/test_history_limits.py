"""How long a history may be, and how many tests and edges it may have, each with the next."""
import unittest

from made_history import entry_of, history_of, row_of
from program import Answer, Folder


def source_of(edges, ifs=0):
    """A source of so many edges: 3, and one for each statement, or three for an `if` around it."""
    whole = "if (1) putchar(65); " * ifs + "putchar(65); " * (edges - 3 - 3 * ifs)
    return f"int main(void) {{ {whole}}}"


def numbered(source, edges, tests):
    """A history that tells so many tests. Each crosses the last edge and the one of its own number, if there is one."""
    entries = []
    for number in range(tests):
        crossed = row_of(edges, {min(number, edges - 1), edges - 1})
        entries.append(entry_of(f"t{number}", crossed, 10_000_000, "-", "trap flood", number, "5a"))
    return history_of(source, edges, entries)


class HistoryLimits(unittest.TestCase):
    def setUp(self):
        self.folder = Folder()
        self.addCleanup(self.folder.__exit__)

    def carried(self, history):
        """What is told of the history, carried to the source that it is of."""
        self.folder.keep("history", history)
        return self.folder.answer("carry", "source", "source", "history")

    def test_a_history_has_at_most_8192_tests(self):
        source = source_of(16)
        self.folder.keep("source", source)
        most = numbered(source, 16, 8_192)
        self.assertTrue(self.carried(most) == Answer("Done", most))
        more = numbered(source, 16, 8_193)
        self.assertEqual(self.carried(more), Answer("History", "refused: history line 4 rule H4\n"))

    def test_a_history_has_at_most_10000_edges(self):
        # as it has at most 10,000 points, a source of so many edges has an `if`
        source = source_of(10_000, 100)
        self.folder.keep("source", source)
        most = numbered(source, 10_000, 65)
        self.assertTrue(self.carried(most) == Answer("Done", most))
        more = numbered(source, 10_001, 65)
        self.assertEqual(self.carried(more), Answer("History", "refused: history line 3 rule H3\n"))

    def test_a_history_has_at_most_134217728_bytes(self):
        self.folder.keep("source", source_of(16))
        most = "x" * 134_217_728
        self.assertEqual(self.carried(most), Answer("History", "refused: history line 1 rule H1\n"))
        self.assertEqual(self.carried(f"{most}x"), Answer("History", "refused: history too long\n"))
