"""Words that are no command: a call in each line of no_commands.txt, of which the first has none."""
import unittest
from pathlib import Path

from program import Answer, Folder
from test_commands import words_of

LINES = Path(__file__).resolve().with_name("no_commands.txt").read_text(encoding="utf-8").splitlines()


class Usage(unittest.TestCase):
    def test_words_that_are_no_command_are_a_fault_of_usage(self):
        with Folder() as folder:
            folder.keep("branching", "int main(void) { return 0; }")
            folder.keep("two", "dejavu suite 1\ntest A 100 41\ntest B 100 42\n")
            for line in LINES:
                with self.subTest(words=line):
                    self.assertEqual(folder.answer(*words_of(line)), Answer("Usage", "refused: usage\n"))
