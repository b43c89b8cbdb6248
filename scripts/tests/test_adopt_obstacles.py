"""The obstacles of a program that has one of every kind: all are told in one run, at their places."""
import re
import unittest

from support import SCRIPTS, answer

from dejavu_tools.adopt.words import OBSTACLES

FOLDER = SCRIPTS / "tests" / "obstacles"


class Told(unittest.TestCase):
    """What is told of scripts/tests/obstacles, against the list that was made by hand."""

    maxDiff = None

    def adopt(self, *words):
        done = answer("adopt", *words, folder=FOLDER, has_libraries=True)
        self.assertEqual((done.stdout, done.returncode), (b"", 1))
        *told, last = done.stderr.decode("utf-8").splitlines()
        self.assertEqual(last, f"{len(told)} obstacles")
        return told

    def test_all(self):
        told = self.adopt("first.c", "second.c")
        expected = (FOLDER / "expected.txt").read_text(encoding="utf-8").splitlines()
        self.assertEqual([line.rsplit(": ", 1)[0] for line in told], expected)
        remedies = {words.todo for words in OBSTACLES.values()}
        for line in told:
            self.assertIn(line.rsplit(": ", 1)[1], remedies)

    def test_every_kind_is_expected(self):  # but headers that aren't there, which are told alone (test_adopt_script.py)
        expected = [line.split(": ", 1)[1] for line in (FOLDER / "expected.txt").read_text("utf-8").splitlines()]
        for kind, words in OBSTACLES.items() - {("header", OBSTACLES["header"])}:
            told = re.compile(re.escape(words.what).replace(re.escape("{name}"), ".+"))
            with self.subTest(kind=kind):
                self.assertTrue(any(map(told.fullmatch, expected)))

    def test_with_the_flags(self):
        without = set(self.adopt("first.c", "second.c"))
        told = self.adopt("--drop-stderr", "--long-as-int", "first.c", "second.c")
        gone = sorted(line.split(": ")[1] for line in without - set(told))
        self.assertEqual(gone, ["`long` has 64 bits", "output to stderr"])


if __name__ == "__main__":
    unittest.main()
