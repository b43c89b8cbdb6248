"""docs/adopt.md has each obstacle in the words in which it is told, and no other."""
import re
import unittest

from support import TOP

from dejavu_tools.adopt.words import OBSTACLES


class Document(unittest.TestCase):
    """The table of obstacles, and the flags."""

    def setUp(self):
        self.text = (TOP / "docs" / "adopt.md").read_text(encoding="utf-8")

    def test_obstacles(self):
        table = self.text.split("| What is told | What to do |\n|---|---|\n")[1].split("\n\n")[0]
        told = [f"| {words.what} | {words.todo} |".format(name="NAME") for words in OBSTACLES.values()]
        self.assertEqual(table.splitlines(), told)

    def test_flags(self):
        script = (TOP / "scripts" / "adopt").read_text(encoding="utf-8")
        flags = re.findall(r"^\| `(--[a-z-]+)` \|", self.text, re.MULTILINE)
        self.assertEqual(flags, re.findall(r'"(--[a-z-]+)", action="store_true"', script))


if __name__ == "__main__":
    unittest.main()
