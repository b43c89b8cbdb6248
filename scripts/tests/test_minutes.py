"""Which crates stand on which, and what a change of one costs."""
import unittest

from support import TOP, InFolder

from dejavu_tools.errors import ToolError
from dejavu_tools.minutes import Minutes, above, chain_to, libraries, table_minutes

CRATES = """# One line a crate
high: left right thiserror
low:
left: low hex
right: low left
aside: low
"""
TABLE = """| Crate | Own | Tests |
|---|---|---|
| `low` | 2.0 |  |
| `left` | 0.5 | 1.5 |
| `high` | 4.0 |  |
| all | 6.5 | 1.5 |

| Crate | Does |
|---|---|
| `low` | nothing |
"""


class SmallRepository(InFolder):
    """The figures of a repository of five crates, of which the lines don't stand in order."""

    def setUp(self):
        super().setUp()
        self.write("crates.txt", CRATES)

    def test_libraries_of_the_repository_alone(self):
        self.assertEqual(libraries(self.folder), {
            "high": ["left", "right"], "low": [], "left": ["low"], "right": ["low", "left"], "aside": ["low"],
        })

    def test_those_above_stand_behind_what_they_stand_on(self):
        below = libraries(self.folder)
        self.assertEqual(above("low", below), ["low", "left", "aside", "right", "high"])
        self.assertEqual(above("left", below), ["left", "right", "high"])
        self.assertEqual(above("high", below), ["high"])

    def test_the_longest_chain(self):
        below = libraries(self.folder)
        self.assertEqual(chain_to("high", below, {"low": 2, "left": 0.5, "high": 4}), (6.5, ("low", "left", "right", "high")))
        self.assertEqual(chain_to("high", below, {"right": 3}), (3, ("low", "left", "right", "high")))
        self.assertEqual(chain_to("aside", below, {}), (0, ("low", "aside")))

    def test_the_table(self):
        self.write("docs/architecture.md", TABLE)
        for edit in ("one.edit", "two.edit", "three.edit", "other"):
            self.write(f"crates/left/must-fail/{edit}", "")
        self.write("crates/low/wrong-bodies/one.edit", "")
        self.assertEqual(table_minutes(self.folder), {
            "low": Minutes(2.0, 0, 0), "left": Minutes(0.5, 1.5, 2.0), "high": Minutes(4.0, 0, 0),
        })

    def test_no_table(self):
        with self.assertRaises(ToolError) as caught:
            table_minutes(self.folder)
        self.assertEqual(str(caught.exception), "docs/architecture.md: No such file or directory")


class Above(InFolder):
    """What the script writes of this repository."""

    def test_names_what_stands_on_a_crate(self):
        done = self.run_script("above", "dejavu_cli")
        self.assertEqual((done.returncode, done.stderr), (0, b""))
        head, *rows, total, chain = done.stdout.decode().splitlines()
        self.assertEqual(head.split(), ["processor", "minutes", "own", "tests", "edits", "sum"])
        crates = [row.split()[0] for row in rows]
        self.assertEqual(crates, above("dejavu_cli", libraries(TOP)))
        self.assertEqual(total.split()[:3], ["all", self.column(rows, 1), self.column(rows, 2)])
        self.assertIn(chain.split(": ")[1].split(", ")[-1], crates)

    def column(self, rows, number):
        """The sum of a column, of which the numbers have one digit behind the point."""
        return str(sum(round(float(row.split()[number]) * 10) for row in rows) / 10)

    def test_refuses_what_is_no_crate(self):
        self.check_answer(self.run_script("above", "thiserror"), 2, "", "above: crates.txt has no crate thiserror\n")
        self.assertEqual(self.run_script("above").returncode, 2)


class Repository(unittest.TestCase):
    """The table of this repository."""

    def test_has_each_crate(self):
        self.assertEqual(set(table_minutes(TOP)), set(libraries(TOP)))


if __name__ == "__main__":
    unittest.main()
