"""The tables of examples/adopt that were made by hand, and how an answer is held against them."""
import re
import unittest

from support import InFolder

from dejavu_tools import examples
from dejavu_tools.errors import ToolError
from dejavu_tools.files import files_in

TABLE = """# Tests

## 1-first

`one` in a.c: it changes. Reached by 1 of 2 tests.

| test | reached | why |
|---|---|---|
| a-b.c | yes | `two` |
| d | no | |

## 2-second

`main`: x

| test | reached | why |
|---|---|---|
| d | no | yes |
"""

UNIT = """#include <stdio.h>
int count;

int first(char text[], unsigned text_at)
{
    return text[text_at];
}

void second(void)
{
    if (count) {
        first(0);
    }
}

int first(char text[], unsigned text_at);

unsigned int main(void) {
    second(); not_first(1);
}
"""


class Tables(InFolder):
    """Tables of changes."""

    def test_read(self):
        tables = examples.read_tables(self.write("selected.md", TABLE))
        self.assertEqual(tables, {
            "1-first": examples.Expected("one", frozenset(("a-b.c", "d")), frozenset(("a-b.c",))),
            "2-second": examples.Expected("main", frozenset(("d",)), frozenset()),
        })

    def test_without_rows(self):
        path = self.write("selected.md", TABLE.replace("| d | no | yes |", ""))
        with self.assertRaises(ToolError) as caught:
            examples.read_tables(path)
        self.assertEqual(str(caught.exception), f"{path}: 2-second has no table, or names no function")

    def test_those_of_the_examples(self):
        folders = [path.parent for path in examples.EXAMPLES.glob("*/changes")]
        self.assertEqual(len(folders), 5)
        for folder in folders:
            path = folder / "changes" / "selected.md"
            tables, said = examples.read_tables(path), re.findall(r"(\d+) of (\d+) tests", path.read_text("utf-8"))
            patches = [it.name for it in files_in(path.parent, ".patch")]
            self.assertEqual([f"{name}.patch" for name in sorted(tables)], patches)
            tests = {it.stem for it in files_in(folder / "tests", ".in")}
            self.assertEqual(len(said), len(tables))
            for (name, table), numbers in zip(tables.items(), said):
                with self.subTest(f"{folder.name} {name}"):
                    self.assertEqual(table.tests, tests)
                    self.assertEqual((str(len(table.reached)), str(len(tests))), numbers)


class Answers(unittest.TestCase):
    """An answer of the program, and what is expected."""

    def test_functions(self):
        functions = examples.functions_of(UNIT)
        self.assertEqual(list(functions), ["first", "second", "main"])
        self.assertEqual(functions["second"], UNIT[UNIT.index("void second"):UNIT.index("}\n\nint first(") + 1])

    def test_callers(self):
        texts = list(examples.functions_of(UNIT).items())
        self.assertEqual(examples.callers("first", texts), {"first", "second"})
        self.assertEqual(examples.callers("second", texts), {"second", "main"})

    def test_faults(self):
        expected = examples.Expected("one", frozenset("abcd"), frozenset("abc"))
        change = examples.Change(expected, frozenset("abd"), ["one", "two", "one"], frozenset(("one", "main")))
        self.assertEqual(str(change), "selected 3 of 4, by hand 3; 3 dangerous edges in one, two")
        self.assertEqual(list(change.faults()), [
            "selected, and not by hand: d", "by hand, and not selected: c",
            "dangerous edges neither in the changed function nor in its callers: two",
        ])
        self.assertEqual(list(examples.Change(expected, frozenset("abc"), ["main"], frozenset(("main",))).faults()), [])


if __name__ == "__main__":
    unittest.main()
