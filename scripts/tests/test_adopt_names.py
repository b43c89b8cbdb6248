"""What the translator makes has stable names, and a unit depends on nothing but the contents of its files."""
import shutil
import subprocess
import tempfile
import unittest
from pathlib import Path

from support import TOP, InFolder

from dejavu_tools.adopt.options import Options
from dejavu_tools.adopt.translate import adopt
from dejavu_tools.examples import functions_of, read_tables

EXAMPLES = TOP / "examples" / "adopt"
PROGRAMS = ("bank", "calc", "fmt", "rle", "tok")


def unit_of(name, folder, change=None):
    """The text of the unit of a program of the examples, or of one of its changes, adopted in a folder of its own."""
    shutil.copytree(EXAMPLES / name, folder)
    for patch in [*([folder / "changes" / f"{change}.patch"] if change else []), folder / "by-hand.patch"]:
        if patch.exists():
            subprocess.run(["patch", "--silent", "-p1", "-d", folder, "-i", patch], check=True)
    return adopt(sorted(folder.glob("*.c")), Options(True, True)).unit.decode()


class Changes(unittest.TestCase):
    """Units of programs and of their changed versions."""

    def test_a_change_of_one_function_changes_no_other(self):
        for name in PROGRAMS:
            with tempfile.TemporaryDirectory() as work:
                old = unit_of(name, Path(work) / "old")
                self.assertEqual(unit_of(name, Path(work) / "another folder" / "of this"), old)
                for change, table in read_tables(EXAMPLES / name / "changes" / "selected.md").items():
                    with self.subTest(f"{name} {change}"):
                        self.check_change(old, unit_of(name, Path(work) / change, change), table.function)

    def check_change(self, old, new, function):
        """Only this function has another text in the new unit, and each object of the old one stands there too."""
        before, after = functions_of(old), functions_of(new)
        self.assertEqual({name for name in before if before[name] != after[name]}, {function})
        self.assertEqual(set(definitions(old)) - set(definitions(new)), set())


class Names(InFolder):
    """Names in units of one file."""

    def written(self, text, name="a.c"):
        """The unit of a file with this text."""
        return adopt([self.write(name, text)], Options()).unit.decode()

    def test_statements_before_others_leave_the_names_of_other_functions(self):
        text = "#include <stdio.h>\nstatic int f(int x) {{ return x; }}\n{}int main(void) {{ return f(1) && f(2); }}\n"
        old = self.written(text.format(""))
        new = self.written(text.format("static int g(int x) { return (x > 1 && f(x)) || f(3); }\n"))
        self.assertEqual(functions_of(old)["main"], functions_of(new)["main"])
        self.assertIn("temp_1", functions_of(new)["main"])

    def test_strings_are_named_by_their_content(self):
        start = '#include <string.h>\nint main(void) {{ char s[9] = "b"; return strcmp(s, "{}") + strcmp(s, "b"); }}\n'
        one, other = self.written(start.format("a")), self.written(start.format("%"))
        for unit in (one, other):
            self.assertIn("char text_b[2] = {'b'};", unit)
        self.assertIn("char text_a[2] = {'a'};", one)
        self.assertIn("char text_bbf3f11c[2] = {'%'};", other)  # of the SHA-256 of that byte

    def test_a_file_name_is_that_within_its_folder(self):
        text = '#include <string.h>\nint main(void) { return (int)strlen(__FILE__); }\n'
        self.assertEqual(self.written(text), self.written(text, "folder/a.c"))
        self.assertIn("text_a_c", self.written(text))


def definitions(unit):
    """The lines of a unit that define an object."""
    return [line for line in unit.splitlines() if not line.startswith((" ", "//", "#", "}")) and line.endswith(";")]


if __name__ == "__main__":
    unittest.main()
