"""The script `adopt`: what it writes, the map of a unit, and what keeps it from writing one."""
import re
from types import SimpleNamespace

from support import InFolder

from dejavu_tools.adopt.places import Place
from dejavu_tools.adopt.write import Row, origin_of

PROGRAM = """#include <stdio.h>
#include "two.h"
#define BOTH(a, b) ((a) && (b))

static int hidden = 3;

int main(void)
{
    int n = 2;

    if (BOTH(n > 1, twice(n) > 3)) {
        n++; n += hidden;
    } else
        puts("no");
    for (n = 0; n < 2; n++)
        printf("%d\\n", n);
    return 0;
}
"""


class Script(InFolder):
    """`scripts/adopt`, run as a program."""

    def adopt(self, *words):
        """What the script answers in this folder."""
        done = self.run_script("adopt", *words, has_libraries=True)
        return SimpleNamespace(returncode=done.returncode, stdout=done.stdout.decode(), stderr=done.stderr.decode())

    def write_program(self):
        """A program of two files and a header."""
        self.write("one.c", PROGRAM)
        self.write("sub/two.h", "int twice(int n);\n")
        self.write("sub/two.c", '#include "two.h"\nint twice(int n)\n{\n\treturn 2 * n;\n}\n')

    def test_unit_and_map(self):
        self.write_program()
        done = self.adopt("-I", "sub", "--map", "map", "one.c", "sub/two.c")
        self.assertEqual((done.returncode, done.stderr), (0, ""))
        lines = done.stdout.splitlines()
        self.assertEqual(lines[0], "// adopted")
        first, *rows = (self.folder / "map").read_text().splitlines()
        self.assertEqual(first, "dejavu map 1")
        found = []
        for row in rows:
            line, column, *origin = re.fullmatch(r"(\d+):(\d+) (\d+):(\d+) (.+)", row).groups()
            found.append((lines[int(line) - 1][int(column) - 1:], ":".join(origin)))
        self.assertEqual(found, [
            ("int main(void)", "7:5:one.c"),
            ("int n = 2;", "9:9:one.c"),
            ("int temp_1 = n > 1;", "11:5:one.c"),
            ("if (temp_1) {", "11:5:one.c"),
            ("temp_1 = twice(n) > 3;", "11:5:one.c"),
            ("if (temp_1) {", "11:5:one.c"),
            ("n++;", "12:9:one.c"),
            ("n += hidden;", "12:14:one.c"),
            ('printf("no\\n");', "14:9:one.c"),
            ("for (n = 0; n < 2; n++) {", "15:5:one.c"),
            ('printf("%d\\n", n);', "16:9:one.c"),
            ("return 0;", "17:5:one.c"),
            ("int twice(int n)", "2:5:sub/two.c"),
            ("return 2 * n;", "4:2:sub/two.c"),
        ])

    def test_flags_stand_on_the_first_line(self):
        self.write("a.c", "#include <stdio.h>\nint main(void) { long n = 1; fputs(\"x\", stderr); return n; }\n")
        done = self.adopt("--long-as-int", "--drop-stderr", "a.c")
        self.assertEqual(done.stdout.splitlines()[0], "// adopted --drop-stderr --long-as-int")

    def test_definitions(self):
        self.write("a.c", "int main(void) { return LIMIT + ONE; }\n")
        self.assertIn("return 7 + 1;", self.adopt("-D", "LIMIT=7", "-DONE", "a.c").stdout)

    def test_obstacles(self):
        self.write("b.c", "int f(void) { float x; return 0; }\n")
        self.write("a.c", "int f(void);\nint main(void)\n{\n\treturn f() + 1.5 > 2;\n}\n")
        done = self.adopt("--map", "map", "b.c", "a.c")
        self.assertEqual((done.returncode, done.stdout), (1, ""))
        told = "a floating-point number: calculate in integers, for instance in hundredths"
        self.assertEqual(done.stderr.splitlines(), [f"a.c:4:15: {told}", f"b.c:1:15: {told}", "2 obstacles"])
        self.assertEqual(self.names(), ["a.c", "b.c"])

    def test_headers_that_are_not_there(self):
        self.write("a.c", '#include <nowhere.h>\n  #include "sub/b.h"\n#include "../c.h"\nint main(void) { return none; }\n')
        self.write("sub/b.h", "#include <sys/none.h>\n")
        self.write("b.c", "#include <nowhere.h>\nint f(void) { float x; return 0; }\n")
        done = self.adopt("a.c", "b.c")
        todo = "isn't there: take it out, or name the folder that has it by -I"
        self.assertEqual(done.stderr.splitlines(), [
            f"a.c:1:10: the header `nowhere.h` {todo}", f"a.c:3:10: the header `../c.h` {todo}",
            f"b.c:1:10: the header `nowhere.h` {todo}", f"sub/b.h:1:10: the header `sys/none.h` {todo}", "4 obstacles"])
        self.assertEqual((done.returncode, done.stdout), (1, ""))

    def test_what_the_preprocessor_says(self):
        self.write("a.c", "#warning mind this\nint main(void) { return 0; }\n")
        done = self.adopt("a.c")
        self.assertIn("mind this", done.stderr)
        self.assertEqual(done.returncode, 0)

    def check_error(self, last, *words):
        """The script ends with 2, writes no unit, and its last line on standard error is this one."""
        done = self.adopt(*words)
        self.assertEqual((done.returncode, done.stdout), (2, ""))
        self.assertEqual(done.stderr.splitlines()[-1], f"adopt: {last}")
        return done.stderr

    def test_files_that_cannot_be_used(self):
        self.check_error("none.c: No such file or directory", "none.c")
        self.write("a.c", "int main(void) { return nothing; }\n")
        self.assertIn("'nothing' undeclared", self.check_error("a.c: gcc refuses it", "a.c").replace("\u2018", "'")
                      .replace("\u2019", "'"))
        self.write("c.c", "int f(void) { return 0; }\n")
        self.check_error("c.c: there is no `main`", "c.c")
        self.check_error(".: this is no file", ".")
        self.write("d.c", f"int main(void) {{ return {'(' * 5000}0{')' * 5000}; }}\n")
        self.assertEqual(self.check_error("d.c: expressions or statements stand too deep in each other", "d.c").count("\n"), 1)

    def test_names_that_are_no_options_and_no_lines(self):
        told = "a floating-point number: calculate in integers, for instance in hundredths"
        for name, shown in (("-a.c", "-a.c"), ("a\nb.c", "a\\nb.c"), ('a "b".c', 'a "b".c')):
            self.write(name, "int main(void) { return 1.5 > 1; }\n")
            self.assertEqual(self.adopt("--", name).stderr.splitlines()[0], f"{shown}:1:25: {told}")

    def test_depth(self):
        chain = " else ".join(f"if (n == {k}) n = {k + 1};\n" for k in range(240))
        self.write("a.c", f"int main(void) {{ int n = 3; {chain} return n; }}\n")
        self.assertEqual(self.adopt("a.c").stderr, "")

    def test_definitions_that_disagree(self):
        self.write("a.c", "int f(int x);\nint n = 1;\nint main(void) { return f(n); }\n")
        self.write("b.c", "int f(int x) { return x; }\nint f2(void) { return 0; }\n")
        self.write("c.c", "int g;\nint f2(void) { return 1; }\n")
        self.check_error("c.c:2:5: `f2` is defined at b.c:2:5 too", "a.c", "b.c", "c.c")
        self.write("c.c", "char f(int x);\n")
        self.check_error("c.c:1:6: `f` is declared otherwise than at b.c:1:5", "a.c", "b.c", "c.c")
        self.write("c.c", "int n = 2;\n")
        self.check_error("c.c:1:5: `n` is defined at a.c:2:5 too", "a.c", "b.c", "c.c")

    def test_limits(self):
        self.write("a.c", "int main(void) { int a[5000] = {0}; return a[0]; }\n")
        self.check_error("the unit has 5,000 cells in a frame of `main`, 904 more than the language's 4,096", "a.c")
        self.write("a.c", "int a[70000]; int main(void) { return a[0]; }\n")
        self.check_error("the unit has 70,000 cells of file scope, 4,464 more than the language's 65,536", "a.c")
        functions = "".join(f"int f{k}(void) {{ return 0; }}\n" for k in range(500))
        self.write("a.c", f"{functions}int main(void) {{ return 0; }}\n")
        self.check_error("the unit has 501 functions, 1 more than the language's 500", "a.c")
        self.write("a.c", "int main(void) { int n = 0;" + "\nn++;" * 10000 + " return n; }\n")
        # beside them `#start` has 3 points, and `main` its entry, `n = 0`, the return and its exit
        self.check_error("the unit has 10,007 points, 7 more than the language's 10,000", "a.c")


class Origins(InFolder):
    """Where a place of a unit comes from."""

    def test_the_last_statement_before(self):
        rows = [Row(2, 5, Place("a.c", 7, 3)), Row(2, 9, Place("a.c", 8, 1)), Row(4, 1, Place("b.c", 1, 1))]
        for line, column, place in ((1, 9, None), (2, 4, None), (2, 5, rows[0]), (2, 8, rows[0]), (3, 1, rows[1]),
                                    (4, 1, rows[2]), (9, 9, rows[2])):
            with self.subTest(f"{line}:{column}"):
                self.assertEqual(origin_of(rows, line, column), place and place.origin)
