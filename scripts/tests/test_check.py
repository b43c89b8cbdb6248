"""Units that are held against their files: the builds are gcc's, and a small program stands in for `dejavu`."""
import os
import subprocess
import sys
import unittest
from unittest import mock

from support import SCRIPTS, InFolder

from dejavu_tools import check, formats, limits
from dejavu_tools.adopt.options import Options
from dejavu_tools.errors import ToolError
from dejavu_tools.formats import Test

ECHO = "#include <stdio.h>\nint main(void)\n{ int c; while ((c = getchar()) != EOF) putchar(%s); return 3; }\n"
SAME = ECHO % "c"
ENDLESS = "#include <unistd.h>\nint main(void) { for (;;) pause(); }\n"  # which takes no processor

# Stands in for `dejavu record`: what each run did is given by an expression of its input `data`.
PROGRAM = """#!{python} -S
import hashlib, sys
sys.path.insert(0, {scripts!r})
from pathlib import Path
from dejavu_tools.formats import read_suite
lines = ["dejavu history 3", "source " + 64 * "0", "edges 0"]
tests = read_suite(Path(sys.argv[3]))
lines.append(f"tests {{len(tests)}}")
for test in tests:
    data = test.input
    output, status = {run}
    lines += [f"test {{test.name}}", f"budget {{test.budget}}", f"input {{data.hex() or '-'}}", f"status {{status}}",
              "turns 1", f"output {{output.hex() or '-'}}", "crossed -"]
data = ("\\n".join(lines) + "\\n").encode("ascii")
sys.stdout.buffer.write(data + f"end {{hashlib.sha256(data).hexdigest()}}\\n".encode("ascii"))
"""


class Checked(InFolder):
    """What is told of a program whose tests are `a`, `b`, and so on with these inputs."""

    GCC = ["gcc", "-std=c11", "-w"]  # builds three times as fast without sanitizers

    def setUp(self):
        super().setUp()
        before = os.getcwd()
        os.chdir(self.folder)
        self.addCleanup(os.chdir, before)
        faster = mock.patch.object(check, "GCC", self.GCC)
        faster.start()
        self.addCleanup(faster.stop)

    def suite(self, *inputs):
        return self.write("suite", formats.suite_text(
            Test(chr(ord("a") + k), 1000, data) for k, data in enumerate(inputs)
        ))

    def program(self, run):
        """Writes the program."""
        path = self.write("program", PROGRAM.format(python=sys.executable, scripts=str(SCRIPTS), run=run))
        path.chmod(0o755)
        return path

    def check(self, original, unit, *inputs, run="data, 'exit 3'", count=0):
        path = self.write("original.c", original)
        return check.check([path], Options(), unit.encode("ascii"), self.suite(*inputs), self.program(run), count)

    def last(self, tests, differ=0, limit=0, undefined=0, drawn=0):
        return (
            f"compared {tests} tests and {drawn} random inputs: {differ} differ, {limit} pass a limit of the language,"
            f" {undefined} do what C leaves undefined"
        )

    def check_told(self, told, status, *lines):
        self.assertEqual((told.lines, told.status), (list(lines), status))


class Told(Checked):
    """The lines for each pair, and the status."""

    def test_same(self):
        self.check_told(self.check(SAME, SAME, b"", b"xyz\n\0\xff"), 0, self.last(2))

    def test_unit_writes_something_else(self):
        unit = ECHO % "c == 'y' ? 'Y' : c"
        told = self.check(SAME, unit, b"x\nxyz", b"x", run="data.replace(b'y', b'Y'), 'exit 3'")
        line = 'differs a original and unit: output at 2:2 original "xyz", unit "xYz"'
        self.check_told(told, 1, line, self.last(2, 1))

    def test_unit_ends_otherwise(self):
        told = self.check(SAME, SAME.replace("3", "4"), b"x", run="data, 'exit 4'")
        self.check_told(told, 1, "differs a original and unit: status original exit 3, unit exit 4", self.last(1, 1))

    def test_record_writes_something_else(self):
        told = self.check(SAME, SAME, b"x", run="data + b'!', 'exit 3'")
        self.check_told(told, 1, 'differs a unit and record: output at 1:2 unit "x", record "x!"', self.last(1, 1))

    def test_trap_where_the_program_goes_on(self):
        told = self.check(SAME, SAME, b"x", run="b'', 'trap unset'")
        self.check_told(
            told, 1,
            'differs a unit and record: output at 1:1 unit "x", record the end; status unit exit 3,'
            " record trap unset (a read of an object before it was written)",
            self.last(1, 1),
        )

    def test_limits_of_the_language(self):
        flood = f"trap flood (more than {limits.MOST_OUTPUT:,} bytes of output)"
        for status, words in (("trap flood", flood), ("turns", "no end within its budget of 1,000 turns")):
            told = self.check(SAME, SAME, b"xy", run=f"data[:1], {status!r}")
            self.check_told(told, 1, f"limit a {words}", self.last(1, limit=1))

    def test_output_before_a_limit(self):
        told = self.check(SAME, SAME, b"xy", run="b'z', 'turns'")
        self.check_told(
            told, 1, "limit a no end within its budget of 1,000 turns",
            'differs a unit and record: output at 1:1 unit "xy", record "z"', self.last(1, 1, 1),
        )

    def test_abort_is_an_exit(self):
        source = "#include <assert.h>\n#include <stdio.h>\nint main(void) { putchar('a'); assert(getchar() == EOF); }\n"
        unit = ("#include <stdio.h>\n#include <stdlib.h>\n"
                "int main(void) { putchar('a'); if (!(getchar() == EOF)) exit(134); return 0; }\n")
        told = self.check(source, unit, b"", b"x", run="b'a', 'exit 134' if data else 'exit 0'")
        self.check_told(told, 0, self.last(2))

    def test_no_end(self):
        source = ENDLESS
        with mock.patch.object(check, "SECONDS", 1):
            told = self.check(source, source, b"", run="b'', 'turns'")
        self.check_told(told, 1, "limit a no end within its budget of 1,000 turns", self.last(1, limit=1))

    def test_unit_without_end(self):
        with mock.patch.object(check, "SECONDS", 1):
            told = self.check("int main(void) { return 0; }\n", ENDLESS, b"", run="b'', 'turns'")
        self.assertIn("differs a original and unit: status original exit 0, unit no end within 1 seconds", told.lines)

    def test_refused_unit(self):
        program = self.write("program", "#!/bin/sh\necho 'refused: source rule M1 at 3:5'; exit 3\n")
        program.chmod(0o755)
        path = self.write("original.c", SAME)
        place = ("original.c", 2, 1)
        told = check.check([path], Options(), SAME.encode(), self.suite(b""), program, 0, lambda _: place)
        self.assertEqual(told.status, 1)
        self.assertEqual(told.lines[:3], [
            "the unit is refused:", "original.c:2:1: error: this name isn't declared here (M1)", "int main(void)",
        ])

    def test_no_program(self):
        path = self.write("original.c", SAME)
        with mock.patch.object(check, "built_program", return_value=None):
            told = check.check([path], Options(), SAME.encode(), self.suite(b"x"), None, 0)
        line = "not recorded: no program is built; ./dejavu builds it, and --program PATH names another"
        self.check_told(told, 0, line, self.last(1))

    def test_options_of_the_files(self):
        self.write("wanted/wanted.h", "#define WANTED c\n")
        path = self.write("original.c", '#include "wanted.h"\n' + ECHO % "WANTED - LESS")
        options = Options(include_directories=(self.folder / "wanted",), definitions=("LESS=0",))
        told = check.check([path], options, SAME.encode(), self.suite(b"x"), self.program("data, 'exit 3'"), 0)
        self.check_told(told, 0, self.last(1))

    def test_files_that_gcc_refuses(self):
        with mock.patch.object(check, "GCC", ["false"]):
            with self.assertRaises(ToolError) as caught:
                self.check(SAME, SAME, b"")
        self.assertEqual(str(caught.exception), f"gcc doesn't build {self.folder / 'original.c'}")


class Undefined(Checked):
    """Programs that a sanitizer stops."""

    GCC = check.GCC

    def test_what_c_leaves_undefined(self):
        source = ECHO % "c == 'x' ? c + 2147483600 : c"
        run = "(b'a', 'trap overflow') if b'x' in data else (data, 'exit 3')"
        told = self.check(source, source, b"axb", b"b", run=run)
        why = "signed integer overflow: 120 + 2147483600 cannot be represented in type 'int'"
        self.check_told(told, 0, f"undefined a stopped ({why})", self.last(2, undefined=1))

    def test_output_before_what_is_undefined(self):
        source = ECHO % "c == 'x' ? c + 2147483600 : c"
        told = self.check(source, source, b"axb", run="b'', 'trap overflow'")
        self.assertEqual(told.lines[1:], [
            'differs a unit and record: output at 1:1 unit "a", record the end', self.last(1, 1, undefined=1),
        ])

    def test_index_outside(self):
        source = "int main(void) { int a[3] = {0}, i = 7; return a[i]; }\n"
        told = self.check(source, source, b"", run="data, 'trap bounds'")
        why = "index 7 out of bounds for type 'int [3]'"
        self.check_told(told, 0, f"undefined a stopped ({why})", self.last(1, undefined=1))


class Drawn(Checked):
    """Random inputs."""

    def test_same_for_the_same_suite(self):
        tests = [Test("a", 5, b"first\nline\n"), Test("random-1", 5, b""), Test("b", 5, b"\0\xff" * 8192)]
        drawn = check.random_tests(tests, 300)
        self.assertEqual(drawn, check.random_tests(tests, 300))
        self.assertEqual([test.name for test in drawn[:2]], ["_random-1", "_random-2"])
        self.assertGreater(len({test.input for test in drawn}), 200)
        self.assertEqual(formats.read_suite(self.write("suite", formats.suite_text(tests + drawn))), tests + drawn)

    def test_suite_without_inputs(self):
        self.assertEqual(len(check.random_tests([], 40)), 40)
        self.assertEqual(len(check.random_tests([Test("a", 5, b"")], 40)), 40)

    def test_input_that_differs_is_written(self):
        unit = ECHO % "c == 'y' ? 'Y' : c"
        told = self.check(SAME, unit, b"x", b"xxxx", b"zy", run="data.replace(b'y', b'Y'), 'exit 3'", count=10)
        self.assertEqual(told.status, 1)
        kept = [name for name in self.names() if name.startswith("check-")]
        self.assertTrue(kept)
        for name in kept:
            self.assertIn(b"y", (self.folder / name).read_bytes())
            self.assertIn(f"differs {name[6:-3]} ({name}) original and unit: output at ", "\n".join(told.lines))

    def test_limit_of_a_random_input_is_no_fault(self):
        run = "(data, 'exit 3') if data == b'x' else (b'', 'trap flood')"
        told = self.check(SAME, SAME, b"x", run=run, count=5)
        others = sum(test.input != b"x" for test in check.random_tests([Test("a", 5, b"x")], 5))
        self.assertEqual((told.status, told.lines[-1]), (0, self.last(1, limit=others, drawn=5)))
        self.assertTrue(told.lines[0].startswith("limit random-"))


class Script(Checked):
    """`adopt --check`."""

    def adopt(self, run):
        """Adopts and checks a program that writes its input; `run` is what the recorded unit does."""
        words = [sys.executable, str(SCRIPTS / "adopt"), "--check", str(self.suite(b"x")), "--program",
                 str(self.program(run)), "--random", "2", str(self.write("original.c", SAME))]
        done = subprocess.run(words, stdout=subprocess.PIPE, stderr=subprocess.PIPE, text=True, timeout=60, check=False)
        self.assertIn("\nint main(void)\n{\n", done.stdout)
        return done

    def test_same(self):
        done = self.adopt("data, 'exit 3'")
        self.assertEqual((done.stderr, done.returncode), (self.last(1, drawn=2) + "\n", 0))

    def test_differs(self):
        done = self.adopt("data, 'exit 3' if test.name != 'a' else 'exit 4'")
        told = "differs a unit and record: status unit exit 3, record exit 4\n"
        self.assertEqual((done.stderr, done.returncode), (told + self.last(1, 1, drawn=2) + "\n", 1))


if __name__ == "__main__":
    unittest.main()
