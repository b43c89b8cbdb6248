"""The functions of the C library in the language, compiled as C and held against the real ones."""
import random
import re
import subprocess
import tempfile
import unittest
from pathlib import Path

from support import SCRIPTS

from dejavu_tools.adopt.library import FUNCTIONS, definitions

HARNESS = SCRIPTS / "tests" / "library_against_c.c"
CHECKED = ["-fsanitize=address,undefined", "-fno-sanitize-recover"]


class AgainstC(unittest.TestCase):
    """Results, output and what is read, of all functions in one program."""

    @classmethod
    def setUpClass(cls):
        folder = tempfile.TemporaryDirectory()
        cls.addClassCleanup(folder.cleanup)
        (Path(folder.name) / "library.h").write_text(definitions(FUNCTIONS), encoding="ascii")
        cls.program = Path(folder.name) / "compare"
        words = ["gcc", "-std=c11", "-w", "-g", *CHECKED, "-I", folder.name, str(HARNESS), "-o", str(cls.program)]
        subprocess.run(words, check=True, timeout=60)

    def output(self, *words, data=b""):
        """What the program writes, which has to end with 0."""
        done = subprocess.run(
            [self.program, *words], input=data, stdout=subprocess.PIPE, stderr=subprocess.PIPE, timeout=60, check=False,
        )
        self.assertEqual((done.returncode, done.stderr), (0, b""), done.stdout)
        return done.stdout

    def test_values(self):
        self.assertEqual(self.output("values"), b"")

    def test_print(self):
        shown = self.output("print", "c")
        self.assertEqual(shown.split(b"\n")[0], b"  0|0  |000| +0|  0|       0|0       |00000000|+0| 0")
        self.assertEqual(self.output("print", "std"), shown)

    def check_reading(self, what, alphabet):
        """Both read the same of random inputs: one long one, and some short ones that end in all sorts of places."""
        draw = random.Random(1)
        for length in (4000, *range(12)):
            data = bytes(draw.choices(alphabet, k=length))
            with self.subTest(data=data):
                self.assertEqual(self.output(what, "std", data=data), self.output(what, "c", data=data))

    def test_lines(self):
        self.check_reading("lines", b"ab\n\0\xff")

    def test_numbers(self):
        self.check_reading("numbers", b"08+- \n\ta")
        for data in (b"-2147483648 2147483647", b"-", b"+ 5", b"--5", b"007x", b" \t\n\v\f\r-12\r"):
            with self.subTest(data=data):
                self.assertEqual(self.output("numbers", "std", data=data), self.output("numbers", "c", data=data))


class Texts(unittest.TestCase):
    """What the texts are of several names."""

    def test_offsets_are_left_out(self):
        self.assertEqual(FUNCTIONS["strcpy"].text, FUNCTIONS["strcpy_at"].text.replace(
            "strcpy_at(char to[], unsigned to_at, char from[], unsigned from_at)", "strcpy(char to[], char from[])",
        ).replace("to_at + ", "").replace("from_at + ", ""))
        for name, function in FUNCTIONS.items():
            self.assertEqual(bool(re.search(r"[a-z]_at\b", function.text)), name.endswith("_at"), name)

    def test_each_once_in_one_order(self):
        names = ["puts", "isalpha", "print_int", "strpbrk_found", "isalpha"]
        text = definitions(names)
        self.assertEqual(definitions(reversed(names)), text)
        defined = re.findall(r"^(?:void|int|unsigned) std_(\w+)\(", text, re.MULTILINE)
        self.assertEqual(defined, [
            "isalpha", "strcspn", "strpbrk_index", "strpbrk_found", "pad", "print_text", "puts", "print_number",
            "print_int",
        ])

    def test_none(self):
        self.assertEqual(definitions([]), "")

    def test_byte_that_was_pushed_back(self):
        self.assertIn("= getchar();", definitions(["fgets"]))
        for name in ("ungetc", "scan_int", "getchar"):
            text = definitions(["fgets", name])
            self.assertIn("int std_ahead[1];\n", text)
            self.assertEqual(len(re.findall(r"(?<!_)getchar\(\)", text)), 1, name)

    def test_what_is_named_stands_before(self):
        for name, function in FUNCTIONS.items():
            seen = definitions([name])
            for needed in function.needs:
                self.assertLess(seen.index(FUNCTIONS[needed].text), seen.index(function.text), name)


if __name__ == "__main__":
    unittest.main()
