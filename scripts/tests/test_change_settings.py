"""What a file dejavu.toml may say."""
import importlib.util
import re
import sys
import unittest
from unittest import mock

from support import TOP, InFolder

from dejavu_tools.errors import ToolError
from dejavu_tools.settings import KEYS, Settings, parsed, read_settings

LEAST = 'sources = ["a.c", "b/c.c"]\ninputs = "t"\nbudget = 10_000\n'

HAS_TOML = importlib.util.find_spec("tomllib") or importlib.util.find_spec("tomli")

ALL = """# of a program
sources = ["a.c"]
suite = 'suites/all'
expected = "wanted"
history = "/var/kept"
adopt = true
drop-stderr = true
long-as-int = true
include = ["include", "lib"]
define = ["N=3", "FAST"]
"""


@unittest.skipUnless(HAS_TOML, "no library is there that reads TOML")
class Read(InFolder):
    """Files that are read."""

    def read(self, text):
        """The settings of this text."""
        return read_settings(self.write("dejavu.toml", text))

    def test_least(self):
        self.assertEqual(self.read(LEAST), Settings(
            sources=("a.c", "b/c.c"), suite=None, inputs="t", budget=10_000, expected=None, history=".dejavu",
            adopt=True, drop_stderr=False, long_as_int=False, include=(), define=(),
        ))

    def test_all(self):
        self.assertEqual(self.read(ALL), Settings(
            sources=("a.c",), suite="suites/all", inputs=None, budget=0, expected="wanted", history="/var/kept",
            adopt=True, drop_stderr=True, long_as_int=True, include=("include", "lib"), define=("N=3", "FAST"),
        ))

    def check_refused(self, text, message):
        """The text is refused with this line."""
        with self.subTest(text), self.assertRaises(ToolError) as caught:
            self.read(text)
        self.assertEqual((str(caught.exception), caught.exception.status),
                         (f"{self.folder / 'dejavu.toml'}: {message}", 2))

    def test_keys_that_are_not_known(self):
        known = "sources, inputs, budget, suite, expected, history, adopt, drop-stderr, long-as-int, include, define"
        self.check_refused(LEAST + "colour = 3\n", f"the key colour isn't known; there are {known}")
        self.check_refused(LEAST + "[adopting]\nx = 1\n", f"the key adopting isn't known; there are {known}")
        self.check_refused("long_as_int = true\n", f"the key long_as_int isn't known; there are {known}")

    def test_keys_that_are_missing(self):
        self.check_refused("", "the key sources is missing: it lists the C files of the program")
        self.check_refused('sources = []\ninputs = "t"\nbudget = 1\n',
                           "the key sources is missing: it lists the C files of the program")
        where = "one of the keys suite, a file, and inputs, a folder, says where the tests are"
        self.check_refused('sources = ["a.c"]\n', where)
        self.check_refused(LEAST + 'suite = "s"\n', where)
        self.check_refused('sources = ["a.c"]\ninputs = "t"\n',
                           "the key budget is missing: it says how many turns a test of t has")

    def test_keys_that_do_not_go_together(self):
        self.check_refused('sources = ["a.c"]\nsuite = "s"\nbudget = 1\n',
                           "budget goes with inputs; the tests of a suite have budgets of their own")
        self.check_refused(LEAST + "adopt = false\n", "without adopt there is one source, and sources has 2")
        for line in ("drop-stderr = true", "long-as-int = false", 'include = ["i"]', 'define = ["N"]'):
            self.check_refused(f'sources = ["a.c"]\nsuite = "s"\nadopt = false\n{line}\n',
                               f"{line.split()[0]} goes with adopt, which is false")

    def test_values_of_other_kinds(self):
        texts = "has to be a list of texts in quotes"
        for line, message in (
            ('sources = "a.c"', f"sources {texts}"),
            ('sources = ["a.c", 3]', f"sources {texts}"),
            ('sources = [""]', f"sources {texts}"),
            ("budget = 10000001", "budget has to be a number from 0 to 10,000,000"),
            ("budget = -1", "budget has to be a number from 0 to 10,000,000"),
            ("budget = true", "budget has to be a number from 0 to 10,000,000"),
            ("budget = 1.5", "budget has to be a number from 0 to 10,000,000"),
            ('adopt = "no"', "adopt has to be true or false"),
            ("expected = 1", "expected has to be a text in quotes"),
            ('history = ""', "history has to be a text in quotes"),
        ):
            self.check_refused(f"{line}\n", message)

    def test_no_toml(self):
        for text in ("sources = \n", "sources = [\n", 'a = 1\na = 2\n', b'suite = "\xff"\n'):
            with self.subTest(text), self.assertRaisesRegex(ToolError, r"dejavu\.toml: this is no TOML: .+"):
                self.read(text)

    def test_no_file(self):
        with self.assertRaisesRegex(ToolError, r"no.toml: there is no such file, .+ \(docs/change.md has its keys\)$"):
            read_settings(self.folder / "no.toml")


class Document(unittest.TestCase):
    """docs/change.md."""

    def test_keys(self):
        text = (TOP / "docs" / "change.md").read_text(encoding="utf-8")
        table = text.split("| Key | Value | Where it is missing |\n|---|---|---|\n")[1].split("\n\n")[0]
        self.assertEqual(re.findall(r"^\| `([\w-]+)` \|", table, re.MULTILINE), list(KEYS))


class Library(unittest.TestCase):
    """Where no library is there."""

    def test_line_that_installs_it(self):
        with mock.patch.dict(sys.modules, {"tomllib": None, "tomli": None}), self.assertRaises(ToolError) as caught:
            parsed("dejavu.toml", b"")
        self.assertEqual(str(caught.exception), "dejavu.toml: Python before 3.11 reads TOML by the library tomli: "
                                                "python3 -m pip install tomli")


if __name__ == "__main__":
    unittest.main()
