"""The messages for refusals."""
import os
import unittest

from support import InFolder

from dejavu_tools.errors import ToolError
from dejavu_tools.refusals import Place, files_of, message_of, read_refusal
from dejavu_tools.words import REFUSALS, Words

SOURCE = b"""int f(int a) { return a; }
int main(void)
{
\tif (getchar() && f(1))
    putchar(2); /* \xc3\xa4 \xff \x1b[31m */ f();
}
"""

M14 = (
    "rule: in the right operand of `&&` or `||`, and in a later operand of `?:`, no function of the source is called",
    "help: write an `if` instead, or call the function before and keep its result in an object",
)


class Sources(InFolder):
    """Refusals of a source."""

    def setUp(self):
        super().setUp()
        self.source = str(self.write("old.c", SOURCE))
        self.files = {"source": self.source}

    def check_lines(self, line, *wanted, **more):
        self.assertEqual(message_of(line, self.files, **more).lines(), list(wanted))

    def test_rule(self):
        self.check_lines(
            "refused: source rule M14 at 4:19\n",
            f"{self.source}:4:19: error: a function of the source is called in a later operand (M14)",
            "\tif (getchar() && f(1))",
            "\t                 ^",
            *M14,
        )

    def test_bytes_that_are_no_text(self):
        lines = message_of("refused: source rule M12 at 5:34", self.files).lines()
        self.assertEqual(lines[0], f"{self.source}:5:34: error: this function isn't declared before it is called (M12)")
        self.assertEqual(lines[1], "    putchar(2); /* \u00e4 \\xff \\x1b[31m */ f();")
        self.assertEqual(lines[2].index("^"), lines[1].index("f();"))

    def test_map_of_places(self):
        own = str(self.write("own file.c", "\n\n  x && f(1)\r\n"))

        def place_map(place):
            self.assertEqual(place, Place(self.source, 4, 19))
            return own, 3, 8

        self.check_lines(
            "refused: source rule M14 at 4:19",
            f"{own}:3:8: error: a function of the source is called in a later operand (M14)",
            "  x && f(1)",
            "       ^",
            *M14,
            place_map=place_map,
        )

    def test_map_to_a_file_that_is_not_there(self):
        self.check_lines(
            "refused: source rule M14 at 4:19",
            "gone.c:4:19: error: a function of the source is called in a later operand (M14)",
            *M14,
            place_map=lambda place: ("gone.c", place.line, place.column),
        )

    def test_place_that_the_file_has_no_more(self):
        for place in ("9:1", "7:1"):
            lines = message_of(f"refused: source rule M14 at {place}", self.files).lines()
            self.assertEqual(len(lines), 3)
        lines = message_of("refused: source rule M14 at 3:7", self.files).lines()
        self.assertEqual(lines[1:3], ["{", M14[0]])

    def test_end_of_a_line(self):
        lines = message_of("refused: source syntax at 3:2", self.files).lines()
        self.assertEqual(lines[:3], [f"{self.source}:3:2: error: the source can't go on like this", "{", " ^"])

    def test_long_line(self):
        self.files["source"] = str(self.write("long.c", b"a" * 500 + b"@" + b"b" * 500))
        lines = message_of("refused: source lex byte at 1:501", self.files).lines()
        self.assertEqual(lines[1], ".." + "a" * 80 + "@" + "b" * 79 + "..")
        self.assertEqual(lines[2], " " * 82 + "^")

    def test_limit(self):
        self.check_lines(
            "refused: source limit arguments 18",
            f"{self.source}: error: a function has 18 parameters, more than 16 (arguments)",
            "rule: a function has at most 16 parameters",
            "help: hand some of them over in an array or in objects of file scope",
        )

    def test_too_long(self):
        self.files = {"old": "a.c", "new": "b.c"}
        self.check_lines(
            "refused: new too long",
            "b.c: error: the source has more than 1,048,576 bytes",
            "rule: a source has at most 1,048,576 bytes",
            "help: make it shorter, or make two programs of it",
        )

    def test_source_that_is_no_file(self):
        self.files = {}
        self.assertEqual(message_of("refused: old rule M14 at 4:19", {}).lines()[0],
                         "old:4:19: error: a function of the source is called in a later operand (M14)")
        reading, writing = os.pipe()  # which has been read, so nothing is read from it
        self.addCleanup(os.close, reading)
        os.write(writing, SOURCE)
        os.close(writing)
        lines = message_of("refused: source rule M14 at 4:19", {"source": f"/dev/fd/{reading}"}).lines()
        self.assertEqual(lines[1:], list(M14))
        self.assertEqual(os.read(reading, len(SOURCE)), SOURCE)


class Files(InFolder):
    """Refusals of suites, histories and certificates, and of no file."""

    def test_line_of_a_suite(self):
        suite = str(self.write("suite", "dejavu suite 1\ntest A 100 41\ntest B 100\n"))
        self.assertEqual(message_of("refused: suite line 3 rule S3", {"source": "a.c", "suite": suite}).lines(), [
            f"{suite}:3: error: this is no line of a test (S3)",
            "test B 100",
            "rule: a line has four words, `test NAME BUDGET INPUT`, with one space between two of them",
            "help: write these four, `-` for an input of no bytes, and no space at the ends",
        ])

    def test_long_line_of_a_history(self):
        history = str(self.write("history", f"dejavu history 3\nsource {'0' * 64}\nedges {'1' * 9000}\n"))
        lines = message_of("refused: history line 3 rule H3", {"history": history}).lines()
        self.assertEqual(lines, [
            f"{history}:3: error: the number of edges has to stand here (H3)",
            "edges " + "1" * 74 + "..",
            "rule: line 3 is `edges` and a number up to 10,000",
            "help: `record` the suite again, or name a history as `record`, `carry` or `migrate` wrote it",
        ])

    def test_line_that_is_missing(self):
        claim = str(self.write("claim", "dejavu certificate 1\n"))
        lines = message_of("refused: certificate line 2 rule C2", {"certificate": claim}).lines()
        self.assertEqual(lines[0], f"{claim}:2: error: the digest of the old source has to stand here (C2)")
        self.assertEqual(len(lines), 3)

    def test_numbers_and_names(self):
        files = {"old": "a.c", "new": "b.c", "history": "h", "suite": "s"}
        for line, headline in (
            ("suite tests 9000", "s: error: the suite has 9,000 tests, more than 8,192"),
            ("suite line 4 twice", "s:4: error: a test of this name stood on an earlier line"),
            ("history version 2", "h: error: the history is of version 2 of the format"),
            ("history edges 8 9", "h: error: the history tells 8 edges, and the old program has 9"),
            ("history no test t-1.x", "h: error: the history has no test t-1.x"),
            ("memory", "dejavu: error: there was too little memory"),
            ("usage", "dejavu: error: these words are no command"),
            ("history too much 134217729",
             "dejavu: error: the history that this makes would have 134,217,729 bytes, more than 134,217,728"),
        ):
            with self.subTest(line):
                self.assertEqual(message_of(f"refused: {line}", files).lines()[0], headline)

    def test_digests(self):
        line = f"refused: history source {'a' * 64} {'b' * 64}"
        self.assertEqual(
            message_of(line, {"history": "h"}).rule,
            f"the digest on line 2 is that of the old source; it is {'a' * 64}, and that one is {'b' * 64}",
        )

    def test_file_that_cannot_be_read(self):
        there, folder = str(self.write("there", "")), str(self.folder)
        for file, why in (("gone", "No such file or directory"), (folder, "Is a directory")):
            lines = message_of("refused: read fault", {"old": there, "new": file, "history": "gone too"}).lines()
            self.assertEqual(lines[0], f"{file}: error: a file could not be read: {why}")
        self.assertEqual(message_of("refused: read fault", {"old": there, "suite": "/dev/null"}).lines()[0],
                         "dejavu: error: a file could not be read")

    def test_every_form_has_its_line(self):
        sample = {"ROLE": "new", "L:C": "3:7", "N": "12", "COUNT": "12", "FOUND": "0" * 64, "COMPUTED": "1" * 64,
                  "REAL": "13", "NAME": "_a.b-C"}
        for form, entry in REFUSALS.items():
            for key, words in {"": entry}.items() if isinstance(entry, Words) else entry.items():
                keyed = {**sample, **dict.fromkeys(("MK", "SK", "HK", "CK", "KIND", "LIMIT"), key)}
                line = "refused: " + " ".join(keyed.get(word, word) for word in form.split(" "))
                with self.subTest(line):
                    refusal = read_refusal(line)
                    self.assertEqual((refusal.form, refusal.words), (form, words))
                    self.assertNotRegex("\n".join(message_of(line, {}).lines()), "[{}]")

    def test_lines_that_are_no_refusals(self):
        for line in (
            "", "refused:", "refused: ", "selected 3 of 12", "refused: memories", "refused: source rule M21 at 1:1",
            "refused: source rule M1 at 1", "refused: suite line 3 rule M1", "refused: source limit points",
            "refused: memory and more", " refused: memory", "refused: old lex digit at 1:1",
        ):
            with self.subTest(line), self.assertRaises(ToolError) as caught:
                message_of(line, {})
            self.assertEqual(str(caught.exception), f"this refusal isn't known: {line}")


class Commands(unittest.TestCase):
    """The files that the words of a command name."""

    def test_files(self):
        for words, files in (
            ([], {}),
            (["help"], {}),
            (["record", "a.c", "s"], {"source": "a.c", "suite": "s"}),
            (["record", "--workers", "4", "a.c", "s"], {"source": "a.c", "suite": "s"}),
            (["record", "a.c", "--workers=4", "s"], {"source": "a.c", "suite": "s"}),
            (["record", "a.c", "s", "--workers"], {"source": "a.c", "suite": "s"}),
            (["record", "--", "--workers", "s"], {"source": "--workers", "suite": "s"}),
            (["record", "--workers", "--", "a.c", "s"], {"source": "a.c", "suite": "s"}),
            (["record", "a.c"], {"source": "a.c"}),
            (["migrate", "a.c", "h"], {"old": "a.c", "history": "h"}),
            (["explain", "a.c", "b.c", "h", "t"], {"old": "a.c", "new": "b.c", "history": "h"}),
            (["check", "a.c", "b.c", "-"], {"old": "a.c", "new": "b.c", "certificate": "-"}),
            (["gen", "1", "2"], {}),
        ):
            with self.subTest(words=words):
                self.assertEqual(files_of(words), files)


if __name__ == "__main__":
    unittest.main()
