"""Suites of folders, suites for people, and histories that are held against folders."""
import os
import unittest

from support import TOP, InFolder, sealed

from dejavu_tools.errors import ToolError
from dejavu_tools.formats import Test
from dejavu_tools.suites import cut, cut_escaped, first_difference, name_of_test, suite_of_folder


class Names(unittest.TestCase):
    """The names of tests."""

    def test_names(self):
        for stem, name in (
            ("a", "a"), ("_a.b-C9", "_a.b-C9"), ("-a", "_a"), (".a", "_a"), ("a b", "a_b"), ("\u00e9t\u00e9", "_t_"),
            ("9", "9"), ("a/b", "a_b"), ("\udcff", "_"), ("\u0661", "_"), ("a\nb", "a_b"), ("n" * 65, "n" * 64),
        ):
            with self.subTest(stem):
                self.assertEqual(name_of_test(stem), name)


class Made(InFolder):
    """`suite from`."""

    def check_refused(self, message, *more):
        """The folder `t` is refused with this one line, and no file appears."""
        before = self.names()
        self.check_answer(self.run_script("suite", "from", "t", "--budget", "100", *more), 2, "", f"suite: {message}\n")
        self.assertEqual(self.names(), before)

    def test_tests_in_the_order_of_their_names(self):
        self.write("t/b.in", "B")
        self.write("t/a.in", "A\n")
        self.write("t/a-1.in", "")
        self.write("t/B.in", b"\xff\x00")
        self.write("t/a.out", "what is expected")
        self.write("t/a.status", "3")
        self.write("t/c.txt", "no test")
        self.write("t/.hidden.in", "no test")
        self.write("t/d/e.in", "no test")
        self.check_answer(
            self.run_script("suite", "from", "t", "--budget", "100"), 0,
            "dejavu suite 1\ntest B 100 ff00\ntest a-1 100 -\ntest a 100 410a\ntest b 100 42\n",
        )

    def test_budgets(self):
        for name in "abc":
            self.write(f"t/{name}.in", name)
        self.write("t/a.budget", "0\n")
        self.write("t/b.budget", "10000000")
        self.check_answer(self.run_script("suite", "from", "--budget", "7", "t"), 0,
                          "dejavu suite 1\ntest a 0 61\ntest b 10000000 62\ntest c 7 63\n")

    def test_budgets_that_are_none(self):
        self.write("t/a.in", "")
        none = "this is no number from 0 to 10,000,000 without leading zeros"
        for text, shown in (
            ("", ""), ("x\n", "x"), ("10000001", "10000001"), ("07", "07"), ("-1", "-1"), ("1 2", "1 2"),
            (b"\xff\n1", "\\xff\\n1"), ("9" * 5000, "9" * 30),
        ):
            path = self.write("t/a.budget", text)
            with self.subTest(text=text), self.assertRaises(ToolError) as caught:
                suite_of_folder(self.folder / "t", 5)
            self.assertEqual(str(caught.exception), f"{path}: {none}: {shown}")
        self.check_refused(f"t/a.budget: {none}: {'9' * 30}")
        self.check_answer(self.run_script("suite", "from", "t", "--budget", "1e3"), 2, "",
                          f"suite: --budget: {none}: 1e3\n")

    def test_names_that_are_replaced(self):
        self.write("t/a b.in", "1")
        self.write("t/-c.in", "2")
        self.write(b"t/\xff\n.in", "3")
        self.write(f"t/{'n' * 70}.in", "4")
        self.write("t/plain.in", "5")
        self.write("t/a b.budget", "9")
        self.check_answer(
            self.run_script("suite", "from", "t", "--budget", "1"), 0,
            f"dejavu suite 1\ntest _c 1 32\ntest a_b 9 31\ntest {'n' * 64} 1 34\ntest plain 1 35\ntest __ 1 33\n",
            f"{'file':73}  test\n"
            f"{'-c.in':73}  _c\n"
            f"{'a b.in':73}  a_b\n"
            f"{'n' * 70}.in  {'n' * 64}\n"
            + f"{chr(92)}xff{chr(92)}n.in".ljust(73) + "  __\n",
        )

    def test_names_that_become_one(self):
        self.write("t/a b.in", "1")
        self.write("t/a_b.in", "2")
        self.check_refused("t/a b.in and t/a_b.in would both be the test a_b: rename one of them")

    def test_names_that_become_one_where_they_are_cut(self):
        for end in "xy":
            self.write(f"t/{'n' * 64}{end}.in", "")
        long = "n" * 64
        self.check_refused(f"t/{long}x.in and t/{long}y.in would both be the test {long}: rename one of them")

    def test_inputs_that_are_too_long(self):
        self.write("t/a.in", b"Z" * 16_384)
        done = self.run_script("suite", "from", "t", "--budget", "100")
        self.check_answer(done, 0, f"dejavu suite 1\ntest a 100 {'5a' * 16384}\n")
        self.write("t/b.in", b"Z" * 16_385)
        self.check_refused("t/b.in: the input has 16,385 bytes, more than 16,384")

    def test_folders_that_cannot_be_used(self):
        self.check_refused("t: No such file or directory")
        self.write("t/a.out", "")
        self.check_refused("t: there is no file *.in")
        (self.folder / "t/a.in").mkdir()
        self.check_refused("t/a.in: this is no file")
        (self.folder / "t/a.in").rmdir()
        (self.folder / "t/a.in").symlink_to("gone")
        self.check_refused("t/a.in: this is no file")
        self.check_answer(self.run_script("suite", "from", "t/a.out", "--budget", "1"), 2, "",
                          "suite: t/a.out: Not a directory\n")

    def test_budget_that_cannot_be_read(self):
        self.write("t/a.in", "")
        (self.folder / "t/a.budget").symlink_to("gone")
        self.check_refused("t/a.budget: No such file or directory")

    def test_words_that_are_none(self):
        for words in ((), ("from", "t"), ("make", "t"), ("expect", "h")):
            done = self.run_script("suite", *words)
            with self.subTest(words=words):
                self.assertEqual((done.returncode, done.stdout), (2, b""))
                self.assertTrue(done.stderr.startswith(b"usage: suite from FOLDER --budget N [--into PREFIX]\n"))

    def test_output_that_nobody_reads(self):
        self.write("t/a.in", "")
        self.check_unread("suite", "from", "t", "--budget", "1")

    @unittest.skipUnless(os.path.exists("/dev/full"), "there is no /dev/full")
    def test_output_that_has_no_room(self):
        self.write("t/a.in", "")
        with open("/dev/full", "wb") as full:
            done = self.run_script("suite", "from", "t", "--budget", "1", stdout=full)
        self.assertEqual((done.returncode, done.stderr), (7, b"suite: standard output: No space left on device\n"))


class Cut(InFolder):
    """Suites that are cut into several."""

    def test_cut_by_tests(self):
        tests = [Test(f"t{number}", 1, b"") for number in range(16_385)]
        self.assertEqual(cut(tests[:8_192]), [tests[:8_192]])
        self.assertEqual(cut(tests), [tests[:8_192], tests[8_192:16_384], tests[16_384:]])

    def test_cut_by_bytes(self):
        # line 1 has 15 bytes, these 511 lines 32,784 each, and the last 24,577: 16,777,216 in all
        tests = [Test(f"t{100_000 + number}", 1, b"Z" * 16_384) for number in range(511)]
        last, longer, more = Test("the_last", 1, b"Z" * 12_280), Test("the_last_", 1, b"Z" * 12_280), Test("m", 1, b"")
        self.assertEqual(cut([*tests, last]), [[*tests, last]])
        self.assertEqual(cut([*tests, last, more]), [[*tests, last], [more]])
        self.assertEqual(cut([*tests, longer, more]), [tests, [longer, more]])
        full = [*tests, last]
        self.assertEqual(cut(full * 2), [full, full])
        self.assertEqual(cut([*full, *tests, longer]), [full, tests, [longer]])

    def test_one_suite_and_several(self):
        first = self.write("t/000.in", b"Z" * 16_384)
        for number in range(1, 512):  # their lines have 32,780 bytes each, so 511 of them fit
            os.link(first, self.folder / f"t/{number:03}.in")
        self.check_answer(
            self.run_script("suite", "from", "t", "--budget", "1"), 2, "",
            "suite: t: its 512 tests don't fit in one suite, which has at most 8,192 tests and 16,777,216 bytes: "
            "--into PREFIX writes 2 suites\n",
        )
        self.check_answer(self.run_script("suite", "from", "t", "--budget", "1", "--into", "s"), 0,
                          "s.1 tests 511\ns.2 tests 1\n")
        self.assertEqual(self.names(), ["s.1", "s.2", "t"])
        lines = [f"test {number:03} 1 {'5a' * 16384}\n".encode("ascii") for number in range(512)]
        self.assertEqual((self.folder / "s.1").read_bytes(), b"".join((b"dejavu suite 1\n", *lines[:511])))
        self.assertEqual((self.folder / "s.2").read_bytes(), b"dejavu suite 1\n" + lines[511])

    def test_one_suite_into_a_file(self):
        self.write("t/a b.in", "x")
        self.write("s.1", "an older one")
        done = self.run_script("suite", "from", "t", "--budget", "1", "--into", "s")
        self.check_answer(done, 0, "s.1 tests 1\n", "file    test\na b.in  a_b\n")
        self.assertEqual((self.folder / "s.1").read_bytes(), b"dejavu suite 1\ntest a_b 1 78\n")
        self.assertEqual(self.names(), ["s.1", "t"])

    def test_files_that_cannot_be_written(self):
        self.write("t/a.in", "x")
        for prefix, message in (("gone/s", "gone/s.1: No such file or directory"), ("d", "d.1: Is a directory"),
                                ("o", "o.2: this would stand behind the last of 1 suites: move it away first")):
            (self.folder / "d.1").mkdir(exist_ok=True)
            self.write("o.2", "an older one")
            done = self.run_script("suite", "from", "t", "--budget", "1", "--into", prefix)
            with self.subTest(prefix):
                self.check_answer(done, 2, "", f"suite: {message}\n")
                self.assertEqual(self.names(), ["d.1", "o.2", "t"])


class Listed(InFolder):
    """`suite list`."""

    def test_table(self):
        self.write("suite", "dejavu suite 1\ntest none 100 -\ntest t 10000000 4120090a5cff2e\n"
                   f"test long 5 {'61' * 1000}\n")
        table = (
            "test      budget  bytes  input\n"
            "none         100      0\n"
            "t     10,000,000      7  A \\t\\n\\\\\\xff.\n"
        )
        done = self.run_script("suite", "list", "suite")
        self.check_answer(done, 0, table + "long           5  1,000  " + "a" * 53 + "..\n")
        table = table.replace("\\\\\\xff.", "\\\\..")
        done = self.run_script("suite", "list", "suite", columns=20)
        self.check_answer(done, 0, table + "long           5  1,000  aaaaaaaa..\n")

    def test_cut_behind_an_escape(self):
        for data, width, shown in (
            (b"", 10, ""), (b"0123456789", 10, "0123456789"), (b"0123456789a", 10, "01234567.."),
            (b"\xff\xff", 8, "\\xff\\xff"), (b"\xff\xff", 7, "\\xff.."), (b"\xff\xff", 6, "\\xff.."),
            (b"\xff\xff", 5, ".."), (b"\n\n\n\n\n\n", 10, "\\n\\n\\n\\n.."), (b"a" * 9 + b"\n", 10, "aaaaaaaa.."),
        ):
            with self.subTest(data=data, width=width):
                self.assertEqual(cut_escaped(data, width), shown)

    def test_empty_suite(self):
        self.write("suite", "dejavu suite 1\n")
        self.check_answer(self.run_script("suite", "list", "suite"), 0, "test  budget  bytes  input\n")

    def test_broken_suites(self):
        self.write("suite", "dejavu suite 1\ntest A 1 -\ntest B 1 4")
        self.check_answer(self.run_script("suite", "list", "suite"), 2, "",
                          "suite: suite:3: this line has no newline at its end (S2)\n")
        self.check_answer(self.run_script("suite", "list", "gone"), 2, "", "suite: gone: No such file or directory\n")
        self.check_answer(self.run_script("suite", "list", "."), 2, "", "suite: .: Is a directory\n")

    def test_output_that_nobody_reads(self):
        self.write("suite", "dejavu suite 1\ntest A 1 -\n")
        self.check_unread("suite", "list", "suite")


def entry(name, status, output):
    """The lines of an entry with an input of one byte."""
    return f"test {name}\nbudget 5000\ninput 41\nstatus {status}\nturns 9\noutput {output}\ncrossed 01\n"


def history(*entries):
    return sealed(f"dejavu history 3\nsource {'0' * 64}\nedges 1\ntests {len(entries)}\n" + "".join(entries))


class Expected(InFolder):
    """`suite expect`."""

    def check_lines(self, status, *lines):
        done = self.run_script("suite", "expect", "h", "t")
        self.check_answer(done, status, "".join(f"{line}\n" for line in lines))

    def test_all_pass(self):
        self.write("h", history(entry("a", "exit 0", "610a"), entry("b", "exit 3", "-"), entry("c", "turns", "ff")))
        self.write("t/a.out", "a\n")
        self.write("t/b.out", "")
        self.write("t/b.status", "3\n")
        self.write("t/c.status", "0")  # nothing is expected of an output, so nothing is of the test
        self.write("t/d.out", "of no test")
        self.check_lines(0, "pass a", "pass b", "none c", "passed 2 failed 0 none 1")

    def test_outputs(self):
        rows = (
            ("long", "610a620a630a", b"a\nb\n", 'at 3:1 recorded "c\\n", expected the end'),
            ("short", "610a", b"a\nb\n", 'at 2:1 recorded the end, expected "b\\n"'),
            ("other", "610a62630a640a", b"a\nbd\nd\n", 'at 2:2 recorded "bc\\n", expected "bd\\n"'),
            ("end", "610a62", b"a\nb\n", 'at 2:2 recorded "b", expected "b\\n"'),
            ("bytes", "00ff", b"\x00\xfe", 'at 1:2 recorded "\\x00\\xff", expected "\\x00\\xfe"'),
            ("return", "610d0a", b"a\n", 'at 1:2 recorded "a\\r\\n", expected "a\\n"'),
            ("none", "-", b"\n", 'at 1:1 recorded the end, expected "\\n"'),
        )
        self.write("h", history(*(entry(name, "exit 0", output) for name, output, _, _ in rows)))
        for name, _, expected, _ in rows:
            self.write(f"t/{name}.out", expected)
        self.check_lines(1, *(f"fail {name} output {told}" for name, _, _, told in rows), "passed 0 failed 7 none 0")

    def test_long_lines(self):
        self.assertEqual(
            first_difference(b"x\n" + b"a" * 50 + b"b" + b"c" * 50, b"x\n" + b"a" * 50 + b"d" + b"c" * 10),
            'at 2:51 recorded "..' + "a" * 30 + "b" + "c" * 29 + '..", expected "..' + "a" * 30 + "d" + "c" * 10 + '"',
        )

    def test_statuses(self):
        rows = (
            ("exit 3", "exit 3"),
            ("turns", "no end within its budget of 5,000 turns"),
            ("trap overflow", "trap overflow (a result beyond the range of int)"),
            ("trap divide", "trap divide (a division by zero)"),
            ("trap shift", "trap shift (a shift that C leaves undefined)"),
            ("trap bounds", "trap bounds (an index outside its array)"),
            ("trap unset", "trap unset (a read of an object before it was written)"),
            ("trap flood", "trap flood (more than 16,384 bytes of output)"),
            ("trap depth", "trap depth (more than 256 frames of calls at a time)"),
            ("trap missing", "trap missing (a function with a result that ended without a return)"),
        )
        self.write("h", history(*(entry(f"t{number}", status, "41") for number, (status, _) in enumerate(rows))))
        for number in range(len(rows)):
            self.write(f"t/t{number}.out", "A")
        told = [f"fail t{number} status recorded {told}, expected exit 0" for number, (_, told) in enumerate(rows)]
        self.check_lines(1, *told, "passed 0 failed 10 none 0")

    def test_output_and_status(self):
        self.write("h", history(entry("a", "exit 0", "41"), entry("b", "exit 0", "41")))
        self.write("t/a.out", "B")
        self.write("t/a.status", "255")
        self.write("t/b.out", "A")
        self.check_lines(
            1, 'fail a output at 1:1 recorded "A", expected "B"; status recorded exit 0, expected exit 255', "pass b",
            "passed 1 failed 1 none 0",
        )

    def test_example_of_the_document(self):
        self.write("h", history(entry("failed", "exit 0", "46"), entry("none", "exit 1", "-"),
                                entry("passed", "exit 0", "50")))
        for name, data in (("failed.out", "f"), ("none.out", ""), ("none.status", "1\n")):
            self.write(f"t/{name}", data)
        text = (TOP / "docs/commands.md").read_text(encoding="utf-8")
        lines = text.split("    $ scripts/suite expect history tests\n")[1].split("\n\n")[0].splitlines()
        self.check_lines(1, *(line[4:] for line in lines))

    def test_names_that_were_replaced(self):
        self.write("h", history(entry("a_b", "exit 2", "41")))
        self.write("t/a b.out", "A")
        self.write("t/a b.status", "2")
        self.check_lines(0, "pass a_b", "passed 1 failed 0 none 0")
        self.write("t/a:b.out", "A")
        self.check_answer(self.run_script("suite", "expect", "h", "t"), 2, "",
                          "suite: t/a b.out and t/a:b.out would both be the test a_b: rename one of them\n")

    def test_what_cannot_be_used(self):
        self.write("h", history(entry("a", "exit 0", "41")))
        self.write("broken", history(entry("a", "exit 300", "41")))
        self.write("u/a.in", "")
        self.write("v/a.out", "A")
        self.write("v/a.status", "256")
        for words, message in (
            (("gone", "v"), "gone: No such file or directory"),
            (("h", "gone"), "gone: No such file or directory"),
            (("h", "u"), "u: there is no file *.out"),
            (("h", "v"), "v/a.status: this is no number from 0 to 255 without leading zeros: 256"),
            (("broken", "v"), "broken:8: the status of a run has to stand here (H9)"),
            (("u/a.in", "v"), "u/a.in:1: this isn't the first line of a history (H1)"),
        ):
            with self.subTest(words=words):
                self.check_answer(self.run_script("suite", "expect", *words), 2, "", f"suite: {message}\n")

    def test_output_that_nobody_reads(self):
        self.write("h", history(entry("a", "exit 0", "41")))
        self.write("t/a.out", "A")
        self.check_unread("suite", "expect", "h", "t")


class Folders(InFolder):
    """What a folder gives without the script."""

    def test_tests_of_a_folder(self):
        self.write("a!.in", b"\x80")
        made = suite_of_folder(self.folder, 5)
        self.assertEqual((made.tests, made.renamed), ([Test("a_", 5, b"\x80")], {"a!.in": "a_"}))
        with self.assertRaises(ToolError):
            suite_of_folder(self.folder / "gone", 5)


if __name__ == "__main__":
    unittest.main()
