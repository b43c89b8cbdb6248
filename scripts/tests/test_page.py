"""The page of a change: over texts made by hand, and over a program that stands in for `dejavu` (toy_dejavu.py)."""
import hashlib
import os
import re
import subprocess
import sys
import unittest
from pathlib import Path

from graded import FAILED, NONE, PASSED, POINTS, SOURCE, row
from pages import Page, colors, contrast, faults
from support import SCRIPTS, TOP, InFolder, sealed

from dejavu_tools.change import outcome_of_files
from dejavu_tools.page import document, lines, markup, outputs, places, sources, steps
from dejavu_tools.revisions import Version
from dejavu_tools.settings import settings_of
from dejavu_tools.sides import Side, Unit

TOY = SCRIPTS / "tests" / "toy_dejavu.py"

# What the commands write of examples/grades, which docs/walk.md goes through, and its points. The new source has `f`.
WALK = "edge 3 grade 3:9 true\ndangerous 1 of 15\npairs 15\n"
SELECT = "left none\nrun failed edge 3\nleft passed\nselected 1 of 3\n"
EXPLAIN = """run failed edge 3
edge 3 grade 3:9 true
1 #start 0 0 start
2 #start 1 1 step 1 next
3 main 8 8 call 2
4 main 9 9 step 3 next
5 main 10 10 step 4 next
6 main 12 12 step 5 false
7 grade 3 3 call 6
8 grade 4 4 step 7 next
danger 8 true 4:9
"""
NEW_SOURCE = SOURCE.replace(b"'F'", b"'f'")


def told(source, *entries):
    """A history of three tests of examples/grades with these outputs."""
    tests = (("none", "-", 1, 8, NONE), ("failed", "34", 0, 14, FAILED), ("passed", "37", 0, 14, PASSED))
    text = "".join(
        f"test {name}\nbudget 100\ninput {given}\nstatus exit {status}\nturns {turns}\noutput {output.hex() or '-'}\n"
        f"crossed {row(15, crossed)}\n" for (name, given, status, turns, crossed), output in zip(tests, entries)
    )
    return sealed(f"dejavu history 3\nsource {hashlib.sha256(source).hexdigest()}\nedges 15\ntests 3\n{text}")


class Graded(InFolder):
    """The page of examples/grades, over the texts of docs/walk.md."""

    PAGES = {}  # by what they were made of

    def page(self, *words, explain=EXPLAIN, now=b"f"):
        """The page that the script writes."""
        made_of = words, explain, now
        if made_of not in self.PAGES:
            self.PAGES[made_of] = self.made(*made_of)
        return self.PAGES[made_of]

    def made(self, words, explain, now):
        """The same, made anew."""
        texts = {"walk": WALK, "select": SELECT, "explain": explain, "points-old.c": POINTS,
                 "points-new.c": POINTS.replace("'F'", "'f'"), "old.c": SOURCE, "new.c": NEW_SOURCE,
                 "history": told(SOURCE, b"", b"F", b"P"), "carry": told(NEW_SOURCE, b"", now, b"P"),
                 "expected/failed.out": "F", "expected/none.out": "", "expected/none.status": "1"}
        for name, text in texts.items():
            self.write(name, text)
        for name, text in (("program", 'cat "$1"'), ("points", 'cat "points-$1"')):
            self.write(name, f"#!/bin/sh\n{text}\n").chmod(0o755)
        done = self.run_script("report", "--program", "program", *words, "old.c", "new.c", "history")
        self.assertEqual((done.returncode, done.stderr), (0, b""))
        page = Page(done.stdout)
        self.assertEqual(faults(page), [])
        return page

    def full_page(self, **options):
        """The page with the lists of points."""
        return self.page("--points", "points", **options)

    def test_what_there_is_to_know_first(self):
        page = self.full_page()
        self.assertEqual(page.one("h1"), "old.c to new.c")
        self.assertEqual(page.one("strong"), "1 of 3 tests run again, 1 differ, 0 fail.")
        header = page.one("header")
        self.assertIn("1 of 15 edges of the old version are dangerous", header)
        self.assertIn("Both versions reach 15 pairs of points together.", header)
        self.assertIn("The tests reach 10 of 10 lines and cross 15 of 15 edges of the old version", header)

    def test_sections_in_their_order(self):
        self.assertEqual(self.full_page().all("h2"),
                         ["What the change does to the sources", "Tests that differ or fail",
                          "How the walk comes to where the versions part", "All tests"])

    def test_sources_with_what_stands_beside_and_below(self):
        page = self.full_page()
        rows = page.rows("margins")
        self.assertEqual(rows[0], ["Line", "Tests", "Ways out", "old.c", "Line", "Tests", "Ways out", "new.c"])
        self.assertEqual(rows[1], ["1", "2", "", "int grade(int mark)"] * 2)
        self.assertEqual(rows[3], ["3", "2", "true: 1false: 1", "    if (mark < 5)"] * 2)
        note = "edge 3 true of grade: crossed by 1 test: failed; the new version goes on at 4:9"
        self.assertEqual(rows[4], [note, ""])
        self.assertEqual(rows[5], ["4", "1", "", "        return 'F';", "4", "1", "", "        return 'f';"])
        self.assertEqual(rows[6], ["", "here this version goes on, behind edge 3"])
        self.assertEqual((page.all("del")[0], page.all("ins")[0]), ("        return 'F';", "        return 'f';"))
        self.assertEqual(page.all("mark"), ["F", "f"])
        self.assertIn("mark", page.all("em"))
        self.assertIn("8 equal lines, from 8 and 8 on", page.all("summary"))

    def test_every_line_stands_once_for_each_version(self):
        ids = [name for name in self.full_page().ids() if re.fullmatch(r"[on]1-\d+", name)]
        self.assertEqual(sorted(ids), sorted(f"{side}1-{line}" for side in "on" for line in range(1, 16)))

    def test_test_that_differs(self):
        page = self.full_page()
        self.assertEqual(page.one("section", id="test-failed").split(":")[0], "failed")
        self.assertIn("failed: differs", page.all("h3"))
        self.assertEqual(page.rows("runs"), [["Run", "Status", "Turns", "Output"],
                                             ["before", "exit 0", "14 of 100", "1 byte"],
                                             ["now", "exit 0", "14 of 100", "1 byte"]])
        self.assertEqual(page.rows("difference"), [["before", "now", "\u00b1", "Line"],
                                                   ["1", "", "\u2212", "F no newline"], ["", "1", "+", "f no newline"]])
        self.assertEqual(page.all("caption"), ["Output: \u2212 before, + now"])
        self.assertEqual(page.all("pre"), ["4", "F", "f"])

    def test_test_that_fails_with_what_was_expected(self):
        page = self.full_page_expected()
        self.assertEqual(page.one("strong"), "1 of 3 tests run again, 1 differ, 1 fail.")
        self.assertIn("failed: fails, and differs", page.all("h3"))
        self.assertEqual(page.all("caption"), ["Output: \u2212 expected and before, + now"])
        self.assertEqual(page.rows("runs")[1], ["expected", "exit 0", "", "1 byte"])

    def full_page_expected(self, **options):
        """The page with lists of points, and what is expected."""
        return self.page("--points", "points", "--expected", "expected", **options)

    def test_status_without_another_output(self):
        page = self.full_page_expected(now=b"F")
        self.assertEqual(page.one("strong"), "1 of 3 tests run again, 0 differ, 0 fail.")
        self.assertIn("None does.", page.all("p"))

    def test_steps_with_the_lines_of_both_sources(self):
        rows = self.full_page().rows("steps")
        self.assertEqual(rows[1], ["1", "#start", "8:5 int main(void) (its entry)", "8:5 int main(void) (its entry)",
                                   "both versions begin here"])
        self.assertEqual(rows[3][4], "called at 2")
        self.assertEqual(rows[6], ["6", "main", "13:13 putchar(grade(c - '0'));", "13:13 putchar(grade(c - '0'));",
                                   "along false from 5"])
        self.assertEqual(rows[8][2], "3:9 if (mark < 5)")
        self.assertIn("At step 8 the old version takes true, edge 3 at 3:9; the new one goes on at 4:9.",
                      self.full_page().all("p"))

    def test_way_out_that_the_new_version_lacks(self):
        page = self.full_page(explain=EXPLAIN.replace("4:9", "none"))
        self.assertIn("At step 8 the old version takes true, edge 3 at 3:9; the new one has no such way out.",
                      page.all("p"))
        self.assertIn("edge 3 true of grade: crossed by 1 test: failed; the new version has no such way out",
                      page.all("li"))

    def test_step_behind_a_call(self):
        over = EXPLAIN.replace("danger 8 true 4:9", "9 main 13 13 over 6 8\ndanger 6 9 next 4:9")
        page = self.full_page(explain=over)
        self.assertEqual(page.rows("steps")[9][4], "behind the call at 6, whose callee ended at 8")
        self.assertTrue(any(text.startswith("Behind the call at step 6, whose callee ended at 9, the old")
                            for text in page.all("p")))

    def test_long_way_is_cut(self):
        facts = "".join(f"{number} grade 4 4 step {number - 1} true\n" for number in range(9, 101))
        page = self.full_page(explain=EXPLAIN.replace("danger 8", f"{facts}danger 100"))
        rows = page.rows("steps")
        self.assertEqual(len(rows), 1 + steps.FIRST_STEPS + 1 + steps.LAST_STEPS)
        self.assertEqual(rows[11], ["40 steps between, which explain has"])

    def test_tables_of_all_tests(self):
        page = self.full_page()
        self.assertEqual(page.rows("tests")[1], ["failed", "differs", "3", "4", "exit 0", "14"])
        self.assertIn("1 test run again, of which 1 differs", page.all("summary"))
        self.assertIn("2 tests left: they crossed no dangerous edge", page.all("summary"))
        self.assertEqual([page.one("li", id=f"test-{name}") for name in ("none", "passed")], ["none", "passed"])

    def test_without_lists_of_points(self):
        self.made(("--points", "points"), EXPLAIN, b"f")
        here = Path.cwd()
        self.addCleanup(os.chdir, here)
        os.chdir(self.folder)
        scratch = self.folder / "scratch"
        scratch.mkdir()
        files = (Path("old.c"), Path("new.c")), Path("history"), None, self.folder / "program", scratch
        page = Page(document.page(outcome_of_files(*files, document.looks(self.folder, None))))
        self.assertEqual(faults(page), [])
        self.assertEqual(page.rows("sources")[0], ["Line", "old.c", "Line", "new.c"])
        self.assertEqual(page.rows("steps")[8][2:4], ["point 4", "point 4"])
        self.assertEqual(sum("the program points isn't there" in text for text in page.all("p")), 2)

    def test_points_that_are_missing(self):
        self.made(("--points", "points"), EXPLAIN, b"f")
        done = self.run_script("report", "--program", "program", "--points", "none", "old.c", "new.c", "history")
        self.check_answer(done, 2, "", f"report: {self.folder}/none: No such file or directory\n")

    def test_points_of_another_source(self):
        self.made(("--points", "points"), EXPLAIN, b"f")
        self.write("points-new.c", POINTS)
        done = self.run_script("report", "--program", "program", "--points", "points", "old.c", "new.c", "history")
        self.check_answer(done, 2, "", f"report: {self.folder}/points: point 5 isn't one of new.c, which has another"
                                       " text there\n")

    def test_walk_that_is_not_known(self):
        self.made(("--points", "points"), EXPLAIN, b"f")
        for command, text, line in (("walk", "edge 3\n", "walk wrote a line that isn't known: "),
                                    ("explain", "left failed\n", "explain wrote too few lines"),
                                    ("explain", EXPLAIN.replace("8 grade", "9 grade"),
                                     "explain wrote a line that isn't known: 9 grade 4 4 step 7 next")):
            with self.subTest(text):
                before = (self.folder / command).read_text(encoding="ascii")
                self.write(command, text)
                done = self.run_script("report", "--program", "program", "old.c", "new.c", "history")
                self.check_answer(done, 2, "", f"report: {line}\n")
                self.write(command, before)


class OverToy(InFolder):
    """Pages over the program that stands in for `dejavu`."""

    OLD = "a one_ 0\nb two_ 0\nc three_four_ 1\n"
    NEW = "a one_ 0\nb two_ 0\nc three_five_ 1\n"

    def prepare(self, old=OLD, new=NEW, inputs="abc"):
        """Writes the sources, and the history of tests with these inputs."""
        self.write("program", f'#!/bin/sh\nRUNS={self.folder}/runs exec {sys.executable} -IS {TOY} "$@"\n').chmod(0o755)
        self.write("points", f'#!/bin/sh\nexec {sys.executable} -IS {TOY} points "$@"\n').chmod(0o755)
        self.write("old.c", old)
        self.write("new.c", new)
        tests = "".join(f"test t{number} 999 {letter.encode().hex()}\n" for number, letter in enumerate(inputs, 1))
        suite = self.write("suite", f"dejavu suite 1\n{tests}")
        self.write("history", self.told("record", "old.c", suite.name))
        self.write("runs", "")

    def told(self, *words):
        """What the program writes."""
        words = [str(self.folder / "program"), *words]
        return subprocess.run(words, cwd=self.folder, stdout=subprocess.PIPE, check=True).stdout

    def report(self, *words):
        """What the script answers."""
        words = ("--program", "program", "--points", "points", *words)
        return self.run_script("report", *words, "old.c", "new.c", "history")

    def page(self, *words):
        """The page that it writes."""
        done = self.report(*words)
        self.assertEqual((done.returncode, done.stderr), (0, b""))
        page = Page(done.stdout)
        self.assertEqual(faults(page), [])
        return page

    def test_each_test_runs_once(self):
        self.prepare()
        self.assertEqual(self.page().one("strong"), "1 of 3 tests run again, 1 differ, 0 fail.")
        self.assertEqual((self.folder / "runs").read_text(encoding="ascii"), "t3\n")

    def test_empty_selection(self):
        self.prepare(new=self.OLD)
        page = self.page()
        self.assertEqual(page.one("strong"), "0 of 3 tests run again, 0 differ, 0 fail.")
        texts = page.all("p")
        for text in ("No line differs.", "None does.", "No test is selected.", "No test runs again."):
            self.assertIn(text, texts)

    def test_history_without_tests(self):
        self.prepare(inputs="")
        self.assertEqual(self.page().one("strong"), "0 of 0 tests run again, 0 differ, 0 fail.")

    def test_what_comes_from_outside_is_escaped(self):
        self.prepare(old="a <b>&amp;\"'_ 0\n", new="a <script>alert(1)</script>_ 0\n", inputs="a")
        done = self.report()
        page = Page(done.stdout)
        self.assertEqual(faults(page), [])
        self.assertNotIn(b"<script", done.stdout)
        self.assertIn("a <script>alert(1)</script>_ 0", page.all("ins"))
        self.assertEqual(page.rows("difference")[1][3], "<b>&amp;\"'")
        self.assertEqual(page.all("pre")[1], "<b>&amp;\"'\n")

    def test_names_of_files_are_escaped(self):
        self.prepare()
        for name, text in (("<i>old&.c", self.OLD), ("\u00e9\x01.c", self.NEW)):
            self.write(name, text)
        done = self.run_script("report", "--program", "program", "--points", "points", "<i>old&.c", "\u00e9\x01.c",
                               "history")
        page = Page(done.stdout)
        self.assertEqual((page.one("h1"), faults(page)), ("<i>old&.c to \u00e9\\x01.c", []))

    def test_many_tests_that_differ(self):
        count = outputs.MOST_TESTS + 5
        self.prepare(inputs="c" * count)
        page = self.page()
        self.assertEqual(len(page.all("section", kind="test")), outputs.MOST_TESTS)
        self.assertIn(f"{outputs.MOST_TESTS - outputs.MOST_OPEN} more tests that differ or fail", page.all("summary"))
        self.assertIn("5 more tests can be found in the tables below.", page.all("p"))
        self.assertEqual(len(page.rows("tests")), 1 + count)

    def test_page_in_a_file(self):
        self.prepare()
        self.write("page.html", "before")
        self.check_answer(self.report("--page", "page.html"), 0, "")
        self.assertEqual(faults(Page((self.folder / "page.html").read_bytes())), [])
        self.assertEqual([name for name in self.names() if "part" in name], [])

    def check_refused(self, line, *words, **options):
        """The script says this, and leaves the file of the page as it is."""
        self.write("page.html", "before")
        before = self.names()
        done = self.report("--page", "page.html", *words)
        self.check_answer(done, 2, "", f"report: {line}\n")
        self.assertEqual((self.folder / "page.html").read_text(encoding="ascii"), "before")
        self.assertEqual(self.names(), before)

    def test_file_that_is_missing(self):
        self.prepare()
        (self.folder / "new.c").unlink()
        self.check_refused("new.c: No such file or directory")

    def test_source_that_is_refused(self):
        self.prepare()
        self.write("new.c", "a one_ 0\nBAD\n")
        self.check_refused("new.c:2:1: error: the source can't go on like this")

    def test_history_of_another_source(self):
        self.prepare()
        self.write("old.c", self.OLD + "d x 0\n")
        self.check_refused("history: the history is of another source than the old one")

    def test_history_that_is_damaged(self):
        self.prepare()
        self.write("history", (self.folder / "history").read_text(encoding="ascii").replace("turns 8", "turns 9"))
        self.check_refused("history: the history was changed since it was written, or damaged")

    def test_program_that_is_missing(self):
        self.prepare()
        self.check_refused(f"{self.folder}/no/such: No such file or directory", "--program", "no/such")

    def test_folder_of_expected_outputs_that_is_missing(self):
        self.prepare()
        self.check_refused("nowhere: No such file or directory", "--expected", "nowhere")

    def test_page_that_cannot_be_written(self):
        self.prepare()
        done = self.report("--page", "no/such/page.html")
        self.check_answer(done, 2, "", "report: no/such/page.html: No such file or directory\n")

    def test_words(self):
        self.assertEqual(self.run_script("report", "old.c").returncode, 2)

    def test_output_that_nobody_reads(self):
        self.prepare()
        programs = ("--program", self.folder / "program", "--points", self.folder / "points")
        self.check_unread("report", *programs, "old.c", "new.c", "history")


class Files(InFolder):
    """A version whose unit was made of several files."""

    ROWS = ((1, 1, 2, 1, "a.c"), (2, 1, 1, 5, "inc/b.h"), (4, 1, 9, 1, "a.c"))

    def places(self, letter=places.OLD, **more):
        """The files a.c and inc/b.h of a version, with a map of its unit."""
        self.write("a.c", '#include "b.h"\n#include "none.h"\nint a;\n')
        self.write("inc/b.h", '#include "c.h"\nint b;\n')
        self.write("inc/c.h", "int c;")
        rows = tuple((*row, str(self.folder / file)) for *row, file in self.ROWS)
        settings = settings_of("x", {"sources": ["a.c"], "suite": "s", "include": ["inc"]})
        version = Version("v1", self.folder, self.folder, True)
        return places.Places(letter, Side(version, settings, Unit(Path("unit.c"), "", rows), []), None)

    def test_files_and_what_they_include(self):
        found = self.places().files.values()
        self.assertEqual([(file.name, file.key, len(file.lines)) for file in found],
                         [("a.c", "o1", 3), ("inc/b.h", "o2", 2), ("inc/c.h", "o3", 1)])

    def test_places_of_the_unit_lead_to_the_files(self):
        found = self.places()
        self.assertEqual(found.link((1, 9)), '<a href="#o1-2">a.c:2:1</a>')
        self.assertEqual(found.link((3, 1)), '<a href="#o2-1">inc/b.h:1:5</a>')
        self.assertEqual(found.link((4, 1)), "4:1 of the unit")

    def test_note_outside_the_files(self):
        found = self.places()
        found.put((4, 1), "<li>one</li>")
        found.put((1, 1), "<li>two</li>")
        self.assertEqual(found.outside, ["<li>one</li>"])
        self.assertEqual(found.files[str(self.folder / "a.c")].notes, {2: ["<li>two</li>"]})

    def test_pairs_of_files(self):
        old, new = self.places(), self.places(places.NEW)
        both = [tuple(file and file.name for file in pair) for pair in places.file_pairs(old, new)]
        self.assertEqual(both, [("a.c", "a.c"), ("inc/b.h", "inc/b.h"), ("inc/c.h", "inc/c.h")])
        del new.files[str(self.folder / "inc/c.h")]
        self.assertEqual([file and file.name for file in places.file_pairs(old, new)[-1]], ["inc/c.h", None])
        next(iter(new.files.values())).name = "other.c"
        del old.files[str(self.folder / "inc/c.h")]
        self.assertEqual([file.name for file in places.file_pairs(old, new)[0]], ["a.c", "other.c"])

    def test_file_of_one_version(self):
        file = next(iter(self.places().files.values()))
        found = sources.file_section(file, None, False).html
        self.assertIn("<summary>Only the old version has this file, of 3 lines</summary>", found)
        self.assertIn('<td class="none" colspan="2"></td>', found)


class Lines(unittest.TestCase):
    """Lines beside each other, and what is shown of them."""

    def test_pairs(self):
        pairs = lines.pairs_of([b"a", b"b", b"c"], [b"a", b"x", b"y", b"c"])
        self.assertEqual([tuple(pair) for pair in pairs], [(0, 0, True), (1, 1, False), (None, 2, False), (2, 3, True)])

    def test_pairs_of_texts_that_begin_and_end_alike(self):
        for old, new, pairs in (
            ([b"a", b"a"], [b"a"], [(0, 0, True), (1, None, False)]),
            ([b"a", b"b"], [b"a", b"b"], [(0, 0, True), (1, 1, True)]),
            ([], [b"a"], [(None, 0, False)]),
            ([b"x", b"m", b"y", b"z"], [b"v", b"m", b"w", b"z"],
             [(0, 0, False), (1, 1, True), (2, 2, False), (3, 3, True)]),
        ):
            with self.subTest((old, new)):
                self.assertEqual([tuple(pair) for pair in lines.pairs_of(old, new)], pairs)
        many = lines.pairs_of([b"x", b"m", b"y", b"z"], [b"v", b"m", b"w", b"z"], 2)
        self.assertEqual([tuple(pair) for pair in many],
                         [(0, 0, False), (1, 1, False), (2, 2, False), (3, 3, True)])

    def test_stretches(self):
        pairs = [lines.Pair(at, at, True) for at in range(20)]
        is_told = [at in (0, 9) for at in range(20)]
        found = [(len(stretch.pairs), stretch.is_told) for stretch in lines.stretches(pairs, is_told)]
        self.assertEqual(found, [(4, True), (2, False), (7, True), (7, False)])
        found = [(len(stretch.pairs), stretch.is_told) for stretch in lines.stretches(pairs, is_told, 3)]
        self.assertEqual(found, [(13, True), (7, False)])
        self.assertEqual(list(lines.stretches([], [])), [])

    def test_what_differs_in_a_line(self):
        for old, new, spans in (
            ("return 'F';", "return 'f';", (range(8, 9), range(8, 9))),
            ("s += n;", "s += n + 1;", (range(6, 6), range(6, 10))),
            ("aa", "aaa", (range(2, 2), range(2, 3))),
            ("aaa", "", (range(0), range(0))),
            ("one", "two", (range(0), range(0))),
            ("", "   ", (range(0, 0), range(0, 3))),
        ):
            with self.subTest((old, new)):
                self.assertEqual(lines.differing(old, new), spans)

    def test_white_space_is_seen_where_only_it_differs(self):
        self.assertEqual(outputs.both_html(b"a b\n", b"a\tb\n"), ("a<mark>\u00b7</mark>b", "a<mark>\u2192</mark>b"))
        self.assertEqual(outputs.both_html(b"a\n", b"a \n"), ("a", "a<mark>\u00b7</mark>"))
        self.assertEqual(outputs.both_html(b"a\n", b"a\r\n"), ("a", "a<mark><i>\\r</i></mark>"))
        self.assertEqual(outputs.both_html(b"a\n", b"a"), ("a", "a <i>no newline</i>"))
        self.assertEqual(outputs.both_html(b"12 ab\n", b"13 ab\n"), ("1<mark>2</mark> ab", "1<mark>3</mark> ab"))

    def test_long_line_is_cut_around_what_differs(self):
        old, new = b"x" * 1000 + b"a" + b"y" * 1000, b"x" * 1000 + b"b" + b"y" * 1000
        self.assertEqual(outputs.both_html(old + b"\n", new + b"\n")[1],
                         f"&hellip;{'x' * 60}<mark>b</mark>{'y' * 239}&hellip;")

    def test_long_difference_is_cut(self):
        texts = [outputs.Text((name,), b"".join(b"%s%d\n" % (name.encode(), at) for at in range(100)))
                 for name in ("before", "now")]
        found = outputs.difference(*texts)
        self.assertEqual(found.count("<tr>"), 1 + outputs.MOST_LINES + 1)
        self.assertIn("140 more lines", found)

    def test_bytes_that_are_not_seen(self):
        self.assertEqual(markup.shown(b"\xff\xc3\xa9\x1b\xe2\x80\xae\t<&"),
                         "<i>\\xff</i>\u00e9<i>\\x1b</i><i>U+202E</i>\t&lt;&amp;")
        self.assertEqual(markup.plain(b"\xff\"'"), "\\xff&quot;&#x27;")


class Style(unittest.TestCase):
    """The colours of the page."""

    def test_contrast(self):
        style = (SCRIPTS / "dejavu_tools/page/style.css").read_text(encoding="ascii")
        grounds = ("paper", "old", "new", "note", "target")
        for of in colors(style):
            pairs = [(ink, ground) for ink in ("ink", "faint", "link") for ground in grounds] + [("ink", "mark")]
            for ink, ground in pairs:
                with self.subTest((ink, ground, of["paper"])):
                    self.assertGreaterEqual(contrast(of[ink], of[ground]), 4.5)

    def test_contrast_of_known_colors(self):
        self.assertAlmostEqual(contrast("#000000", "#ffffff"), 21)
        self.assertAlmostEqual(contrast("#767676", "#ffffff"), 4.54, places=2)


class Documents(unittest.TestCase):
    """What the documents say of the page."""

    def test_texts_of_walk(self):
        text = (TOP / "docs" / "walk.md").read_text(encoding="utf-8")
        for told_text in (WALK, SELECT, EXPLAIN):
            self.assertIn(told_text, text)


if __name__ == "__main__":
    unittest.main()
