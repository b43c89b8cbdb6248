"""The script `change`, over a program that stands in for `dejavu` (toy_dejavu.py says how its sources look)."""
import importlib.util
import json
import os
import pty
import runpy
import signal
import subprocess
import sys
import tempfile
import time
import traceback
import unittest
import warnings
from types import SimpleNamespace
from unittest import mock
from xml.etree import ElementTree

from pages import Page, faults
from support import SCRIPTS, TOP, InFolder, sealed

from dejavu_tools import console, environment
from dejavu_tools.page import document
from dejavu_tools.words import HISTORY_RULES

SETTINGS = """sources = ["main.c"]
inputs = "tests"
budget = 100
adopt = false
"""

OLD = "a one_ 0\nb two_ 0\nc three_four_ 1\n"
NEW = "a one_ 0\nb two_ 0\nc three_five_ 1\n"

DIFFERS = """differs t3
--- t3 recorded
+++ t3 now
@@ -1,2 +1,2 @@
 three
-four
+five
"""

NONE_KEPT = "v1 was recorded: none is kept in .dejavu\n"

TOY = SCRIPTS / "tests" / "toy_dejavu.py"

HAS_TOML = importlib.util.find_spec("tomllib") or importlib.util.find_spec("tomli")

# The environment without what git or GitHub has in it for the repository of these tests.
OUTSIDE = {name: value for name, value in os.environ.items() if not name.startswith(("GIT_", "GITHUB_"))}

SCRIPT = runpy.run_path(str(SCRIPTS / "change"))


def status_of(words):
    """The exit status of the script for these words."""
    sys.argv = words
    try:
        return console.ended("change", SCRIPT["main"])
    except SystemExit as exit:
        return exit.code
    except BaseException:
        traceback.print_exc()
        return 99


@unittest.skipUnless(HAS_TOML, "no library is there that reads TOML")
class WithRepository(InFolder):
    """Tests in a git repository, whose commits have the tags v1, v2 and so on."""

    def setUp(self):
        super().setUp()
        unbuilt = mock.patch.object(document, "POINTS", "no/points")  # which one that is built would stand for
        unbuilt.start()
        self.addCleanup(unbuilt.stop)
        self.git("init", "--quiet")
        self.commits = 0

    def git(self, *words):
        """Has git do this in the repository."""
        names = ("-c", "user.name=A", "-c", "user.email=a@example.com")
        subprocess.run(["git", *names, *words], cwd=self.folder, env=OUTSIDE, stdin=subprocess.DEVNULL,
                       stdout=subprocess.DEVNULL, check=True)

    def commit(self, **files):
        """Commits these files beside those that are there, the names with `_` for `/`, and `__` for a dot."""
        for name, text in files.items():
            self.write(name.replace("__", ".").replace("_", "/"), text)
        self.git("add", "--all")
        self.git("commit", "--quiet", "--allow-empty", "--message", "a step")
        self.commits += 1
        self.git("tag", f"v{self.commits}")

    def commit_two(self, **files):
        """The commits v1 and v2, with three tests, of which the third differs."""
        self.commit(**{"dejavu__toml": SETTINGS, "main__c": OLD, "tests_t1__in": "a", "tests_t2__in": "b",
                       "tests_t3__in": "c", "__gitignore": ".dejavu/\n", **files})
        self.commit(main__c=NEW)

    def change(self, *words, folder=".", terminal=None, **variables):
        """What the script answers for these words; `self.runs` has the names of the tests that ran."""
        log = self.write("runs.log", "")
        program = self.write("program", f'#!/bin/sh\nexec {sys.executable} -IS {TOY} "$@"\n')
        program.chmod(0o755)
        words = ["change", "--program", str(program), *map(str, words)]
        with tempfile.TemporaryFile() as output, tempfile.TemporaryFile() as errors:
            child = os.fork()  # which has what the script imports
            if not child:
                warnings.simplefilter("ignore", ResourceWarning)
                os.chdir(self.folder / folder)
                os.environ.clear()
                os.environ.update(OUTSIDE, RUNS=str(log), **variables)
                os.dup2(output.fileno(), 1)
                os.dup2(errors.fileno() if terminal is None else terminal, 2)
                os._exit(status_of(words))
            status = os.WEXITSTATUS(os.waitpid(child, 0)[1])
            output.seek(0)
            errors.seek(0)
            done = subprocess.CompletedProcess(words, status, output.read(), errors.read())
        self.runs = log.read_text(encoding="utf-8").split()
        return done

    def kept(self):
        """The histories that are kept."""
        return sorted(self.folder.glob(".dejavu/*.history"))


class Told(WithRepository):
    """What is told of a change, and which tests run."""

    def test_first_run(self):
        self.commit_two()
        self.check_answer(self.change("v1", "v2"), 1,
                          NONE_KEPT + DIFFERS + "1 of 3 tests run again, 1 differ, 0 fail\n")
        self.assertEqual(self.runs, ["t1", "t2", "t3", "t3"])
        self.assertEqual(len(self.kept()), 2)

    def test_second_run_and_the_next_change(self):
        self.commit_two()
        self.commit(main__c=NEW.replace("one", "ONE"))
        self.change("v1", "v2")
        self.check_answer(self.change("v1", "v2"), 1, DIFFERS + "1 of 3 tests run again, 1 differ, 0 fail\n")
        self.assertEqual(self.runs, ["t3"])
        done = self.change("v2", "v3")
        self.check_answer(done, 1, "differs t1\n--- t1 recorded\n+++ t1 now\n@@ -1 +1 @@\n-one\n+ONE\n"
                                   "1 of 3 tests run again, 1 differ, 0 fail\n")
        self.assertEqual(self.runs, ["t1"])

    def test_kept_history_is_what_record_writes(self):
        self.commit_two()
        self.change("v1", "v2")
        carried = {path.name: path.read_bytes() for path in self.kept()}
        for path in self.kept():
            path.unlink()
        self.change("v2", "v2")
        (recorded,) = self.kept()
        self.assertEqual(recorded.read_bytes(), carried[recorded.name])

    def test_same_revisions(self):
        self.commit_two()
        self.check_answer(self.change("v1", "v1"), 0, NONE_KEPT + "0 of 3 tests run again, 0 differ, 0 fail\n")
        self.assertEqual(self.runs, ["t1", "t2", "t3"])
        self.check_answer(self.change("v1", "v1"), 0, "0 of 3 tests run again, 0 differ, 0 fail\n")
        self.assertEqual(self.runs, [])

    def test_change_that_selects_a_test_without_a_difference(self):
        self.commit_two(main__c=OLD)
        self.commit(main__c=NEW.replace("a one_ 0", "a  one_ 0"))
        self.change("v1", "v2")
        self.check_answer(self.change("v2", "v3"), 0, "1 of 3 tests run again, 0 differ, 0 fail\n")
        self.assertEqual(self.runs, ["t1"])

    def test_status_that_differs(self):
        self.commit_two()
        self.commit(main__c=NEW.replace("b two_ 0", "b two_ bounds"))
        self.change("v1", "v2")
        self.check_answer(self.change("v2", "v3"), 1,
                          "differs t2\nstatus recorded exit 0, now trap bounds (an index outside its array)\n"
                          "1 of 3 tests run again, 1 differ, 0 fail\n")

    def test_output_without_a_newline_at_its_end(self):
        self.commit_two(main__c="a x 0\nb - 0\nc - 0\n")
        self.commit(main__c=NEW.replace("one_", "x\u00e9\x01"))
        self.change("v2", "v2")
        self.check_answer(self.change("v2", "v3"), 1,
                          "differs t1\n--- t1 recorded\n+++ t1 now\n@@ -1 +1 @@\n-one\n+x\u00e9\\x01\n"
                          "\\ No newline at the end\n1 of 3 tests run again, 1 differ, 0 fail\n")

    def test_folders(self):
        for name, text in (("old", OLD), ("new", NEW)):
            self.write(f"{name}/dejavu.toml", SETTINGS)
            self.write(f"{name}/main.c", text)
            self.write(f"{name}/tests/t3.in", "c")
        self.write("dejavu.toml", SETTINGS.replace("budget", 'history = "kept/here"\nbudget'))
        self.check_answer(self.change("./old", "./new"), 1,
                          "./old was recorded: none is kept in kept/here\n" + DIFFERS
                          + "1 of 1 tests run again, 1 differ, 0 fail\n")
        self.assertEqual(len(list(self.folder.glob("kept/here/*.history"))), 2)

    def test_folder_of_a_repository(self):
        inner = {f"inner_{name}": text for name, text in (
            ("dejavu__toml", SETTINGS.replace("main.c", "../main.c")), ("tests_t3__in", "c"),
        )}
        self.commit(main__c=OLD, **inner)
        self.commit(main__c=NEW)
        done = self.change("--github", "v1", "v2", folder="inner")
        self.check_answer(done, 1, NONE_KEPT + DIFFERS + "1 of 1 tests run again, 1 differ, 0 fail\n"
                          "::error file=main.c,line=3,col=1,title=a change that tests reach::"
                          "1 test crossed edge 2 of main:%0Adiffers t3\n")

    def test_tests_that_an_archive_would_leave_out(self):
        self.commit_two(**{"__gitattributes": "tests export-ignore\n"})
        self.assertEqual(self.change("v1", "v2").stdout.splitlines()[-1],
                         b"1 of 3 tests run again, 1 differ, 0 fail")

    def test_repository_stays_as_it_is(self):
        self.commit_two()
        self.write("main.c", "what isn't committed\n")
        self.write("new", "what isn't known\n")
        self.git("add", "new")
        index = (self.folder / ".git/index").read_bytes()
        self.change("v1", "v2")
        self.assertEqual((self.folder / ".git/index").read_bytes(), index)
        self.assertEqual((self.folder / "main.c").read_text(encoding="utf-8"), "what isn't committed\n")

    def test_settings_of_each_version(self):
        self.commit_two()
        self.git("mv", "main.c", "other.c")
        self.commit(dejavu__toml=SETTINGS.replace("main.c", "other.c"))
        self.check_answer(self.change("v2", "v3"), 0, "v2 was recorded: none is kept in .dejavu\n"
                          "0 of 3 tests run again, 0 differ, 0 fail\n")

    def test_settings_that_no_version_has(self):
        self.commit(main__c=OLD, tests_t3__in="c")
        self.commit(main__c=NEW)
        self.write("mine.toml", SETTINGS)
        self.check_answer(self.change("--settings", "mine.toml", "v1", "v2"), 1,
                          NONE_KEPT + DIFFERS + "1 of 1 tests run again, 1 differ, 0 fail\n")


class Expected(WithRepository):
    """Tests of which something is expected."""

    def commit_with(self, **files):
        """The commits v1 and v2, where a folder says what is expected."""
        self.commit_two(dejavu__toml=SETTINGS + 'expected = "tests"\n', **files)

    def test_difference_that_is_expected(self):
        self.commit_with(tests_t3__out="three\nfive\n", tests_t3__status="1\n")
        self.check_answer(self.change("v1", "v2"), 0,
                          NONE_KEPT + DIFFERS.replace("differs t3", "differs t3, as expected")
                          + "1 of 3 tests run again, 1 differ, 0 fail\n")

    def test_difference_that_is_not_expected(self):
        self.commit_with(tests_t3__out="three\nfour\n", tests_t3__status="1\n")
        self.check_answer(self.change("v1", "v2"), 1,
                          NONE_KEPT + DIFFERS.replace("differs t3", "fails t3, and differs")
                          .replace("recorded", "expected") + "1 of 3 tests run again, 1 differ, 1 fail\n")

    def test_left_test_that_fails_as_before(self):
        self.commit_with(tests_t1__out="one", tests_t1__status="0", tests_t2__out="two\n",
                         tests_t3__out="three\nfive\n", tests_t3__status="1")
        self.check_answer(self.change("v1", "v2"), 1,
                          NONE_KEPT + "fails t1, as before\n--- t1 expected\n+++ t1 now\n@@ -1 +1 @@\n-one\n"
                          "\\ No newline at the end\n+one\n"
                          + DIFFERS.replace("differs t3", "differs t3, as expected")
                          + "1 of 3 tests run again, 1 differ, 1 fail\n")

    def test_status_that_is_not_expected(self):
        self.commit_with(tests_t1__out="one\n", tests_t3__out="three\nfive\n")
        self.check_answer(self.change("v2", "v2"), 1, NONE_KEPT.replace("v1", "v2")
                          + "fails t3, as before\nstatus expected exit 0, now exit 1\n"
                          "0 of 3 tests run again, 0 differ, 1 fail\n")


class Suites(WithRepository):
    """Suites that change with the program."""

    def test_tests_that_come_change_and_go(self):
        self.commit_two()
        self.change("v1", "v2")
        (self.folder / "tests/t2.in").unlink()
        self.commit(main__c=NEW.replace("one", "ONE"), tests_t0__in="b", tests_t3__in="b")
        done = self.change("--json", "told.json", "v2", "v3")
        self.check_answer(done, 1, "the suite has other tests: 1 added, 1 changed, 1 removed\n"
                          "differs t1\n--- t1 recorded\n+++ t1 now\n@@ -1 +1 @@\n-one\n+ONE\n"
                          "1 of 3 tests run again, 1 differ, 0 fail\n")
        self.assertEqual(sorted(self.runs), ["t0", "t1", "t3"])
        told = json.loads((self.folder / "told.json").read_bytes())
        self.assertEqual([(test["name"], test["choice"]) for test in told["results"]],
                         [("t0", "added"), ("t1", "run"), ("t3", "changed")])
        self.assertEqual(told["removed"], ["t2"])
        self.check_answer(self.change("v3", "v3"), 0, "0 of 3 tests run again, 0 differ, 0 fail\n")

    def test_budget_that_changes(self):
        self.commit_two()
        self.change("v2", "v2")
        self.commit(dejavu__toml=SETTINGS.replace("100", "200"))
        self.check_answer(self.change("v2", "v3"), 0, "the suite has other tests: 3 changed\n"
                          "0 of 3 tests run again, 0 differ, 0 fail\n")
        self.assertEqual(self.runs, ["t1", "t2", "t3"])

    def test_new_test_that_fails(self):
        self.commit_two(dejavu__toml=SETTINGS + 'expected = "tests"\n', tests_t1__out="one\n")
        self.change("v2", "v2")
        self.commit(tests_t4__in="a", tests_t4__out="two\n")
        self.check_answer(self.change("v2", "v3"), 1, "the suite has other tests: 1 added\n"
                          "fails t4\n--- t4 expected\n+++ t4 now\n@@ -1 +1 @@\n-two\n+one\n"
                          "0 of 4 tests run again, 0 differ, 1 fail\n")

    def test_suite_in_a_file(self):
        self.commit_two(dejavu__toml='sources = ["main.c"]\nsuite = "suite"\nadopt = false\n',
                        suite="dejavu suite 1\ntest t3 50 63\n")
        self.check_answer(self.change("v1", "v2"), 1,
                          NONE_KEPT + DIFFERS + "1 of 1 tests run again, 1 differ, 0 fail\n")


class Histories(WithRepository):
    """Kept histories that can't be used: the tests are recorded again, with the reason."""

    def change_kept(self, edit):
        """Has the history of v1 kept, edits its text, and gives what the script answers then."""
        self.commit_two()
        self.change("v1", "v1")
        (path,) = self.kept()
        path.write_bytes(edit(path.read_bytes()))
        return path.relative_to(self.folder), self.change("v1", "v2")

    def check_recorded(self, done, reason):
        """The tests of v1 ran again, for this reason."""
        self.check_answer(done, 1, f"v1 was recorded: {reason}\n{DIFFERS}1 of 3 tests run again, 1 differ, 0 fail\n")
        self.assertEqual(self.runs, ["t1", "t2", "t3", "t3"])
        self.assertEqual(self.change("v1", "v2").stdout.decode("utf-8"),
                         DIFFERS + "1 of 3 tests run again, 1 differ, 0 fail\n")

    def test_damaged(self):
        path, done = self.change_kept(lambda text: text.replace(b"turns 8", b"turns 9"))
        self.check_recorded(done, f"{path}: the history was changed since it was written, or damaged")

    def test_cut(self):
        path, done = self.change_kept(lambda text: text[:40])
        self.check_recorded(done, f"{path}:2: {HISTORY_RULES['H2'].wrong} (H2)")

    def test_refused_by_the_program(self):
        _, done = self.change_kept(lambda text: sealed_again(text.replace(b"edges 3", b"edges 4")))
        self.check_recorded(done, "the history tells 4 edges, and the old program has 3")

    def test_of_other_tests(self):
        path, done = self.change_kept(lambda text: sealed_again(text.replace(b"test t2", b"test t9")))
        self.check_recorded(done, f"{path}: the history is of another source or of other tests than its name says")


class Wrong(WithRepository):
    """What goes wrong: a line on standard error, status 2, and no file."""

    def check_wrong(self, message, *words, **options):
        """The script says this, and nothing is kept."""
        self.check_answer(self.change(*words, **options), 2, "", message)
        self.assertEqual(self.kept(), [])

    def test_no_such_revision(self):
        self.commit_two()
        self.check_wrong("change: v9: git knows no such revision; a folder is written ./v9\n", "v9", "v2")

    def test_revision_that_a_shallow_clone_lacks(self):
        self.commit_two()
        self.git("clone", "--quiet", "--depth", "1", f"file://{self.folder}", "clone")
        self.check_answer(self.change("HEAD~1", "HEAD", folder="clone"), 2, "", "change: HEAD~1: git knows no such "
                          "revision, and this clone is shallow: git fetch --deepen=1 brings one commit more\n")

    def test_no_such_folder(self):
        self.commit_two()
        self.check_wrong("change: ./v9: there is no such folder\n", "v1", "./v9")

    def test_no_settings(self):
        self.commit(main__c=OLD)
        self.check_wrong("change: dejavu.toml: there is no such file, which says what the program and its tests are "
                         "(docs/change.md has its keys)\n", "v1", "v1")

    def test_key_that_is_missing_in_a_revision(self):
        self.commit_two(dejavu__toml='inputs = "tests"\nbudget = 100\n')
        self.write("dejavu.toml", SETTINGS)
        self.check_wrong("change: v1:dejavu.toml: the key sources is missing: it lists the C files of the program\n",
                         "v1", "v2")

    def test_source_that_is_missing(self):
        self.commit_two()
        self.git("rm", "--quiet", "main.c")
        self.commit()
        self.check_wrong("change: v3:main.c: No such file or directory\n", "v2", "v3")

    def test_source_that_is_refused(self):
        self.commit_two()
        self.commit(main__c="a one_ 0\nBAD\n")
        self.check_wrong(
            "v3:main.c:2:1: error: the source can't go on like this\nBAD\n^\n"
            "rule: a source is a unit of the grammar in docs/language.md#grammar, at most 256 deep\n",
            "v3", "v3")

    def check_answer(self, done, status, output, errors=""):
        """Of what a refusal says, its last line is left out, which says what can be done."""
        done.stderr = b"".join(line for line in done.stderr.splitlines(keepends=True) if not line.startswith(b"help: "))
        super().check_answer(done, status, output, errors)

    def test_no_inputs(self):
        self.commit(dejavu__toml=SETTINGS, main__c=OLD)
        self.check_wrong("change: v1:tests: No such file or directory\n", "v1", "v1")

    def test_no_program(self):
        self.commit_two()
        path = self.folder / "no" / "program"
        self.check_wrong(f"change: {path}: No such file or directory\n", "--program", path, "v1", "v2")

    def test_program_that_fails(self):
        self.commit_two()
        path = self.write("failing", "#!/bin/sh\nexit 9\n")
        path.chmod(0o755)
        self.check_wrong(f"change: {path} record ended with status 9\n", "--program", path, "v1", "v2")

    def test_report_that_cannot_be_written(self):
        self.commit_two()
        self.check_wrong("change: no/such/folder: No such file or directory\n", "--junit", "no/such/folder", "v1", "v2")
        self.check_wrong("change: tests: Is a directory\n", "--json", "tests", "v1", "v2")
        self.assertEqual(self.runs, [])  # it is told before the tests run

    def test_folder_of_histories_that_cannot_be_written(self):
        self.commit_two()
        self.write(".dejavu", "a file")
        self.check_wrong("change: .dejavu: Not a directory\n", "v1", "v2")
        (self.folder / ".dejavu").unlink()
        for where, word in (("access", "Permission denied"), ("statvfs", "Read-only file system")):
            answer = {"access": False, "statvfs": SimpleNamespace(f_flag=os.ST_RDONLY)}[where]
            with mock.patch(f"os.{where}", return_value=answer):
                self.check_wrong(f"change: .dejavu: {word}\n", "v1", "v2")
        self.assertEqual((self.runs, (self.folder / ".dejavu").exists()), ([], False))

    def test_error_of_the_system(self):
        self.commit_two()
        with mock.patch("tempfile.mkdtemp", side_effect=OSError(28, "No space left on device", "/tmp/x")):
            self.check_wrong("change: /tmp/x: No space left on device\n", "v1", "v2")

    def test_history_that_cannot_be_kept(self):
        self.commit_two()
        with mock.patch("dejavu_tools.files.write_part", side_effect=full_behind(".history")):
            done = self.change("v1", "v2")
        self.assertEqual((done.returncode, done.stdout), (2, b""))
        self.assertRegex(done.stderr, rb"\Achange: \.dejavu/[\w-]+\.history: No space left on device\n\Z")
        self.assertEqual(self.names(".dejavu"), [])

    def test_times_that_cannot_be_kept(self):
        self.commit_two()
        self.write(".dejavu/times.json/x", "")
        self.check_answer(self.change("v2", "v2"), 0, NONE_KEPT.replace("v1", "v2")
                          + "0 of 3 tests run again, 0 differ, 0 fail\n")

    def test_words(self):
        self.assertEqual(self.change("v1").returncode, 2)


class Interrupted(WithRepository):
    """A signal that comes while tests run: nothing half written stays, and what was started has ended."""

    def check_stopped(self, number):
        """The script ends with the signal's status, once the program that it waits for has ended by being told so."""
        self.commit_two()
        program = self.write("waiting", "#!/bin/sh\ntrap 'echo ended >> runs.log; exit 1' TERM\n"
                             "echo begun >> runs.log\nwhile :; do sleep 0.05; done\n")
        program.chmod(0o755)
        log = self.write("runs.log", "")
        scratch = self.folder / "scratch"
        scratch.mkdir()
        words = [sys.executable, str(SCRIPTS / "change"), "--program", str(program), "v1", "v2"]
        process = subprocess.Popen(words, cwd=self.folder, env={**OUTSIDE, "TMPDIR": str(scratch)},
                                   stdin=subprocess.DEVNULL, stdout=subprocess.PIPE, stderr=subprocess.PIPE)
        while not log.read_text(encoding="utf-8"):
            time.sleep(0.02)
        process.send_signal(number)
        self.assertEqual((*process.communicate(timeout=60), process.returncode), (b"", b"", 128 + number))
        self.assertEqual(log.read_text(encoding="utf-8").split(), ["begun", "ended"])
        self.assertEqual((self.names("scratch"), self.kept()), ([], []))

    def test_interrupt(self):
        self.check_stopped(signal.SIGINT)

    def test_terminated(self):
        self.check_stopped(signal.SIGTERM)


@unittest.skipUnless(environment.installed("pycparser") == environment.VERSIONS["pycparser"], "pycparser is missing")
class Adopted(WithRepository):
    """Versions whose files are made one source."""

    FILES = {"dejavu__toml": 'sources = ["a.c", "b.c"]\ninputs = "tests"\nbudget = 100\n',
             "a__c": "int twice(int n);\n\nint main(void)\n{\n    return twice(1);\n}\n",
             "b__c": "int twice(int n)\n{\n    /* of n */\n    n = n + n;\n    return n;\n}\n",
             "tests_t1__in": ""}

    def test_obstacles(self):
        self.commit(**self.FILES)
        self.commit(b__c="int twice(int n)\n{\n    float f = 2;\n    return n * 2;\n}\n\ndouble unused;\n")
        done = self.change("v1", "v2")
        lines = done.stderr.decode("utf-8").splitlines()
        self.assertEqual((done.returncode, done.stdout, len(lines), lines[-1]), (2, b"", 3, "2 obstacles"))
        self.assertRegex(lines[0], r"\Av2:b\.c:3:\d+: \w.*: \w")
        self.assertRegex(lines[1], r"\Av2:b\.c:7:\d+: \w.*: \w")

    def test_what_the_compiler_refuses(self):
        self.commit(**self.FILES)
        self.commit(b__c="int twice(int n)\n{\n    return n * m;\n}\n")
        done = self.change("v1", "v2")
        lines = done.stderr.decode("utf-8").splitlines()
        self.assertEqual((done.returncode, done.stdout, lines[-1]), (2, b"", "change: v2:b.c: gcc refuses it"))
        self.assertRegex("\n".join(lines), r"b\.c:3:\d+: error: .m. undeclared")

    def test_page_shows_the_files(self):
        self.commit(**self.FILES)
        self.commit(b__c=self.FILES["b__c"].replace("n + n", "n + n + 1"))
        # The toy knows no C, so what is selected is told here: no test, and an edge at the line that changes.
        program = self.write("telling", f"""#!/bin/sh
line=$(grep -n 'n = n + n' "$2" | cut -d: -f1)
case $1 in
record|carry)
  [ $1 = record ] && unit=$2 || unit=$3
  {sys.executable} - "$unit" <<'END'
import hashlib, sys
source = hashlib.sha256(open(sys.argv[1], "rb").read()).hexdigest()
text = f"dejavu history 3\\nsource {{source}}\\nedges 1\\ntests 1\\n" \\
    "test t1\\nbudget 100\\ninput -\\nstatus exit 2\\nturns 9\\noutput -\\ncrossed 00\\n"
print(f"{{text}}end {{hashlib.sha256(text.encode()).hexdigest()}}")
END
  ;;
select) echo left t1; echo selected 0 of 1 ;;
walk) echo "edge 0 twice $line:5 next"; echo dangerous 1 of 1; echo pairs 0 ;;
esac
""")
        program.chmod(0o755)
        done = self.change("--program", program, "--page", "page.html", "v1", "v2")
        self.assertEqual(done.returncode, 0, done.stderr)
        page = Page((self.folder / "page.html").read_bytes())
        self.assertEqual(faults(page), [])
        self.assertEqual([text for text in page.all("h3") if text.endswith(".c")], ["b.c", "a.c"])
        rows = page.rows("sources")
        at = rows.index(["4", "    n = n + n;", "4", "    n = n + n + 1;"])
        self.assertEqual(rows[at + 1], ["edge 0 next of twice: crossed by no test", ""])

    def test_limit_that_a_unit_passes(self):
        self.commit(**self.FILES)
        self.commit(b__c="int twice(int n)\n{\n    int a[5000] = {0};\n    a[n] = n;\n    return a[n] * 2;\n}\n")
        done = self.change("v1", "v2")
        self.assertEqual((done.returncode, done.stdout), (2, b""))
        self.assertRegex(done.stderr, rb"\Achange: v2: the unit has .* more than the language's 4,096\n\Z")

    def test_place_of_a_refusal(self):
        self.commit(**self.FILES)
        program = self.write("refusing", "#!/bin/sh\n"
                             "line=$(grep -n 'n = n + n' \"$2\" | cut -d: -f1)\n"
                             "echo \"refused: source rule M1 at $line:9\"\nexit 3\n")
        program.chmod(0o755)
        done = self.change("--program", program, "v1", "v1")
        lines = done.stderr.decode("utf-8").splitlines()
        self.assertEqual((done.returncode, done.stdout), (2, b""), done.stderr)
        self.assertEqual(lines[:3],
                         ["v1:b.c:4:5: error: this name isn't declared here (M1)", "    n = n + n;", "    ^"])

    def test_refusal_without_a_place(self):
        self.commit(**self.FILES)
        program = self.write("refusing", "#!/bin/sh\necho 'refused: source limit points 10001'\nexit 3\n")
        program.chmod(0o755)
        done = self.change("--program", program, "v1", "v1")
        self.assertTrue(done.stderr.startswith(b"the unit of v1: error: "), done.stderr)


class Reports(WithRepository):
    """The same for programs that read it."""

    def test_junit(self):
        self.commit_two(dejavu__toml=SETTINGS + 'expected = "tests"\n', tests_t1__out="<one>\n",
                        main__c=OLD.replace("one", "o\x01&e"))
        self.change("--junit", "told.xml", "v1", "v2")
        top = ElementTree.parse(self.folder / "told.xml").getroot()
        (suite,) = top
        self.assertEqual((top.tag, suite.tag, suite.get("tests"), suite.get("failures"), suite.get("errors")),
                         ("testsuites", "testsuite", "3", "2", "0"))
        cases = {case.get("name"): case for case in suite.findall("testcase")}
        self.assertEqual(list(cases), ["t1", "t2", "t3"])
        choices = [case.find("properties/property").attrib for case in cases.values()]
        self.assertEqual(choices, [{"name": "choice", "value": value} for value in ("run", "left", "run")])
        self.assertIsNone(cases["t2"].find("failure"))
        failure = cases["t1"].find("failure")
        self.assertEqual((failure.get("type"), failure.get("message")), ("expected", "fails t1, and differs"))
        self.assertEqual(failure.text, "--- t1 expected\n+++ t1 now\n@@ -1 +1 @@\n-<one>\n+one")

    def test_json(self):
        self.commit_two()
        self.change("--json", "told.json", "v1", "v2")
        told = json.loads((self.folder / "told.json").read_bytes())
        self.assertEqual([told[key] for key in ("format", "recorded", "tests", "run", "differ", "fail", "wrong")],
                         ["dejavu change 1", "none is kept in .dejavu", 3, 1, 1, 0, True])
        self.assertEqual(told["results"][2], {
            "name": "t3", "choice": "run", "edge": 2, "differs": True, "expected": "none", "wrong": True,
            "before": {"status": "exit 1", "turns": 15, "output": b"three\nfour\n".hex()},
            "now": {"status": "exit 1", "turns": 15, "output": b"three\nfive\n".hex()},
        })
        self.assertEqual(f"{told['old']['unit']}-{told['old']['suite']}.history",
                         [path.name for path in self.kept() if path.name.startswith(told["old"]["unit"])][0])

    def test_github(self):
        self.commit_two(main__c=OLD + "d ```_ 0\n", tests_t4__in="d", tests_t5__in="a")
        self.commit(main__c="a ONE_ 0\nb two_ 0\nc  three_five_ 1\n")
        path = self.write("summary.md", "before\n")
        self.write("tests/t4.in", "a")
        done = self.change("--github", "v1", "v3", GITHUB_STEP_SUMMARY=str(path))
        self.assertEqual(done.returncode, 2)
        self.commit(tests_t4__in="a")
        done = self.change("--github", "v1", "v4", GITHUB_STEP_SUMMARY=str(path))
        lines = done.stdout.decode("utf-8").splitlines()
        self.assertEqual([line for line in lines if line.startswith("::")], [
            "::error file=main.c,line=1,col=1,title=a change that tests reach::"
            "2 tests crossed edge 0 of main:%0Adiffers t1%0Adiffers t5",
            "::error file=main.c,line=3,col=1,title=a change that tests reach::"
            "1 test crossed edge 2 of main:%0Adiffers t3",
        ])
        summary = path.read_text(encoding="utf-8")
        self.assertTrue(summary.startswith("before\n### dejavu: 3 of 5 tests run again, 3 differ, 0 fail\n"))
        self.assertIn("<details><summary>differs t3</summary>\n\n```diff\n--- t3 recorded\n", summary)


    def test_github_with_more_than_is_shown(self):
        names = [f"t{number:02}" for number in range(25)]
        self.commit(dejavu__toml=SETTINGS.replace("100", "1000"), main__c=f"a {'x_' * 70}{'y' * 300} 0\n",
                    **{f"tests_{name}__in": "a" for name in names})
        self.commit(main__c=f"a {'z_' * 70}{'w' * 300} 0\n")
        path = self.folder / "summary.md"
        done = self.change("--github", "v1", "v2", GITHUB_STEP_SUMMARY=str(path))
        told = [f"differs {name}" for name in names[:10]] + [".. 15 more"]
        self.assertEqual(done.stdout.decode("utf-8").splitlines()[-1],
                         "::error file=main.c,line=1,col=1,title=a change that tests reach::"
                         "25 tests crossed edge 0 of main:%0A" + "%0A".join(told))
        summary = path.read_text(encoding="utf-8")
        self.assertEqual(summary.count("<details>"), 20)
        self.assertTrue(summary.endswith("\n\nand 5 more tests\n"))
        one = summary.split("<details>")[1].split("```diff\n")[1].split("\n```")[0].splitlines()
        # 2 lines of names and 1 of the place stand before 71 old lines and 71 new ones, and 2 say that no newline ends.
        self.assertEqual((len(one), one[-1]), (61, ".. 87 more"))

    def test_lines_of_a_summary_are_cut(self):
        self.commit(dejavu__toml=SETTINGS.replace("100", "1000"), main__c=f"a {'y' * 300} 0\n", tests_t__in="a")
        self.commit(main__c=f"a {'w' * 300} 0\n")
        path = self.folder / "summary.md"
        self.change("--github", "v1", "v2", GITHUB_STEP_SUMMARY=str(path))
        self.assertIn(f"\n-{'y' * 199}..\n", path.read_text(encoding="utf-8"))


    def test_page(self):
        self.commit_two(dejavu__toml=SETTINGS + 'expected = "tests"\n', tests_t3__out="three\nfour\n",
                        tests_t3__status="1")
        program = self.write("points", f'#!/bin/sh\nexec {sys.executable} -IS {TOY} points "$@"\n')
        program.chmod(0o755)
        done = self.change("--page", "page.html", "--points", program, "v1", "v2")
        self.check_answer(done, 1, NONE_KEPT + DIFFERS.replace("differs t3", "fails t3, and differs")
                          .replace("recorded", "expected") + "1 of 3 tests run again, 1 differ, 1 fail\n")
        self.assertEqual(self.runs, ["t1", "t2", "t3", "t3"])  # as without a page
        page = Page((self.folder / "page.html").read_bytes())
        self.assertEqual(faults(page), [])
        self.assertEqual(page.one("h1"), "v1 to v2")
        self.assertEqual(page.one("strong"), "1 of 3 tests run again, 1 differ, 1 fail.")
        self.assertIn("v1 was recorded: none is kept in .dejavu", page.all("p"))
        self.assertEqual(page.rows("margins")[3], ["3", "1", "", "c three_four_ 1", "3", "1", "", "c three_five_ 1"])
        self.assertEqual(page.all("caption"), ["Output: \u2212 expected and before, + now"])

    def test_page_of_a_suite_that_changes(self):
        self.commit_two()
        (self.folder / "tests/t2.in").unlink()
        self.commit(tests_t0__in="b", tests_t3__in="b")
        self.change("--page", "page.html", "v2", "v3")
        page = Page((self.folder / "page.html").read_bytes())
        self.assertEqual(faults(page), [])
        self.assertIn("the suite has other tests: 1 added, 1 changed, 1 removed", page.all("p"))
        summaries = page.all("summary")
        for text in ("1 test left: they crossed no dangerous edge", "1 test removed from the suite",
                     "1 test added to the suite, which ran for the first time",
                     "1 test changed in the suite, which ran for the first time"):
            self.assertIn(text, summaries)

    def test_page_that_cannot_be_made_leaves_no_report(self):
        self.commit_two()
        program = self.write("points", "#!/bin/sh\necho points 1\necho end 0 0\n")
        program.chmod(0o755)
        done = self.change("--page", "page.html", "--json", "told.json", "--points", program, "v1", "v2")
        self.check_answer(done, 2, "", f"change: {program}: there are 0 edges, and dejavu tells of 3\n")
        self.assertEqual([name for name in self.names() if name in ("page.html", "told.json")], [])


class Document(unittest.TestCase):
    """docs/change.md."""

    def test_example(self):
        text = (TOP / "docs" / "change.md").read_text(encoding="utf-8")
        self.assertIn(f"```\n{DIFFERS}1 of 3 tests run again, 1 differ, 0 fail\n```\n", text)


class Terminal(WithRepository):
    """What is told on a terminal besides."""

    def told(self, *words):
        """What the script writes to a terminal that its standard error is."""
        reading, writing = pty.openpty()
        try:
            self.change(*words, terminal=writing)
            return os.read(reading, 1 << 16).decode("utf-8").replace("\r\n", "\n")
        finally:
            os.close(reading)
            os.close(writing)

    def test_steps(self):
        self.commit_two()
        self.assertEqual(self.told("v1", "v2"), "change: reading v1\nchange: reading v2\n"
                         "change: recording 3 tests on v1\nchange: trying v2\n")
        self.assertRegex(self.told("v1", "v2"), r"\Achange: reading v1 \(the last time it took \d+\.\d s\)\n"
                         r"change: reading v2 \(the last time it took \d+\.\d s\)\n"
                         r"change: trying v2 \(the last time it took \d+\.\d s\)\n\Z")


def full_behind(ending):
    """What stands in for `write_part` on a system that has no room for files whose names end so."""
    from dejavu_tools.files import write_part

    def write(path, part, data):
        if path.name.endswith(ending):
            part.write_bytes(data[:10])
            raise OSError(28, "No space left on device")
        write_part(path, part, data)

    return write


def sealed_again(text):
    """A history with the sum that belongs to its text."""
    return sealed(text[:text.rindex(b"end ")].decode("ascii"))


if __name__ == "__main__":
    unittest.main()
