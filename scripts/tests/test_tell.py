"""The script `tell`, over small programs that stand in for `dejavu`."""
import os
import select
import signal
import subprocess
import unittest

from support import TOP, InFolder, command, environment

SOURCE = "int main(void)\n{ return x; }\n"

NOT_DECLARED = """old.c:2:10: error: this name isn't declared here (M1)
{ return x; }
         ^
rule: a name in an expression is an object, a parameter or an enum constant in scope
help: declare it before this place, or mend its spelling; the name of a function stands only where that is called
"""


class WithProgram(InFolder):
    """Tests that write a program."""

    def program(self, text):
        """Writes the program, a shell script."""
        self.write("program", f"#!/bin/sh\n{text}\n").chmod(0o755)


class Told(WithProgram):
    """What is passed on, and what is told."""

    def tell(self, *words, **options):
        return self.run_script("tell", "--program", "program", *words, **options)

    def test_refusal(self):
        self.write("old.c", SOURCE)
        self.program("echo 'refused: source rule M1 at 2:10'; exit 3")
        self.check_answer(self.tell("record", "old.c", "suite"), 3, "refused: source rule M1 at 2:10\n", NOT_DECLARED)

    def test_place_in_the_file_of_which_a_unit_was_made(self):
        self.write("unit.c", SOURCE)
        self.write("main.c", "#include <stdio.h>\n\nint main(void) { return MISSING; }\n")
        self.write("unit.map", "dejavu map 1\n1:1 3:1 main.c\n2:3 3:18 main.c\n")
        self.program("echo 'refused: source rule M1 at 2:10'; exit 3")
        answer = self.tell("--map", "unit.c=unit.map", "record", "unit.c", "suite")
        self.assertEqual(answer.stderr.decode().splitlines()[:3], [
            "main.c:3:18: error: this name isn't declared here (M1)",
            "int main(void) { return MISSING; }",
            " " * 17 + "^",
        ])

    def test_maps_that_cannot_be_used(self):
        self.write("none", "")
        self.write("broken", "dejavu map 1\n1:1 1:1\n")
        self.program("exit 0")
        for word, message in (
            ("unit.c", "--map unit.c: a unit and its map have to stand here, `UNIT=MAP`"),
            ("unit.c=gone", "gone: No such file or directory"),
            ("unit.c=none", "none:1: this isn't the first line of a map"),
            ("unit.c=broken", "broken:2: `UL:UC L:C FILE` has to stand here"),
        ):
            with self.subTest(word):
                self.check_answer(self.tell("--map", word, "record", "unit.c", "suite"), 2, "", f"tell: {message}\n")

    def test_example_of_the_readme(self):
        self.write("words.c", "\n" * 5 + "    while (c != -1 && next_word(c))\n")
        self.program("echo 'refused: source rule M14 at 6:23'; exit 3")
        text = (TOP / "README.md").read_text(encoding="utf-8")
        message = text.split("`scripts/tell record words.c suite > history`")[1].split("```\n")[1]
        done = self.tell("record", "words.c", "suite")
        self.check_answer(done, 3, "refused: source rule M14 at 6:23\n", message)

    def test_options_of_the_command(self):
        self.write("old.c", SOURCE)
        self.program("[ \"$*\" = 'record --workers 4 -- old.c suite' ] || exit 2\n"
                     "echo 'refused: source rule M1 at 2:10'\nexit 3")
        done = self.tell("record", "--workers", "4", "--", "old.c", "suite")
        self.check_answer(done, 3, "refused: source rule M1 at 2:10\n", NOT_DECLARED)

    def test_output_and_status_of_a_command(self):
        self.program("printf 'left \\377\\000 a\\r\\nno newline'; echo noise >&2; exit 11")
        self.check_answer(self.tell("check", "a", "b", "c"), 11, b"left \xff\x00 a\r\nno newline", "noise\n")

    def test_no_output(self):
        for status in (0, 1, 70):
            self.program(f"exit {status}")
            self.check_answer(self.tell("walk", "a", "b"), status, "")

    def test_no_words(self):
        self.program("[ $# = 0 ] && echo 'refused: usage' && exit 2")
        done = self.tell()
        self.assertEqual((done.returncode, done.stdout), (2, b"refused: usage\n"))
        self.assertTrue(done.stderr.startswith(b"dejavu: error: these words are no command\n"))

    def test_what_only_looks_like_a_refusal(self):
        for status, text in (
            (0, "refused: memory\n"),
            (8, "refused: memory\nmore\n"),
            (8, "refused: memory"),
            (8, "\nrefused: memory\n"),
        ):
            self.write("text", text)
            self.program(f"cat text; exit {status}")
            with self.subTest(text):
                self.check_answer(self.tell("walk", "a", "b"), status, text)

    def test_refusal_that_is_not_known(self):
        self.program("echo 'refused: a new cause'; exit 12")
        self.check_answer(self.tell("walk", "a", "b"), 12, "refused: a new cause\n",
                          "tell: this refusal isn't known: refused: a new cause\n")

    def test_large_output(self):
        self.program("printf 'refused: '; head -c 5000000 /dev/zero; exit 1")
        self.check_answer(self.tell("walk", "a", "b"), 1, b"refused: " + bytes(5_000_000))

    def test_program_that_a_signal_ends(self):
        self.program("kill -TERM $$")
        self.check_answer(self.tell("walk", "a", "b"), 143, "")

    def test_signal_that_comes_while_the_program_runs(self):
        self.program("trap 'echo ended > log; exit 1' TERM; echo begun; while :; do sleep 0.05; done")
        words = command("tell", "--program", self.folder / "program", "record")
        with subprocess.Popen(words, cwd=self.folder, stdout=subprocess.PIPE, stderr=subprocess.PIPE) as process:
            self.assertEqual(process.stdout.readline(), b"begun\n")
            process.send_signal(signal.SIGTERM)
            self.assertEqual((*process.communicate(timeout=120), process.returncode), (b"", b"", 128 + signal.SIGTERM))
        self.assertEqual((self.folder / "log").read_text(encoding="ascii"), "ended\n")

    def test_no_program(self):
        done = self.tell("walk", "a", "b")
        self.check_answer(done, 70, "", f"tell: {self.folder.resolve()}/program: No such file or directory\n")

    def test_files_that_are_inherited(self):
        self.program('cat "$2"')
        reading, writing = os.pipe()
        os.write(writing, b"a source")
        os.close(writing)
        try:
            done = self.tell("record", f"/dev/fd/{reading}", "s", pass_fds=(reading,))
        finally:
            os.close(reading)
        self.assertEqual((done.returncode, done.stdout), (0, b"a source"))


class Streamed(WithProgram):
    """When it is passed on."""

    def start(self, output):
        return subprocess.Popen(command("tell", "--program", "program", "walk", "a", "b"), cwd=self.folder,
                                env=environment(), stdin=subprocess.PIPE, stdout=output, stderr=subprocess.PIPE)

    def test_a_piece_comes_before_the_next_is_made(self):
        self.program("echo one; read line; echo \"$line\"; exit 1")
        with self.start(subprocess.PIPE) as process:
            ready, _, _ = select.select([process.stdout], [], [], 20)
            first = process.stdout.readline() if ready else b""
            rest, errors = process.communicate(b"two\n", timeout=20)
        self.assertEqual(first, b"one\n")
        self.assertEqual((process.returncode, rest, errors), (1, b"two\n", b""))

    def test_reader_that_goes_away(self):
        self.program("exec yes")
        with self.start(subprocess.PIPE) as process:
            self.assertEqual(process.stdout.read(2), b"y\n")
            process.stdout.close()
            self.assertEqual((process.wait(timeout=20), process.stderr.read()), (7, b""))

    def test_no_reader(self):
        self.program("echo 'refused: memory'; exit 8")
        self.check_unread("tell", "--program", "program", "walk", "a", "b")

    def test_no_reader_of_the_message(self):
        self.program("echo 'refused: memory'; exit 8")
        done = self.run_script("tell", "--program", "program", "walk", "a", "b", stderr=self.pipe_without_reader())
        self.assertEqual((done.returncode, done.stdout), (8, b"refused: memory\n"))


if __name__ == "__main__":
    unittest.main()
