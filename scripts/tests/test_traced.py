"""The calls that strace tells, and runs under it."""
import shutil
import unittest
from pathlib import Path

from support import InFolder
from dejavu_tools.errors import ToolError
from dejavu_tools.traced import Call, Fault, Run, read_calls, run_traced, trace_words

LOG = """\
openat(AT_FDCWD, "old.c", O_RDONLY|O_CLOEXEC) = 3
read(3, "int main(void) { }", 8192)     = 18
read(3, 0x7ffd, 8192)                   = -1 EINTR (Interrupted system call) (INJECTED)
openat(AT_FDCWD, "old.c", O_RDONLY|O_CLOEXEC) = -1 EINTR (Interrupted system call) (INJECTED)
openat(AT_FDCWD, "none", O_RDONLY|O_CLOEXEC) = -1 ENOENT (No such file or directory)
--- SIGPIPE {si_signo=SIGPIPE, si_code=SI_USER} ---
+++ exited with 0 +++
"""


class Logs(unittest.TestCase):
    """What is read of a log."""

    def test_calls_have_names_arguments_and_errors(self):
        self.assertEqual(
            read_calls(LOG),
            [
                Call("openat", 'AT_FDCWD, "old.c", O_RDONLY|O_CLOEXEC', ""),
                Call("read", '3, "int main(void) { }", 8192', ""),
                Call("read", "3, 0x7ffd, 8192", "EINTR"),
                Call("openat", 'AT_FDCWD, "old.c", O_RDONLY|O_CLOEXEC', "EINTR"),
                Call("openat", 'AT_FDCWD, "none", O_RDONLY|O_CLOEXEC', "ENOENT"),
            ],
        )

    def test_an_interrupted_opening_counts_once(self):
        run = Run(0, b"", read_calls(LOG))
        self.assertEqual([run.opened(Path(name)) for name in ("old.c", "none", "new.c", "ld.c")], [1, 1, 0, 0])
        self.assertEqual([run.failed_by(error) for error in ("EINTR", "ENOENT", "EIO")], [2, 1, 0])

    def test_a_fault_is_meant_for_its_path(self):
        words = trace_words(Path("log"), Path("program"), ["walk", Path("a")], Fault("read:error=EIO:when=1", Path("a")))
        self.assertEqual(words[-7:], ["-e", "inject=read:error=EIO:when=1", "-P", "a", "program", "walk", "a"])


@unittest.skipUnless(shutil.which("strace"), "there is no strace")
class Runs(InFolder):
    """Small programs under strace."""

    def program(self, text):
        """A shell script with this text."""
        path = self.write("program", f"#!/bin/sh\n{text}\n")
        path.chmod(0o755)
        return path

    def test_the_status_the_text_and_the_calls_are_told(self):
        file = self.write("named", "two words\n")
        run = run_traced(self.folder / "log", self.program('read -r line < "$1"; echo "$line"; exit 3'), [file])
        self.assertEqual((run.status, run.text, run.opened(file)), (3, b"two words\n", 1))

    def test_a_fault_is_met(self):
        file = self.write("named", "two words\n")
        fault = Fault("openat:error=EACCES:when=1", file)
        run = run_traced(self.folder / "log", self.program('read -r line < "$1" || exit 4'), [file], fault)
        self.assertEqual((run.status != 0, run.failed_by("EACCES")), (True, 1))

    def test_what_strace_refuses_is_told(self):
        with self.assertRaises(ToolError):
            run_traced(self.folder / "log", self.folder / "none", [])


if __name__ == "__main__":
    unittest.main()
