"""How the scripts answer words that ask for help, and words that are wrong."""
import os
import subprocess
import sys
import unittest

from support import SCRIPTS, answer, environment

NAMES = sorted(path.name for path in SCRIPTS.iterdir() if path.is_file() and os.access(path, os.X_OK))

# Words with which no script begins its work, though it takes words in these places.
WRONG = (
    ("adopt",), ("adopt_examples", "nothing"), ("change",), ("change", "HEAD"),
    ("gate_times", "nothing"), ("gate_times", "--chain", "dejavu", "dejavu"), ("help", "nothing"), ("listing", "one"),
    ("listing", "no", "such", "file"), ("proof_times",), ("proof_times", "nothing"), ("proof_times", "csub_text", "many"),
    ("program",), ("program", "walk"), ("reader_speed", "fast"), ("report", "one"),
    ("speed", "fast"), ("speed", "--program"), ("study", "nothing"), ("study", "--every", "no"),
    ("study", "--from", "no-such-file"), ("suite",), ("suite", "nothing"), ("tool_tests", "nothing"),
    ("tool_tests", "test_calls.py", "more"), ("wrong_bodies", "nothing"), ("wrong_bodies", "--since"),
)


def is_python(name):
    """Whether a script is one in Python."""
    return b"python" in (SCRIPTS / name).read_bytes().split(b"\n")[0]


def answered(words):
    """What a script answers for these words."""
    if is_python(words[0]):
        return answer(*words)
    return subprocess.run([SCRIPTS / words[0], *words[1:]], env=environment(), stdin=subprocess.DEVNULL,
                          stdout=subprocess.PIPE, stderr=subprocess.PIPE, timeout=120, check=False)


IMPORTS = """
import runpy, sys
top, *paths = sys.argv[1:]
sys.path.insert(0, top)
for path in paths:
    sys.argv = [path, "--help"]
    try:
        runpy.run_path(path, run_name="__main__")
    except SystemExit as end:
        assert end.code == 0, path
"""


class Calls(unittest.TestCase):
    """All scripts."""

    def answers(self, calls):
        """Each call with its answer."""
        for words in calls:
            yield words, answered(words)

    def test_libraries(self):
        """None wants more than Python's own library to begin with."""
        words = [sys.executable, "-S", "-c", IMPORTS, str(SCRIPTS), *(str(SCRIPTS / name) for name in NAMES if is_python(name))]
        done = subprocess.run(words, stdout=subprocess.PIPE, stderr=subprocess.PIPE, text=True, timeout=120, check=False)
        self.assertEqual((done.returncode, done.stderr), (0, ""))

    def test_help(self):
        for (name, _), done in self.answers([(name, "--help") for name in NAMES]):
            with self.subTest(name):
                self.assertEqual((done.returncode, done.stderr), (0, b""))
                self.assertRegex(done.stdout.decode("utf-8"), rf"\Ausage: {name}\b")

    def test_options_that_are_not_known(self):
        self.check_wrong([(name, "--no-such-option") for name in NAMES])

    def test_words_that_are_wrong(self):
        self.check_wrong(WRONG)

    def check_wrong(self, calls):
        """The status is 2, nothing is written, and standard error says what is wrong, with or without the usage."""
        for words, done in self.answers(calls):
            with self.subTest(" ".join(words)):
                lines = done.stderr.decode("utf-8").splitlines()
                self.assertEqual((done.returncode, done.stdout), (2, b""))
                self.assertRegex(lines[0], rf"\A(usage: )?{words[0]}\b")
                self.assertTrue(len(lines) == 1 or lines[-1].startswith(f"{words[0]}: error: "), lines)


if __name__ == "__main__":
    unittest.main()
