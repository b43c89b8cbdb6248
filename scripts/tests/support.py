"""What the tests of the scripts have in common."""
import hashlib
import os
import runpy
import signal
import subprocess
import sys
import tempfile
import traceback
import unittest
import warnings
from pathlib import Path

SCRIPTS = Path(__file__).resolve().parent.parent
TOP = SCRIPTS.parent
sys.path.insert(0, str(SCRIPTS))  # where the package is


def sealed(text):
    """The text of a history with the line `end` that belongs to it."""
    data = text.encode("ascii")
    return data + f"end {hashlib.sha256(data).hexdigest()}\n".encode("ascii")


def environment(columns=80):
    """The environment in which the scripts are run."""
    return {**os.environ, "COLUMNS": str(columns)}


def command(script, *words):
    """The words that run one of the scripts, which have nothing but Python's own library."""
    return [sys.executable, "-S", str(SCRIPTS / script), *map(str, words)]


def answer(script, *words, folder=None, columns=80, stdout=None, stderr=None, pass_fds=(), has_libraries=False):
    """What a script answers that is run in a folder, on a terminal of so many columns.

    It runs in a child of this process, which begins with the modules that this one has: a new Python takes longer than
    most of these scripts. Unless it has libraries, it has nothing but Python's own.
    """
    with tempfile.TemporaryFile() as output, tempfile.TemporaryFile() as errors:
        sys.stdout.flush()
        sys.stderr.flush()
        child = os.fork()
        if not child:
            status = 99
            try:
                for target, file in enumerate((output if stdout is None else stdout, errors if stderr is None else stderr), 1):
                    os.dup2(file if isinstance(file, int) else file.fileno(), target)
                for descriptor in pass_fds:
                    os.set_inheritable(descriptor, True)
                status = run_as_script([str(SCRIPTS / script), *map(str, words)], folder, columns, has_libraries)
            finally:
                os._exit(status)
        status = os.waitstatus_to_exitcode(os.waitpid(child, 0)[1])
        output.seek(0)
        errors.seek(0)
        return subprocess.CompletedProcess([script, *words], status, output.read(), errors.read())


def run_as_script(words, folder, columns, has_libraries):
    """Makes of this process one that runs a script, and gives its exit status."""
    os.dup2(os.open(os.devnull, os.O_RDONLY), 0)
    os.chdir(folder or os.getcwd())
    os.environ["COLUMNS"] = str(columns)
    signal.alarm(120)  # which a busy machine may need
    warnings.simplefilter("ignore", ResourceWarning)  # as a new Python does; a test that failed may have left something
    sys.argv = words
    if not has_libraries:
        sys.path[:] = [path for path in sys.path if "site-packages" not in path]
        for name in [name for name, module in sys.modules.items() if "site-packages" in (getattr(module, "__file__", "") or "")]:
            del sys.modules[name]
    try:
        runpy.run_path(words[0], run_name="__main__")
        status = 0
    except SystemExit as end:
        status = end.code or 0
    except BaseException:
        traceback.print_exc()
        status = 1
    sys.stdout.flush()
    sys.stderr.flush()
    return status


class InFolder(unittest.TestCase):
    """Tests that have a folder to write files into, in which the scripts are run."""

    maxDiff = None

    def setUp(self):
        folder = tempfile.TemporaryDirectory()
        self.addCleanup(folder.cleanup)
        self.folder = Path(folder.name)

    def write(self, name, data):
        """Writes a file of the folder, and gives its path."""
        path = self.folder / os.fsdecode(name)
        path.parent.mkdir(parents=True, exist_ok=True)
        path.write_bytes(data if isinstance(data, bytes) else data.encode("utf-8"))
        return path

    def names(self, folder="."):
        """The names of the files in a folder within this one."""
        return sorted(os.listdir(self.folder / folder))

    def run_script(self, script, *words, **how):
        """What a script answers that is run in this folder."""
        return answer(script, *words, folder=self.folder, **how)

    def check_answer(self, done, status, output, errors=""):
        """Holds what a script wrote, and its status, against what is expected."""
        self.assertEqual(done.stderr.decode("utf-8"), errors)
        self.assertEqual(done.stdout, output if isinstance(output, bytes) else output.encode("utf-8"))
        self.assertEqual(done.returncode, status)

    def check_unread(self, script, *words):
        """Runs a script whose standard output nobody reads: it ends with 7 and says nothing."""
        done = self.run_script(script, *words, stdout=self.pipe_without_reader())
        self.assertEqual((done.returncode, done.stderr), (7, b""))

    def pipe_without_reader(self):
        """The end for writing of a pipe that nobody reads."""
        reading, writing = os.pipe()
        os.close(reading)
        self.addCleanup(os.close, writing)
        return writing
