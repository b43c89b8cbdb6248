"""A unit does what the files do of which it was made: each construct in a program that gcc builds both ways."""
import os
import signal
import subprocess
import tempfile
import unittest
from concurrent.futures import ThreadPoolExecutor
from pathlib import Path

from adopted import constructs, programs, unit_of

# A trap at what C leaves undefined is built in half the time that the sanitizer's own messages take.
GCC = ["gcc", "-std=c11", "-w", "-fsanitize=undefined", "-fsanitize-undefined-trap-on-error"]
TRAPPED = 128 + signal.SIGILL

# The inputs of the programs that read any.
INPUTS = {
    "comma_and_conditions": ["a b!", "", "no end"],
    "reading_lines": ["12\nabc#d\n-7\n", "", "a line that is longer than the buffer\nx", "\n\n"],
    "scanning": ["2 5 6 7 8 rest", "", "1 x", "3 1 2\n", "2 -5 +6 7z"],
    "assertions_and_exits": ["a", "x", "y", "z"],
    "error_messages": ["a", "w", "v", "e", "x", ""],
}


class Meaning(unittest.TestCase):
    """Programs and their units, both built by gcc."""

    def check_program(self, name, inputs):
        """The unit of a program gives what its files give, on each input."""
        with tempfile.TemporaryDirectory() as work:
            folder = Path(work)
            (folder / "unit.c").write_bytes(unit_of(name))
            subprocess.run([*GCC, "-o", folder / "files", *programs()[name]], check=True)
            subprocess.run([*GCC, "-o", folder / "unit", folder / "unit.c"], check=True)
            for text in inputs:
                output, status = run(folder / "files", text)
                self.assertNotEqual(status, TRAPPED, text)
                self.assertEqual(run(folder / "unit", text), (output, status), text)

    def test_programs(self):
        with ThreadPoolExecutor(os.cpu_count()) as pool:
            done = {name: pool.submit(self.check_program, name, INPUTS.get(name, [""])) for name in constructs()}
        for name, future in done.items():
            with self.subTest(name):
                future.result()


def run(program, text):
    """The output and the exit status of a program on an input, as a shell tells it; what `abort` ends has no output."""
    words = {"input": text.encode(), "stdout": subprocess.PIPE, "stderr": subprocess.DEVNULL}
    done = subprocess.run([program], **words, check=False)
    return (b"", 128 - done.returncode) if done.returncode < 0 else (done.stdout, done.returncode)


if __name__ == "__main__":
    unittest.main()
