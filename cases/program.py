"""The program, called in a folder that holds the files of one case."""
from __future__ import annotations

import os
import subprocess
import tempfile
from pathlib import Path
from typing import NamedTuple

PROGRAM = os.environ.get("DEJAVU_PROGRAM", "")

STATUSES = (
    "Done", "Differs", "Usage", "Source", "Suite", "History", "ReadFault", "WriteFault", "Memory", "TooMuch", "Certificate",
    "Open",
)


class Answer(NamedTuple):
    """What a command did: the name of its status, and what it wrote."""

    status: str
    text: str


class Folder:
    """A folder with the files of a case, which goes when it is closed."""

    def __init__(self) -> None:
        self._folder = tempfile.TemporaryDirectory(prefix="dejavu-case-")
        self.path = Path(self._folder.name)

    def __enter__(self) -> Folder:
        return self

    def __exit__(self, *_: object) -> None:
        self._folder.cleanup()

    def keep(self, name: str, text: str | bytes) -> None:
        """Makes a file of this text, in the place of an earlier one that has its name."""
        (self.path / name).write_bytes(text.encode() if isinstance(text, str) else text)

    def answer(self, *words: str) -> Answer:
        """What the program does for these words. It has to leave the standard error empty."""
        ran = subprocess.run([PROGRAM, *words], cwd=self.path, stdin=subprocess.DEVNULL, capture_output=True)
        if ran.stderr:
            raise AssertionError(f"{words} wrote to standard error: {ran.stderr!r}")
        if not 0 <= ran.returncode < len(STATUSES):
            raise AssertionError(f"{words} ended with status {ran.returncode}")
        return Answer(STATUSES[ran.returncode], ran.stdout.decode())

    def done(self, *words: str) -> str:
        """The text of a command that has to be done."""
        status, text = self.answer(*words)
        if status != "Done":
            raise AssertionError(f"{words} gave {status}: {text}")
        return text
