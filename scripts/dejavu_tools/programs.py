"""Running a program whose standard output is taken, or passed on with its status."""
from __future__ import annotations

import subprocess
from dataclasses import dataclass
from pathlib import Path
from typing import IO, Optional, Sequence, Tuple

from .console import OUTPUT, UNWRITTEN, write_all
from .errors import ToolError

AT_ONCE = 65_536  # bytes
LONGEST_REFUSAL = 1_024  # bytes
NO_PROGRAM = 70  # the status of `./dejavu` where there is no program


@dataclass(frozen=True)
class Answer:
    """How a program ended, and the first bytes that it wrote."""

    status: int
    start: bytes

    @property
    def refusal(self) -> Optional[str]:
        """The line with which `dejavu` refused, where it did: that is all that it wrote then."""
        line, newline, rest = self.start.partition(b"\n")
        if self.status and newline and not rest and line.startswith(b"refused: "):
            return line.decode("utf-8", "surrogateescape")
        return None


def output_of(program: Path, words: Sequence[str]) -> Tuple[int, bytes]:
    """The status of a program, as `subprocess` tells it, and its standard output; a `ToolError` where it can't be run.

    Where this is interrupted, the program is told to end, and has ended where this is left: `./dejavu` may be building.
    """
    try:
        process = subprocess.Popen([program, *words], stdin=subprocess.DEVNULL, stdout=subprocess.PIPE)
    except OSError as error:
        raise ToolError(f"{program}: {error.strerror}") from error
    with process.stdout:
        try:
            output = process.communicate()[0]
        except BaseException:
            process.terminate()
            process.wait()
            raise
    return process.returncode, output


def run_through(program: Path, words: Sequence[str]) -> Answer:
    """Runs a program, and passes its standard output on to this one's, each piece as it comes.

    The status is that of the program, 128 and the signal's number where a signal ended it, or 7 where its output
    couldn't be passed on, which the program learns by its closed output. Raises a `ToolError` where it can't be run.
    """
    try:
        process = subprocess.Popen([program, *words], stdout=subprocess.PIPE, bufsize=0, close_fds=False)
    except OSError as error:
        raise ToolError(f"{program}: {error.strerror}", NO_PROGRAM) from error
    with process:  # whose end closes the program's output and waits for it
        try:
            start = pass_on(process.stdout)
        except OSError:
            return Answer(UNWRITTEN, b"")
        except BaseException:  # which the program needn't have got
            process.terminate()
            raise
    status = process.returncode
    return Answer(status if status >= 0 else 128 - status, start)


def pass_on(pipe: IO[bytes]) -> bytes:
    """Passes on what comes out of a pipe, and gives its first bytes, one more than a refusal has."""
    start = b""
    while True:
        piece = pipe.read(AT_ONCE)
        if not piece:
            return start
        write_all(OUTPUT, piece)
        start += piece[:LONGEST_REFUSAL + 1 - len(start)]
