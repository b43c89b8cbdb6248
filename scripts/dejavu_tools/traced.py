"""A program is run under strace, which tells its system calls and has some of them fail."""
from __future__ import annotations

import re
import subprocess
from dataclasses import dataclass
from pathlib import Path
from typing import IO, List, Optional, Sequence, Union

from .errors import ToolError

SECONDS = 60  # that a traced run may take

CALL = re.compile(r"(?P<name>\w+)\((?P<arguments>.*)\)\s+= (?P<result>-?\d+|\?)(?: (?P<error>E[A-Z0-9]+))?")


@dataclass(frozen=True)
class Call:
    """A system call: its name, its arguments as strace writes them, and the error it ended with, or none."""

    name: str
    arguments: str
    error: str


@dataclass(frozen=True)
class Fault:
    """What strace does to calls: an `-e inject=` expression, and the path whose calls alone are meant, or none."""

    injected: str
    path: Optional[Path] = None

    def words(self) -> List[str]:
        """The words for strace."""
        return ["-e", f"inject={self.injected}", *(["-P", str(self.path)] if self.path else [])]


@dataclass(frozen=True)
class Run:
    """How a traced program ended, what it wrote, where that was kept, and its calls."""

    status: int
    text: bytes
    calls: List[Call]

    def opened(self, path: Path) -> int:
        """How often this path was opened, or was tried to be; an interrupted try that is made again counts once."""
        named = f'"{path}"'
        return sum(call.name in ("open", "openat") and named in call.arguments and call.error != "EINTR" for call in self.calls)

    def failed_by(self, error: str) -> int:
        """How many calls ended with this error."""
        return sum(call.error == error for call in self.calls)


def read_calls(log: str) -> List[Call]:
    """The system calls in the log of strace, in their order. Lines that tell of signals and of the end are none."""
    found = (CALL.match(line) for line in log.splitlines())
    return [Call(call["name"], call["arguments"], call["error"] or "") for call in found if call]


def trace_words(log: Path, program: Path, words: Sequence[Union[str, Path]], fault: Optional[Fault]) -> List[str]:
    """The words that run a program under strace, which writes its log to a file."""
    traced = ["strace", "-o", str(log), "-e", "trace=open,openat,read,write", *(fault.words() if fault else [])]
    return [*traced, str(program), *map(str, words)]


def run_traced(
    log: Path,
    program: Path,
    words: Sequence[Union[str, Path]],
    fault: Optional[Fault] = None,
    output: Union[int, IO[bytes]] = subprocess.PIPE,
) -> Run:
    """Runs a program under strace, with its main thread traced.

    A `ToolError` where there is no strace, it can't trace, or the run takes more than a minute.
    """
    try:
        done = subprocess.run(
            trace_words(log, program, words, fault),
            stdin=subprocess.DEVNULL, stdout=output, stderr=subprocess.PIPE, timeout=SECONDS, check=False,
        )
    except FileNotFoundError as error:
        raise ToolError("strace isn't on the PATH") from error
    except subprocess.TimeoutExpired as error:
        raise ToolError(f"{' '.join(map(str, words))}: no end within {SECONDS} seconds") from error
    if not log.exists() or b"strace: " in done.stderr:
        raise ToolError(f"strace: {done.stderr.decode('utf-8', 'replace').strip()}")
    return Run(done.returncode, done.stdout or b"", read_calls(log.read_text("utf-8", "replace")))
