"""Steps that take a while: on a terminal each is told, with how long it took the last time."""
from __future__ import annotations

import json
import sys
import time
from contextlib import contextmanager, suppress
from pathlib import Path
from typing import Dict, Iterator

from .console import say
from .errors import ToolError
from .files import read_file, write_whole


class Steps:
    """The steps of a script, and a file that has the seconds which each took the last time."""

    def __init__(self, script: str, path: Path) -> None:
        self.script, self.path = script, path
        self.is_told = sys.stderr is not None and sys.stderr.isatty()
        self.last = read_seconds(path)
        self.seconds = dict(self.last)

    @contextmanager
    def step(self, name: str, what: str) -> Iterator[None]:
        """Says what is done within."""
        if self.is_told:
            last = self.last.get(name)
            say(f"{self.script}: {what}{'' if last is None else f' (the last time it took {last:,.1f} s)'}")
        begun = time.monotonic()
        yield
        self.seconds[name] = time.monotonic() - begun

    def keep(self) -> None:
        """Writes the file, whose folder is there. Where that can't be, the next times aren't told, and no more is lost."""
        rounded = {name: round(seconds, 3) for name, seconds in sorted(self.seconds.items())}
        with suppress(ToolError):
            write_whole({self.path: json.dumps(rounded).encode("ascii") + b"\n"})


def read_seconds(path: Path) -> Dict[str, float]:
    """The seconds that a file has by the names of steps; none where it can't be read or has none."""
    try:
        found = json.loads(read_file(path))
        return {str(name): float(seconds) for name, seconds in found.items()}
    except (ToolError, ValueError, TypeError, AttributeError):
        return {}
