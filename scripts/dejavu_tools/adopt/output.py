"""The lines of a function of the unit, as they are written."""
from __future__ import annotations

from contextlib import contextmanager
from dataclasses import dataclass
from typing import Iterator, List, Optional

from .places import Place


@dataclass(frozen=True)
class Line:
    """A line of the unit; the place is that of the statement that begins on it."""

    depth: int
    text: str
    place: Optional[Place] = None


class Output:
    """Takes lines, indented by the blocks around them."""

    def __init__(self) -> None:
        self.lines: List[Line] = []
        self.depth = 0
        self.place: Optional[Place] = None  # of the statement that is being written

    def put(self, text: str) -> None:
        """Writes a line at which a statement begins."""
        self.lines.append(Line(self.depth, text, self.place))

    def mark(self, text: str) -> None:
        """Writes a line at which none begins, such as a brace."""
        self.lines.append(Line(self.depth, text))

    @contextmanager
    def block(self, head: str, tail: str = "}") -> Iterator[None]:
        """Writes a line that opens a block, what is written within, and a line that closes it."""
        self.put(head)
        with self.indented():
            yield
        self.mark(tail)

    @contextmanager
    def indented(self) -> Iterator[None]:
        """What is written within stands deeper."""
        self.depth += 1
        yield
        self.depth -= 1

    @contextmanager
    def apart(self) -> Iterator[List[Line]]:
        """What is written within goes into a list of its own."""
        outer, self.lines = self.lines, []
        try:
            yield self.lines
        finally:
            self.lines = outer

    def add(self, lines: List[Line], deeper: int = 0) -> None:
        """Writes lines that were written apart, so much deeper."""
        self.lines.extend(Line(line.depth + deeper, line.text, line.place) for line in lines)
