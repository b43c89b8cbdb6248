"""What keeps a script from its work."""
from __future__ import annotations

from typing import Sequence


class ToolError(Exception):
    """A line for people that says what and where, and the exit status of the script."""

    def __init__(self, message: str, status: int = 2) -> None:
        super().__init__(message)
        self.status = status


class Told(ToolError):
    """The same in several lines, before which the name of the script doesn't stand."""

    def __init__(self, lines: Sequence[str], status: int = 2) -> None:
        super().__init__("\n".join(lines), status)
        self.lines = tuple(lines)


class Unbuilt(ToolError):
    """There is no program to run, and why."""

    def __init__(self, message: str) -> None:
        super().__init__(message, 70)
