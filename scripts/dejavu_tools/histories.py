"""Histories that are kept: each stands under the digest of its source and that of its suite."""
from __future__ import annotations

from dataclasses import replace
from pathlib import Path
from typing import Container, Iterable, Sequence

from .errors import ToolError
from .files import told_of, write_whole
from .formats import Entry, History, Test, history_text, read_history
from .sides import Side


class NoHistory(ToolError):
    """A history can't be used, and why."""


def place_of(folder: Path, side: Side) -> Path:
    """Where the history of a version is kept."""
    return folder / f"{side.unit.digest}-{side.suite}.history"


def read_kept(folder: Path, side: Side) -> History:
    """The history that is kept of a version; a `NoHistory` where there is none that can be used."""
    path = place_of(folder, side)
    if not path.exists():
        raise NoHistory(f"none is kept in {folder}")
    try:
        history = read_history(path)
    except ToolError as error:
        raise NoHistory(str(error)) from error
    if history.source != side.unit.digest or [entry.test for entry in history.entries] != side.tests:
        raise NoHistory(f"{path}: the history is of another source or of other tests than its name says")
    return history


def keep(folder: Path, side: Side, history: History) -> None:
    """Keeps the history of a version; a `ToolError` where that can't be."""
    with told_of(folder):
        folder.mkdir(parents=True, exist_ok=True)
    write_whole({place_of(folder, side): history_text(history)})


def limited(history: History, tests: Container[Test]) -> History:
    """A history without the entries of other tests: it is what `record` writes for the tests that stay."""
    return replace(history, entries=[entry for entry in history.entries if entry.test in tests])


def joined(history: History, more: Iterable[Entry], tests: Sequence[Test]) -> History:
    """A history with more entries, in the order of these tests: it is what `record` writes for them."""
    entries = {entry.test.name: entry for entry in (*history.entries, *more)}
    return replace(history, entries=[entries[test.name] for test in tests])
