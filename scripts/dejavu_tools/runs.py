"""Runs of `dejavu` on two versions, and what it writes. Histories of the old version are named by their files."""
from __future__ import annotations

import os
import re
from concurrent.futures import ThreadPoolExecutor
from functools import partial
from pathlib import Path
from typing import Dict, List, Optional, Sequence, Tuple

from .errors import Told, ToolError
from .files import write_whole
from .formats import History, Test, read_history, suite_text
from .histories import NoHistory
from .points import Graph, read_points
from .programs import Answer, output_of
from .refusals import Message, Place, files_of, message_of
from .sides import Side
from .walks import Explanation, Walk, read_choice, read_explanation, read_walk

HISTORY_REFUSED = 5  # the status of `dejavu` where it refuses a history
MOST_WORKERS = 64
AT_ONCE = 4  # explanations


class Runs:
    """The program, on an old version and a new one. What it reads besides is written into a folder."""

    def __init__(self, program: Path, old: Side, new: Side, scratch: Path) -> None:
        self.program, self.old, self.new, self.scratch = program, old, new, scratch
        self.workers = str(min(MOST_WORKERS, len(os.sched_getaffinity(0))))

    def record(self, side: Side, tests: Sequence[Test]) -> History:
        """The history of these tests on a version."""
        suite = self.written("suite", suite_text(tests))
        return self.history("record", str(side.unit.path), suite, "--workers", self.workers)

    def select(self, history: str) -> Dict[str, Optional[int]]:
        """The edge for which each test of a history of the old version is selected; none where it is left."""
        return dict(map(read_choice, self.lines("select", *self.units(), history)[:-1]))

    def carry(self, history: str) -> History:
        """The history of the new version for the tests of one of the old version."""
        return self.history("carry", *self.units(), history, "--workers", self.workers)

    def walk(self) -> Walk:
        """Where the versions part."""
        return read_walk(self.lines("walk", *self.units()))

    def explain(self, history: str, names: Sequence[str]) -> List[Explanation]:
        """Why each of these tests of a history of the old version is selected."""
        with ThreadPoolExecutor(AT_ONCE) as pool:
            texts = list(pool.map(partial(self.lines, "explain", *self.units(), history), names))
        return list(map(read_explanation, texts))

    def points(self, program: Path, side: Side) -> Graph:
        """The points and edges that the program `points` lists of a version."""
        return read_points(Path(self.written("points", self.output(program, [str(side.unit.path)]))))

    def units(self) -> Tuple[str, str]:
        """The files of both units."""
        return str(self.old.unit.path), str(self.new.unit.path)

    def written(self, name: str, data: bytes) -> str:
        """A file with this in it."""
        path = self.scratch / name
        write_whole({path: data})
        return str(path)

    def history(self, *words: str) -> History:
        """The history that the program writes for these words."""
        return read_history(Path(self.written("made", self.answer(words))))

    def lines(self, *words: str) -> List[str]:
        """The lines that the program writes for these words."""
        return self.answer(words).decode("utf-8", "surrogateescape").split("\n")[:-1]

    def answer(self, words: Sequence[str]) -> bytes:
        """What the program writes for these words; a `ToolError` with all that is to be said where it does not.

        That is a `NoHistory` where it refuses the history.
        """
        return self.output(self.program, words)

    def output(self, program: Path, words: Sequence[str]) -> bytes:
        """What a program writes for these words, with the same errors."""
        status, output = output_of(program, words)
        refusal = Answer(status, output).refusal
        if refusal:
            raise self.refused(message_of(refusal, files_of(words), self.origin), status)
        if status:
            ended = f"ended with status {status}" if status > 0 else "was ended by a signal"
            raise ToolError(f"{program} {words[0]} {ended}")
        return output

    def refused(self, message: Message, status: int) -> ToolError:
        """What is told of a refusal; a unit that was made stands in it by the name of its version."""
        if status == HISTORY_REFUSED:
            return NoHistory(message.wrong)
        lines = message.lines()
        for side in (self.old, self.new):
            if side.settings.adopt:
                lines[0] = lines[0].replace(str(side.unit.path), f"the unit of {side.version.name}")
        return Told(lines)

    def origin(self, place: Place) -> Tuple[str, int, int]:
        """The place of a version's own file from which a place of its unit is."""
        side = self.old if place.file == str(self.old.unit.path) else self.new
        return side.unit.origin(place.line, place.column)
