"""The files of a version as a page shows them: their lines, what tests reach of them, and what is told at places."""
from __future__ import annotations

import os
import re
from dataclasses import dataclass, field
from pathlib import Path
from typing import Dict, Iterable, Iterator, List, Optional, Sequence, Tuple

from ..files import read_file
from ..listing import Coverage, count, points_by_line, ways_told
from ..sides import Side
from .markup import decoded, link, marked, shown

OLD, NEW = "o", "n"  # with which the names of an old version's lines begin, and those of a new one's

INCLUDED = re.compile(rb'^[ \t]*#[ \t]*include[ \t]*"([^"\n]+)"', re.MULTILINE)
WORD = re.compile(r"\w+|.", re.DOTALL)


@dataclass
class Margin:
    """What tests reach of a line, and how many cross each way out of its points; tests are bits of a number."""

    tests: int = 0
    ways: List[Tuple[str, int]] = field(default_factory=list)


@dataclass
class File:
    """A file of a version."""

    key: str  # with which the names of its lines begin
    name: str  # within the version
    lines: List[bytes]
    margins: Dict[int, Margin] = field(default_factory=dict)  # by the numbers of lines
    columns: Dict[int, List[int]] = field(default_factory=dict)  # at which something is told
    notes: Dict[int, List[str]] = field(default_factory=dict)

    def has(self, line: int) -> bool:
        """Whether there is a line of this number."""
        return 1 <= line <= len(self.lines)

    def id_of(self, line: int) -> str:
        """The name of a line."""
        return f"{self.key}-{line}"

    def text(self, line: int) -> str:
        """A line, decoded."""
        return decoded(self.lines[line - 1])

    def words(self, line: int, columns: Iterable[int]) -> List[range]:
        """The characters of the words that begin at these columns of a line."""
        starts = {len(decoded(self.lines[line - 1][:column - 1])) for column in columns}
        found = (WORD.match(self.text(line), start) for start in starts)
        return [range(*word.span()) for word in found if word]


class Places:
    """The files of a version, and the places of its unit in them."""

    def __init__(self, letter: str, side: Side, coverage: Optional[Coverage]) -> None:
        self.side, self.coverage = side, coverage
        self.files: Dict[str, File] = {}  # by the names with which the unit's places are told
        for path in paths_of(side):
            lines = read_file(Path(path)).split(b"\n")
            key = f"{letter}{len(self.files) + 1}"
            self.files[path] = File(key, name_in(side, path), lines if lines[-1] else lines[:-1])
        self.outside: List[str] = []  # notes at places that aren't in these files
        if coverage:
            self.fill(coverage)

    @property
    def reached(self) -> Tuple[int, int]:
        """How many of the lines that have a point tests reach, and how many these are."""
        margins = [margin for file in self.files.values() for margin in file.margins.values()]
        return sum(bool(margin.tests) for margin in margins), len(margins)

    def fill(self, coverage: Coverage) -> None:
        """Puts what tests reach beside the lines."""
        for points in points_by_line(coverage).values():
            for point in points:
                file, line, _ = self.origin((point.line, point.column))
                if file:
                    margin = file.margins.setdefault(line, Margin())
                    margin.tests |= coverage.reached[point.number]
                    margin.ways += [(edge.exit, count(coverage.crossed[edge.number]))
                                    for edge in ways_told(coverage, point, coverage.reached[point.number])]

    def origin(self, place: Tuple[int, int]) -> Tuple[Optional[File], int, int]:
        """The file, if it is one of the version's, the line and the column of a place of the unit."""
        path, line, column = self.side.unit.origin(*place)
        file = self.files.get(path)
        return (file if file and file.has(line) else None), line, column

    def put(self, place: Tuple[int, int], note: str) -> None:
        """Marks the word at a place of the unit, and puts a note below its line."""
        file, line, column = self.origin(place)
        if file:
            file.columns.setdefault(line, []).append(column)
            file.notes.setdefault(line, []).append(note)
        else:
            self.outside.append(note)

    def text(self, place: Tuple[int, int]) -> str:
        """A place of the unit, in words. What `adopt` puts before the files' own functions is in none of the files."""
        file, line, column = self.origin(place)
        if not file:
            return f"{place[0]}:{place[1]} of the unit"
        return f"{shown(file.name)}:{line}:{column}" if len(self.files) > 1 else f"{line}:{column}"

    def link(self, place: Tuple[int, int]) -> str:
        """The same as a link."""
        file, line, _ = self.origin(place)
        return link(file.id_of(line), self.text(place)) if file else self.text(place)

    def told(self, number: int) -> str:
        """The point of this number, as the place and the line that it has."""
        if not self.coverage or number >= len(self.coverage.graph.points):
            return f"point {number}"
        points = self.coverage.graph.points
        point = points[number]
        place = point.line, point.column
        file, line, column = self.origin(place)
        text = marked(file.text(line), range(0), file.words(line, [column])).strip() if file else shown(point.text)
        is_first = number == 0 or points[number - 1].function != point.function
        is_last = number + 1 == len(points) or points[number + 1].function != point.function
        end = " (its entry)" if is_first else " (its exit)" if is_last else ""
        return f"{self.link(place)} <code>{text}</code>{end}"


# ---- which files a version has


def paths_of(side: Side) -> List[str]:
    """The files of a version, as its unit's places name them: its sources, what they include, and others of its map."""
    folder = side.version.folder
    sources = [str(folder / source) for source in side.settings.sources]
    if not side.settings.adopt:
        return sources
    of_map = {os.path.normpath(file): file for *_, file in side.unit.rows}
    found: Dict[str, str] = {}
    for path in [*sources, *sorted(of_map.values())]:
        for file in (path, *included(Path(path), [folder / name for name in side.settings.include])):
            normal = os.path.normpath(file)
            found.setdefault(normal, of_map.get(normal, file))
    return list(found.values())


def included(path: Path, folders: Sequence[Path]) -> Iterator[str]:
    """The files that a file includes by names in quotes, beside it or in one of the folders, and those that they do."""
    waiting, seen = [path], {os.path.normpath(path)}
    while waiting:
        current = waiting.pop(0)
        for name in INCLUDED.findall(read_file(current)):
            beside = (folder / os.fsdecode(name) for folder in (current.parent, *folders))
            file = next((it for it in beside if it.is_file()), None)
            if file and os.path.normpath(file) not in seen:
                seen.add(os.path.normpath(file))
                waiting.append(file)
                yield str(file)


def name_in(side: Side, path: str) -> str:
    """A file's name within a version."""
    beginning = f"{side.version.folder}/"
    return path[len(beginning):] if path.startswith(beginning) else side.version.inside(path)


def file_pairs(old: Places, new: Places) -> List[Tuple[Optional[File], Optional[File]]]:
    """The files of two versions, those of one name together; where each has one more, these are together too."""
    before = {file.name: file for file in old.files.values()}
    after = {file.name: file for file in new.files.values()}
    gone = [file for name, file in before.items() if name not in after]
    come = [file for name, file in after.items() if name not in before]
    pairs: List[Tuple[Optional[File], Optional[File]]] = []
    if len(gone) == len(come) == 1:
        pairs.append((gone.pop(), come.pop()))
    pairs += [(before[name], file) for name, file in after.items() if name in before]
    return [*pairs, *((file, None) for file in gone), *((None, file) for file in come)]
