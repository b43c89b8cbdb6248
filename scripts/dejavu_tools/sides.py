"""A version of a program as `dejavu` takes it: one source of the language, and a suite."""
from __future__ import annotations

from bisect import bisect_right
from dataclasses import dataclass
from functools import cached_property
from hashlib import sha256
from pathlib import Path
from typing import List, Sequence, Tuple

from . import environment, suites
from .errors import Told
from .files import read_file, write_whole
from .formats import Test, read_suite, suite_text
from .revisions import Version
from .settings import Settings, read_settings

# A line and a column of a unit, and the line, the column and the file from which a statement there is.
Row = Tuple[int, int, int, int, str]


@dataclass(frozen=True)
class Unit:
    """A program as one source of the language."""

    path: Path
    digest: str
    rows: Sequence[Row]  # rising; none where the source is the maintainer's own

    @cached_property
    def starts(self) -> List[Tuple[int, int]]:
        """The places of the unit at which its rows begin."""
        return [row[:2] for row in self.rows]

    def origin(self, line: int, column: int) -> Tuple[str, int, int]:
        """The file, the line and the column from which what stands at a place of the unit is."""
        at = bisect_right(self.starts, (line, column))
        if not at:
            return str(self.path), line, column
        _, _, line, column, file = self.rows[at - 1]
        return file, line, column


@dataclass(frozen=True)
class Side:
    """A version with its program and its tests."""

    version: Version
    settings: Settings
    unit: Unit
    tests: List[Test]

    @property
    def suite(self) -> str:
        """The digest of the suite."""
        return sha256(suite_text(self.tests)).hexdigest()


def side_of(version: Version, file: str, otherwise: Settings, unit: Path) -> Side:
    """A version by the settings in its file of this name, or by `otherwise` where it has none.

    What its sources become is written into the file `unit`. Raises a `ToolError` where a file can't be read or used,
    or where the sources can't become a unit, with all that hinders.
    """
    path = version.folder / file
    settings = read_settings(path) if path.exists() else otherwise
    return Side(version, settings, unit_of(version.folder, settings, unit), tests_of(version.folder, settings))


def unit_of(folder: Path, settings: Settings, unit: Path) -> Unit:
    """The unit of the sources in a folder."""
    files = [folder / source for source in settings.sources]
    if settings.adopt:
        data, rows = adopted(files, folder, settings)
        write_whole({unit: data})
        return Unit(unit, sha256(data).hexdigest(), rows)
    return Unit(files[0], sha256(read_file(files[0])).hexdigest(), ())


def tests_of(folder: Path, settings: Settings) -> List[Test]:
    """The tests that are in a folder; a `ToolError` where they can't be read, or one suite has no room for them."""
    if settings.suite is not None:
        return read_suite(folder / settings.suite)
    tests = suites.suite_of_folder(folder / settings.inputs, settings.budget).tests
    suites.one_suite(folder / settings.inputs, tests)
    return tests


def adopted(files: Sequence[Path], folder: Path, settings: Settings) -> Tuple[bytes, Sequence[Row]]:
    """The unit that files of a folder become, and where its statements are from; a `ToolError` with all obstacles."""
    environment.provide("pycparser")
    from .adopt.obstacles import ObstaclesFound  # which stand on what was just provided
    from .adopt.options import Options
    from .adopt.translate import adopt

    include = tuple(folder / name for name in settings.include)
    try:
        made = adopt(files, Options(settings.drop_stderr, settings.long_as_int, include, settings.define))
    except ObstaclesFound as found:
        raise Told([*map(str, found.obstacles), f"{len(found.obstacles)} obstacles"]) from found
    return made.unit, [(row.line, row.column, row.origin.line, row.origin.column, row.origin.file) for row in made.map]
