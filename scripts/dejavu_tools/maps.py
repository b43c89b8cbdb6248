"""Maps of units: from a place of a unit to that of the file of which it was made."""
from __future__ import annotations

import os
import re
from pathlib import Path
from typing import List, Mapping, Sequence, Tuple

from .adopt.places import Place as Origin
from .adopt.write import FIRST_LINE, Row, origin_of
from .errors import ToolError
from .refusals import Place, PlaceMap

ROW = re.compile(r"([1-9]\d*):([1-9]\d*) ([1-9]\d*):([1-9]\d*) (.+)", re.ASCII)


def read_map(path: Path) -> List[Row]:
    """The rows of a map, in rising order; a `ToolError` where it can't be read or is none."""
    try:
        text = path.read_bytes()
    except OSError as error:
        raise ToolError(f"{path}: {error.strerror}") from error
    first, *lines = os.fsdecode(text).splitlines() or [""]
    if first != FIRST_LINE:
        raise ToolError(f"{path}:1: this isn't the first line of a map")
    return [row_of(path, number, line) for number, line in enumerate(lines, 2)]


def row_of(path: Path, number: int, line: str) -> Row:
    """What a line of a map says."""
    found = ROW.fullmatch(line)
    if not found:
        raise ToolError(f"{path}:{number}: `UL:UC L:C FILE` has to stand here")
    unit_line, unit_column, own_line, own_column = map(int, found.groups()[:4])
    return Row(unit_line, unit_column, Origin(found[5], own_line, own_column))


def from_rows(rows: Sequence[Row]) -> PlaceMap:
    """Takes a place of one unit to that of the files from which it comes; one before all rows stays."""
    return from_units({None: rows})


def from_units(maps: Mapping[object, Sequence[Row]]) -> PlaceMap:
    """Takes a place of each unit of a mapping by its rows, where `None` stands for every other file; others stay."""

    def origin(place: Place) -> Tuple[str, int, int]:
        rows = maps.get(place.file, maps.get(None, ()))
        found = origin_of(rows, place.line, place.column)
        return (found.file, found.line, found.column) if found else place

    return origin
