"""A unit as bytes, and the map from its places to those of the files."""
from __future__ import annotations

from bisect import bisect_right
from typing import List, NamedTuple, Optional, Sequence, Tuple

from .output import Line
from .places import Place

INDENT = "    "

FIRST_LINE = "dejavu map 1"


class Row(NamedTuple):
    """Where a statement of the unit begins, its line and column from 1, and where it comes from."""

    line: int
    column: int
    origin: Place


def written(lines: List[Line]) -> Tuple[bytes, List[Row]]:
    """The text of the lines, and a row for each at which a statement of the files begins."""
    rows = []
    for number, line in enumerate(lines, 1):
        if line.place is not None:
            rows.append(Row(number, len(INDENT) * line.depth + 1, line.place))
    text = "".join(f"{INDENT * line.depth}{line.text}".rstrip() + "\n" for line in lines)
    return text.encode("ascii"), rows


def origin_of(rows: Sequence[Row], line: int, column: int) -> Optional[Place]:
    """The place in the files of the last statement that begins at or before one of the unit; None before the first."""
    k = bisect_right([(row.line, row.column) for row in rows], (line, column))
    return rows[k - 1].origin if k else None


def map_text(rows: Sequence[Row]) -> bytes:
    """The text of a map: a first line, and then `UL:UC L:C FILE` for each row."""
    lines = [FIRST_LINE]
    lines.extend(f"{row.line}:{row.column} {row.origin.line}:{row.origin.column} {row.origin.file}" for row in rows)
    return "".join(f"{line}\n" for line in lines).encode("utf-8", "surrogateescape")
