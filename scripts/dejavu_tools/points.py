"""The text that the program `points` writes of a source (docs/formats.md): its points and edges, read."""
from __future__ import annotations

import re
from dataclasses import dataclass
from itertools import count
from pathlib import Path
from typing import Iterator, List, Optional, Sequence, Tuple

from .errors import ToolError
from .files import read_file

FIRST_LINE = b"points 1"
REFUSAL = b"refused: "
MOST_SHOWN = 80  # bytes of a source on the line of a point
WHITE = b" \t\f\r"  # what is left out at the end of a line

NUMBER = rb"(0|[1-9][0-9]{0,8})"
POINT = re.compile(rb"point %s (\S+) %s:%s (.*)" % (NUMBER, NUMBER, NUMBER), re.DOTALL)
EDGE = re.compile(rb"edge %s %s (next|true|false|case -?[0-9]{1,10}|default) %s" % (NUMBER, NUMBER, NUMBER))
END = re.compile(rb"end %s %s" % (NUMBER, NUMBER))


@dataclass(frozen=True)
class Edge:
    """A way out of a point."""

    number: int
    exit: str  # `next`, `true`, `false`, `case V` or `default`
    to: int  # the number of the point to which it leads


@dataclass(frozen=True)
class Point:
    """A point of a program, with the edges that leave it."""

    number: int
    function: str
    line: int  # from 1, as the column
    column: int  # of a byte
    text: bytes  # what the source has there
    edges: List[Edge]


@dataclass(frozen=True)
class Graph:
    """The points of a program in the order of their numbers, and so its edges."""

    points: List[Point]

    @property
    def edges(self) -> Iterator[Edge]:
        """The edges of all points, in the order of their numbers."""
        return (edge for point in self.points for edge in point.edges)


def read_points(path: Path) -> Graph:
    """The points and edges that a text of `points` lists; a `ToolError` where the file can't be read or is none.

    Points and edges have the numbers 0, 1, 2 and so on; each edge stands behind its point and leads to one of the
    points; and the last line has their counts.
    """
    data = read_file(path)
    if data.startswith(REFUSAL):
        raise ToolError(f"{path}: this is a refusal of `points`, and no list of points")
    lines = enumerate(data.split(b"\n"), 1)
    if next(lines)[1] != FIRST_LINE:
        raise broken(path, 1, f"the first line isn't `{FIRST_LINE.decode()}`")
    points, edges, last = read_lines(path, lines)
    for point in points:
        for edge in point.edges:
            if edge.to >= len(points):
                raise ToolError(f"{path}: edge {edge.number} leads to point {edge.to}, and there is none")
    if last != (len(points), edges):
        raise ToolError(f"{path}: there are {len(points)} points and {edges} edges, and the last line has other counts")
    return Graph(points)


def read_lines(path: Path, lines: Iterator[Tuple[int, bytes]]) -> Tuple[List[Point], int, Tuple[int, int]]:
    """The points of numbered lines up to the line `end`, how many edges they have, and what that line says."""
    points: List[Point] = []
    edges = count()
    for number, line in lines:
        point, edge, end = POINT.fullmatch(line), EDGE.fullmatch(line), END.fullmatch(line)
        if point and int(point[1]) == len(points):
            points.append(point_of(point))
        elif edge and points and int(edge[2]) == points[-1].number and int(edge[1]) == next(edges):
            points[-1].edges.append(Edge(int(edge[1]), edge[3].decode("ascii"), int(edge[4])))
        elif end and [rest for _, rest in lines] == [b""]:
            return points, next(edges), (int(end[1]), int(end[2]))
        else:
            raise broken(path, number, "no line of points, or none that may stand here")
    raise ToolError(f"{path}: the line `end` is missing")


def point_of(words: re.Match[bytes]) -> Point:
    """The point that a line tells, before its edges are read."""
    function = words[2].decode("ascii", "backslashreplace")
    return Point(int(words[1]), function, int(words[3]), int(words[4]), words[5], [])


def broken(path: Path, line: int, wrong: str) -> ToolError:
    """What is told of a line that breaks the format."""
    return ToolError(f"{path}:{line}: {wrong}")


def text_at(lines: Sequence[bytes], line: int, column: int) -> Optional[bytes]:
    """What `points` shows of these lines of a source at a place; nothing where there is no such place."""
    if not 1 <= line <= len(lines) or not 1 <= column <= len(lines[line - 1]) + 1:
        return None
    return lines[line - 1][column - 1:][:MOST_SHOWN].rstrip(WHITE)
