"""What the tests of a history cross of a source: as a listing for people, as an lcov trace, and as a graph in DOT.

A test *crosses* an edge where its run did. It *reaches* a point where it crosses an edge that leaves the point or leads
to it, and a line where it reaches a point of that line.
"""
from __future__ import annotations

from dataclasses import dataclass
from hashlib import sha256
from itertools import groupby
from pathlib import Path
from typing import Dict, Iterable, Iterator, List, Sequence

from .console import readable
from .errors import ToolError
from .formats import History, read_history
from .points import Edge, Graph, Point, read_points, text_at
from .files import read_file

MARGIN = 6  # the least width of the columns of numbers


@dataclass(frozen=True)
class Coverage:
    """A source with its points and edges, and the tests that reach and cross them.

    Tests are the bits of a number: bit i is that of the entry i of the history, from 0.
    """

    lines: List[bytes]  # of the source, without their newlines
    graph: Graph
    tests: int  # how many there are
    crossed: List[int]  # by the number of an edge
    reached: List[int]  # by the number of a point


# ---- what is read


def read_coverage(history: Path, points: Path, source: Path) -> Coverage:
    """What a history of a source tells of the points and edges that `points` lists of it.

    Raises a `ToolError` where one of the files can't be read or isn't what it should be, and where the history or the
    list of points is of another source.
    """
    told, graph, data = read_history(history), read_points(points), read_file(source)
    if told.source != sha256(data).hexdigest():
        raise ToolError(f"{history}: this is a history of another source than {source}")
    lines = data.split(b"\n")
    check_points(graph, lines, points, source)
    edges = len(list(graph.edges))
    if told.edges != edges:
        raise ToolError(f"{points}: there are {edges} edges, and {history} tells of {told.edges}")
    return coverage_of(told, graph, lines)


def check_points(graph: Graph, lines: Sequence[bytes], points: Path, source: Path) -> None:
    """Raises a `ToolError` where a point isn't one of a source with these lines."""
    for point in graph.points:
        if text_at(lines, point.line, point.column) != point.text:
            raise ToolError(f"{points}: point {point.number} isn't one of {source}, which has another text there")


def coverage_of(history: History, graph: Graph, lines: List[bytes]) -> Coverage:
    """What a history tells of the points and edges of its source, which has these lines."""
    crossed = tests_by_edge(history)
    return Coverage(lines, graph, len(history.entries), crossed, tests_by_point(graph, crossed))


def tests_by_edge(history: History) -> List[int]:
    """The tests that crossed each edge."""
    if not history.entries:
        return [0] * history.edges
    # As a text of digits, a row for each test from the last one on, of which a column is cut out without a step a bit.
    rows = (int.from_bytes(entry.crossed, "little") for entry in reversed(history.entries))
    digits = "".join(format(row, f"0{history.edges}b") for row in rows)
    return [int(digits[place::history.edges], 2) for place in reversed(range(history.edges))]


def tests_by_point(graph: Graph, crossed: Sequence[int]) -> List[int]:
    """The tests that reach each point."""
    reached = [0] * len(graph.points)
    for point in graph.points:
        for edge in point.edges:
            reached[point.number] |= crossed[edge.number]
            reached[edge.to] |= crossed[edge.number]
    return reached


def count(tests: int) -> int:
    """How many tests these are."""
    return bin(tests).count("1")


def points_by_line(coverage: Coverage) -> Dict[int, List[Point]]:
    """The points of each line that has some, by rising lines, columns and numbers."""
    points = sorted(coverage.graph.points, key=lambda point: (point.line, point.column, point.number))
    return {line: list(group) for line, group in groupby(points, key=lambda point: point.line)}


def tests_of(coverage: Coverage, points: Iterable[Point]) -> int:
    """The tests that reach one of these points."""
    tests = 0
    for point in points:
        tests |= coverage.reached[point.number]
    return tests


# ---- a listing for people


def listing(coverage: Coverage) -> Iterator[str]:
    """Each line of the source with how many tests reach it, and behind it the ways out of its points; then a summary.

    A line without a point has no count. The only way out of a point is left out where the same tests cross it as reach
    the line.
    """
    by_line = points_by_line(coverage)
    last = len(coverage.lines) - (coverage.lines[-1] == b"")
    yield f"{'tests':>{MARGIN}}  {'line':>{MARGIN}}"
    for number, line in enumerate(coverage.lines[:last], 1):
        points = by_line.get(number, [])
        tests = tests_of(coverage, points)
        yield f"{count(tests) if points else '':>{MARGIN}}  {number:>{MARGIN}}  {readable(line)}".rstrip()
        for point in points:
            yield from ways_shown(coverage, point, tests)
    yield summary(coverage, by_line)


def ways_told(coverage: Coverage, point: Point, tests: int) -> List[Edge]:
    """The ways out of a point of a line that these tests reach; the only one is left out where the same cross it."""
    is_plain = len(point.edges) == 1 and coverage.crossed[point.edges[0].number] == tests
    return [] if is_plain else point.edges


def ways_shown(coverage: Coverage, point: Point, tests: int) -> Iterator[str]:
    """These ways out, each with how many tests cross it."""
    for edge in ways_told(coverage, point, tests):
        tests = count(coverage.crossed[edge.number])
        yield f"{tests:>{MARGIN}}  {'':>{MARGIN}}  edge {edge.number} at {point.line}:{point.column} {edge.exit}"


def summary(coverage: Coverage, by_line: Dict[int, List[Point]]) -> str:
    """How many lines are reached, and how many edges are crossed."""
    reached = sum(1 for points in by_line.values() if tests_of(coverage, points))
    crossed = sum(1 for tests in coverage.crossed if tests)
    return f"tests {coverage.tests} lines {reached} of {len(by_line)} edges {crossed} of {len(coverage.crossed)}"


# ---- an lcov trace


def lcov(coverage: Coverage, source: Path) -> Iterator[str]:
    """The trace of a source in the format that geninfo(1) of lcov describes, with tests in the place of executions.

    A point with several ways out is a block of branches under its number, and a way out is a branch of it by its place
    among them.
    """
    by_line = points_by_line(coverage)
    branching = [point for points in by_line.values() for point in points if len(point.edges) > 1]
    taken = [coverage.crossed[edge.number] for point in branching for edge in point.edges]
    lines = {line: tests_of(coverage, points) for line, points in by_line.items()}
    yield "TN:"
    yield f"SF:{source.absolute()}"
    for point in branching:
        for branch, edge in enumerate(point.edges):
            yield f"BRDA:{point.line},{point.number},{branch},{branch_taken(coverage, point, edge)}"
    yield from (f"BRF:{len(taken)}", f"BRH:{sum(map(bool, taken))}")
    for line, tests in lines.items():
        yield f"DA:{line},{count(tests)}"
    yield from (f"LF:{len(lines)}", f"LH:{sum(map(bool, lines.values()))}")
    yield "end_of_record"


def branch_taken(coverage: Coverage, point: Point, edge: Edge) -> str:
    """How many tests cross an edge, or `-` where none reaches its point."""
    return str(count(coverage.crossed[edge.number])) if coverage.reached[point.number] else "-"


# ---- a graph in DOT


def dot(coverage: Coverage) -> Iterator[str]:
    """The graph in the language DOT of Graphviz: a box for each point within its function, and an arrow for each edge.

    A box has the number of its point, the place and the text there, an arrow the number of its edge, the way out and
    how many tests cross it. What no test reaches or crosses is dashed.
    """
    yield "digraph points {"
    yield "  node [shape=box];"
    for number, (function, points) in enumerate(groupby(coverage.graph.points, key=lambda point: point.function)):
        yield f"  subgraph cluster_{number} {{"
        yield f"    label={quoted(function)};"
        for point in points:
            yield f"    {box(point, coverage.reached[point.number])}"
        yield "  }"
    for point in coverage.graph.points:
        for edge in point.edges:
            yield f"  {arrow(point, edge, coverage.crossed[edge.number])}"
    yield "}"


def box(point: Point, tests: int) -> str:
    """The box of a point that these tests reach."""
    label = quoted(f"{point.number}  {point.line}:{point.column}", readable(point.text))
    return f"p{point.number} [label={label}{dashed(tests)}];"


def arrow(point: Point, edge: Edge, tests: int) -> str:
    """The arrow of an edge of a point that these tests cross."""
    label = quoted(f"{edge.number} {edge.exit}", str(count(tests)))
    return f"p{point.number} -> p{edge.to} [label={label}{dashed(tests)}];"


def quoted(*lines: str) -> str:
    """A text of several lines as a string of DOT."""
    escaped = (line.replace("\\", "\\\\").replace('"', '\\"') for line in lines)
    return '"' + "\\n".join(escaped) + '"'


def dashed(tests: int) -> str:
    """The attribute of what these tests reach or cross."""
    return "" if tests else ", style=dashed"
