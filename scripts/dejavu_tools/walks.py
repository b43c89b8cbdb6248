"""What `walk` and `explain` write (docs/formats.md), read."""
from __future__ import annotations

import re
from typing import Dict, List, NamedTuple, Optional, Sequence, Tuple

from .errors import ToolError

NUMBER = r"(\d{1,9})"
PLACE = rf"{NUMBER}:{NUMBER}"
EXIT = r"(next|true|false|case -?\d{1,10}|default)"

EDGE = re.compile(rf"edge {NUMBER} (\S+) {PLACE} {EXIT}", re.ASCII)
DANGEROUS = re.compile(rf"dangerous {NUMBER} of {NUMBER}", re.ASCII)
PAIRS = re.compile(rf"pairs {NUMBER}", re.ASCII)
CHOICE = re.compile(rf"left ([\w.-]+)|run ([\w.-]+) edge {NUMBER}", re.ASCII)
FACT = re.compile(
    rf"{NUMBER} (\S+) {NUMBER} {NUMBER} (?:start|step {NUMBER} {EXIT}|call {NUMBER}|over {NUMBER} {NUMBER})", re.ASCII
)
DANGER = re.compile(rf"danger {NUMBER} (?:{NUMBER} )?{EXIT} (?:{PLACE}|none)", re.ASCII)

START, STEP, CALL, OVER = "start", "step", "call", "over"


class Edge(NamedTuple):
    """An edge of the old version."""

    number: int
    function: str
    place: Tuple[int, int]  # line and column of the point that it leaves, in the old unit
    exit: str  # `next`, `true`, `false`, `case V` or `default`


class Walk(NamedTuple):
    """Where two versions part."""

    edges: Dict[int, Edge]  # the dangerous ones by their numbers
    count: int  # of all edges
    pairs: int


class Fact(NamedTuple):
    """An old point and a new one that are reached together, and why."""

    function: str
    old: int
    new: int
    kind: str  # `start`, `step`, `call` or `over`
    source: int  # the number of the fact from which it follows, from 1; 0 for `start`
    exit: str  # of a step
    end: int  # for `over` the number of the fact at which the callee ends


class Explanation(NamedTuple):
    """Why the tests that crossed a dangerous edge have to run again."""

    edge: Edge
    facts: List[Fact]
    last: int  # the number of the fact, from 1, at which the versions part
    end: int  # where the edge leaves a call, that of the fact at which the callee ends; else 0
    new: Optional[Tuple[int, int]]  # where the new version goes on, in its unit; none where it has no such way out


def read_choice(line: str) -> Tuple[str, Optional[int]]:
    """A test of a selection, and the edge for which it is selected; none where it is left."""
    left, run, edge = taken(CHOICE, line, "select")
    return left or run, int(edge) if run else None


def read_walk(lines: Sequence[str]) -> Walk:
    """What the lines of `walk` tell; a `ToolError` where they have another form."""
    *edges, dangerous, pairs = ["", "", *lines][-max(2, len(lines)):]
    count = taken(DANGEROUS, dangerous, "walk")[1]
    found = (read_edge(line, "walk") for line in edges)
    return Walk({edge.number: edge for edge in found}, int(count), int(taken(PAIRS, pairs, "walk")[0]))


def read_edge(line: str, command: str) -> Edge:
    """The edge of a line."""
    number, function, row, column, way = taken(EDGE, line, command)
    return Edge(int(number), function, (int(row), int(column)), way)


def read_explanation(lines: Sequence[str]) -> Explanation:
    """What the lines of `explain` tell of a selected test; a `ToolError` where they have another form."""
    if len(lines) < 3:
        raise ToolError("explain wrote too few lines")
    _, edge, *told, danger = lines
    facts = [read_fact(line, number) for number, line in enumerate(told, 1)]
    last, end, _, row, column = taken(DANGER, danger, "explain")
    if not 0 < int(last) <= len(facts) or int(end or 0) > len(facts):
        raise unknown(danger, "explain")
    new = (int(row), int(column)) if row else None
    return Explanation(read_edge(edge, "explain"), facts, int(last), int(end or 0), new)


def read_fact(line: str, number: int) -> Fact:
    """The fact of a line, which has this number and follows from earlier ones."""
    found, function, old, new, step, way, call, over, end = taken(FACT, line, "explain")
    kind = STEP if step else CALL if call else OVER if over else START
    fact = Fact(function, int(old), int(new), kind, int(step or call or over or 0), way or "", int(end or 0))
    if int(found) != number or max(fact.source, fact.end) >= number:
        raise unknown(line, "explain")
    return fact


def taken(form: re.Pattern[str], line: str, command: str) -> Tuple[str, ...]:
    """The parts of a line that the program wrote; a `ToolError` where it has another form."""
    found = form.fullmatch(line)
    if not found:
        raise unknown(line, command)
    return found.groups()


def unknown(line: str, command: str) -> ToolError:
    """What is told of a line that has none of its forms."""
    return ToolError(f"{command} wrote a line that isn't known: {line[:100]}")
