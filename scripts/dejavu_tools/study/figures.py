"""What the study found, as figures: all that its tables and its plots are made of, and the file that keeps them."""
from __future__ import annotations

import json
from dataclasses import dataclass, field
from hashlib import sha256
from pathlib import Path
from typing import Any, Dict, List, Mapping, Sequence

from ..errors import ToolError
from ..files import read_file
from .choices import ALL, FUNCTIONS, LINES, SELECT

FORMAT = "dejavu study 1"
CHOICES = (ALL, FUNCTIONS, LINES, SELECT)
COMMANDS = ("adopt", "record", "select")

BY_HAND = "by hand"  # the kind of a change that no operator made
UNCOMPILED, UNADOPTED, UNACCEPTED = "gcc refuses it", "`adopt` refuses it", "`record` refuses it"
REFUSALS = (UNCOMPILED, UNADOPTED, UNACCEPTED)


@dataclass(frozen=True)
class Cost:
    """The processor time of commands, in microseconds."""

    user: int = 0
    system: int = 0

    def __add__(self, other: "Cost") -> "Cost":
        return Cost(self.user + other.user, self.system + other.system)

    @property
    def milliseconds(self) -> float:
        """User time and system time together."""
        return (self.user + self.system) / 1000


@dataclass(frozen=True)
class Program:
    """A program before its changes."""

    name: str
    tests: int
    built: Cost  # of a build by gcc
    ran: Cost  # of this build's runs of all tests


@dataclass(frozen=True)
class Result:
    """What was found of a change. Where `refused` says why it isn't measured, the rest is empty."""

    program: str
    change: str
    kind: str  # an operator of `mutants`, or `BY_HAND`
    refused: str = ""
    is_inside: bool = False  # whether all that changes is in functions
    differ: int = 0  # tests
    run: Mapping[str, int] = field(default_factory=dict)  # how many tests each choice runs again
    missed: Mapping[str, int] = field(default_factory=dict)  # how many that differ each choice leaves
    costs: Mapping[str, Cost] = field(default_factory=dict)  # of each of `COMMANDS`


@dataclass(frozen=True)
class Figures:
    """All programs, and what was found of each change."""

    programs: Sequence[Program]
    results: Sequence[Result]

    @property
    def measured(self) -> List[Result]:
        """The changes that no tool refused."""
        return [it for it in self.results if not it.refused]

    def of_programs(self) -> Dict[str, List[Result]]:
        """The measured changes of each program, by its name."""
        return {program.name: [it for it in self.measured if it.program == program.name] for program in self.programs}


# ---- sums over changes


def tests_in(group: Sequence[Result]) -> int:
    """How many tests there are, counted once for each change."""
    return run_in(group, ALL)


def run_in(group: Sequence[Result], choice: str) -> int:
    """How many of them a choice runs again."""
    return sum(it.run[choice] for it in group)


def differ_in(group: Sequence[Result]) -> int:
    """How many of them differ."""
    return sum(it.differ for it in group)


def missed_in(group: Sequence[Result], choice: str) -> int:
    """How many of them differ and are left by a choice."""
    return sum(it.missed[choice] for it in group)


# ---- the file


def figures_text(figures: Figures) -> bytes:
    """The file of these figures: JSON, with a line for each program and each change."""
    parts = (("programs", map(program_in_json, figures.programs)), ("changes", map(result_in_json, figures.results)))
    lists = [f'"{name}": [\n' + ",\n".join(map(json.dumps, rows)) + "\n]" for name, rows in parts]
    head = f'"format": {json.dumps(FORMAT)},\n"choices": {json.dumps(CHOICES)}'
    return ("{" + ",\n".join([head, *lists]) + "}\n").encode("ascii")


def sum_of(figures: Figures) -> str:
    """The SHA-256 of the file of these figures, in hexadecimal."""
    return sha256(figures_text(figures)).hexdigest()


def program_in_json(program: Program) -> Dict[str, object]:
    """A program; costs are user time and system time in microseconds."""
    return {
        "program": program.name, "tests": program.tests,
        "built": cost_in_json(program.built), "ran": cost_in_json(program.ran),
    }


def result_in_json(result: Result) -> Dict[str, object]:
    """A change; what each choice runs and misses stands in the order of `CHOICES`."""
    told: Dict[str, object] = {"program": result.program, "kind": result.kind, "change": result.change}
    if result.refused:
        return {**told, "refused": result.refused}
    return {
        **told, "inside": result.is_inside, "differ": result.differ,
        "run": [result.run[it] for it in CHOICES], "missed": [result.missed[it] for it in CHOICES],
        **{command: cost_in_json(result.costs[command]) for command in COMMANDS},
    }


def cost_in_json(cost: Cost) -> List[int]:
    """User time and system time."""
    return [cost.user, cost.system]


def read_figures(path: Path) -> Figures:
    """The figures that a file has; a `ToolError` where it can't be read, or where it isn't one of `figures_text`."""
    data = read_file(path)
    try:
        told = json.loads(data)
        programs = [Program(it["program"], it["tests"], Cost(*it["built"]), Cost(*it["ran"])) for it in told["programs"]]
        figures = Figures(programs, [result_of(it) for it in told["changes"]])
        if figures_text(figures) == data:
            return figures
    except (ValueError, LookupError, TypeError, AttributeError):
        pass  # which is told below
    raise ToolError(f"{path}: this isn't what `study --json` writes")


def result_of(told: Mapping[str, Any]) -> Result:
    """The change of a line."""
    names = told["program"], told["change"], told["kind"]
    if "refused" in told:
        return Result(*names, told["refused"])
    return Result(
        *names, is_inside=told["inside"], differ=told["differ"],
        run=dict(zip(CHOICES, told["run"])), missed=dict(zip(CHOICES, told["missed"])),
        costs={command: Cost(*told[command]) for command in COMMANDS},
    )
