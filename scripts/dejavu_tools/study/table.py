"""What the study found, as tables in Markdown."""
from __future__ import annotations

from fractions import Fraction
from statistics import median
from typing import Dict, Iterable, List, Mapping, Optional, Sequence

from .choices import SELECT
from .figures import (
    BY_HAND, CHOICES, COMMANDS, REFUSALS, Cost, Figures, Program, Result, differ_in, missed_in, run_in, tests_in,
)

TOGETHER = "together"


def tables(figures: Figures) -> List[str]:
    """The lines of all tables, each behind its heading."""
    measured = figures.measured
    kinds = [*sorted({it.kind for it in measured} - {BY_HAND}), BY_HAND]
    parts = [
        ("The choices", summary(measured)),
        ("By program", counted("Program", figures.of_programs())),
        ("By kind of change", counted("Kind", {kind: [it for it in measured if it.kind == kind] for kind in kinds})),
        ("By place", counted("The change is", {
            "in functions alone": [it for it in measured if it.is_inside],
            "elsewhere too": [it for it in measured if not it.is_inside],
        })),
        ("Changes that were left out", left_out(figures)),
        ("Costs", costs(figures)),
    ]
    return [line for title, lines in parts for line in [f"### {title}", "", *lines, ""]][:-1]


def markdown(head: Sequence[str], rows: Iterable[Sequence[object]]) -> List[str]:
    """A table; its first column is one of words."""
    lines = [head, ["---", *["---:"] * (len(head) - 1)], *rows]
    return [f"| {' | '.join(map(str, line))} |" for line in lines]


def summary(measured: Sequence[Result]) -> List[str]:
    """What each choice does over all changes."""
    tests, differ = tests_in(measured), differ_in(measured)
    rows = []
    for choice in CHOICES:
        chosen, missed = run_in(measured, choice), missed_in(measured, choice)
        idle = tests - differ  # tests that do the same on both versions, of which some may be chosen
        rows.append([
            choice, grouped(chosen), share(chosen, tests), grouped(missed),
            sum(bool(it.missed[choice]) for it in measured),
            share(differ - missed, differ), share(idle - (chosen - (differ - missed)), idle),
        ])
    head = ["Choice", "Tests run again", "of all", "Missed", "Changes with a miss", "Inclusiveness", "Precision"]
    return markdown(head, rows)


def with_all(groups: Mapping[str, Sequence[Result]]) -> Dict[str, Sequence[Result]]:
    """Groups of changes, and all of them together behind them."""
    return {**groups, TOGETHER: [it for group in groups.values() for it in group]}


def counted(name: str, groups: Mapping[str, Sequence[Result]]) -> List[str]:
    """How many tests each choice runs again, and misses, over groups of changes, and over all of them."""
    narrow = CHOICES[1:]
    head = [name, "Changes", "Tests", "Differ", *(word for it in narrow for word in (it, "missed"))]
    rows = []
    for title, group in with_all(groups).items():
        cells = [cell for it in narrow for cell in (run_in(group, it), missed_in(group, it))]
        rows.append([title, *map(grouped, [len(group), tests_in(group), differ_in(group), *cells])])
    return markdown(head, rows)


def left_out(figures: Figures) -> List[str]:
    """How many changes of each program weren't measured, and why."""
    rows = []
    for program in figures.programs:
        mine = [it.refused for it in figures.results if it.program == program.name]
        rows.append([program.name, len(mine), mine.count(""), *(mine.count(why) for why in REFUSALS)])
    rows.append([TOGETHER, *(sum(column) for column in list(zip(*rows))[1:])])
    return markdown(["Program", "Changes made", "Measured", *REFUSALS], rows)


def costs(figures: Figures) -> List[str]:
    """The processor time that each step takes, where those of a change are medians, and from when a selection pays."""
    rows = []
    for program in figures.programs:
        mine = figures.of_programs()[program.name]
        steps = [program.built, program.ran, *(median_cost(mine, command) for command in COMMANDS)]
        pays = break_even(mine)
        rows.append([
            program.name, program.tests, *map(in_milliseconds, steps), "never" if pays is None else f"{pays:,.1f}",
        ])
    head = ["Program", "Tests", "gcc builds it", "its build runs all tests", *(f"`{it}`" for it in COMMANDS), "pays from"]
    return markdown(head, rows)


# ---- numbers


def grouped(number: int) -> str:
    """A number with commas."""
    return f"{number:,}"


def share(part: int, whole: int) -> str:
    """A part in percent of the whole, cut and not rounded up, so that only all is 100."""
    return f"{1000 * part // whole / 10:.1f} %" if whole else "-"


def median_cost(group: Sequence[Result], command: str) -> Cost:
    """The medians of a command's user time and system time. A mutant without an end has no weight as in a mean."""
    parts = [it.costs[command] for it in group]
    return Cost(*(round(median([getattr(it, name) for it in parts] or [0])) for name in ("user", "system")))


def break_even(group: Sequence[Result]) -> Optional[float]:
    """How many milliseconds all tests have to take for a selection to cost no more; none where it runs all again.

    It costs `adopt`, `select` and `record`, which is no less than `carry` takes for the next history, and the share of
    the tests that `select` runs again.
    """
    left = tests_in(group) - run_in(group, SELECT)
    whole = sum((median_cost(group, command) for command in COMMANDS), Cost())
    return float(whole.milliseconds * Fraction(tests_in(group), left)) if left else None


def in_milliseconds(cost: Cost) -> str:
    """User time and system time."""
    return f"{cost.user / 1000:.1f} + {cost.system / 1000:.1f}"
