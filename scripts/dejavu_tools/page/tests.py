"""The tables of all tests."""
from __future__ import annotations

from typing import AbstractSet, Dict, Iterator, List, Sequence

from ..change import Outcome
from ..compare import ADDED, CHANGED, LEFT, RUN, Compared
from .markup import code, counted, folded, link, listed, plain, row, shown, table
from .outputs import result, told_tests
from .sources import Crossing

MOST_ROWS = 1_000  # of a table
MOST_NAMES = 4_000  # of a list
MOST_EDGES = 8  # of a test
MOST_INPUT = 40  # bytes

HEADS = ("Test", "Result", "Dangerous edges", "Input", "Status now", "Turns")

LISTS = ((LEFT, "left: they crossed no dangerous edge"), (ADDED, "added to the suite, which ran for the first time"),
         (CHANGED, "changed in the suite, which ran for the first time"))


def section(outcome: Outcome, crossing: Crossing) -> Iterator[str]:
    """The tests that run again, those that are left, and those that only one suite has."""
    told = {test.name for test in told_tests(outcome)}
    yield run_table(outcome, crossing, told)
    for choice, what in LISTS:
        tests = [test for test in outcome.tests if test.choice == choice]
        if tests:
            yield names(f"{counted(len(tests), 'test')} {what}", [name_item(test.name, told) for test in tests])
    removed = outcome.parts.removed
    if removed:
        items = [f"<li>{shown(test.name)}</li>" for test in removed]
        yield names(f"{counted(len(removed), 'test')} removed from the suite", items)


def run_table(outcome: Outcome, crossing: Crossing, told: AbstractSet[str]) -> str:
    """The tests that run again."""
    tests = [test for test in outcome.tests if test.choice == RUN]
    if not tests:
        return "<p>No test runs again.</p>"
    edges: Dict[str, List[int]] = {}
    for number, crossed_by in crossing.items():
        for name in crossed_by:
            edges.setdefault(name, []).append(number)
    rows = [run_row(test, edges[test.name], told) for test in tests[:MOST_ROWS]]
    differing = sum(test.differs for test in tests)
    summary = f"{counted(len(tests), 'test')} run again, of which {differing:,} differ{'s' if differing == 1 else ''}"
    return folded(summary, table(HEADS, rows, "tests", "The tests that run again") + rest(len(tests), MOST_ROWS))


def run_row(test: Compared, edges: Sequence[int], told: AbstractSet[str]) -> str:
    """A test that runs again."""
    links = [link(f"edge-{number}", str(number)) for number in edges]
    data, before, now = test.now.test.input, test.before.turns, test.now.turns
    given = f"{code(data[:MOST_INPUT])}{'&hellip;' if len(data) > MOST_INPUT else ''}" if data else "none"
    turns = f"{now:,}" if before == now else f"{before:,} to {now:,}"
    cells = result(test), listed(links, MOST_EDGES), given, shown(test.now.status), turns
    if test.name in told:
        return row(link(f"test-{test.name}", shown(test.name)), *cells)
    return row(shown(test.name), *cells, name=f"test-{test.name}")


def names(summary: str, items: Sequence[str]) -> str:
    """A list of tests by their names."""
    return folded(summary, f'<ul class="names">{"".join(items[:MOST_NAMES])}</ul>{rest(len(items), MOST_NAMES)}')


def name_item(name: str, told: AbstractSet[str]) -> str:
    """The name of a test, as a link where it is told in full."""
    if name in told:
        return f"<li>{link(f'test-{name}', shown(name))}</li>"
    return f'<li id="test-{plain(name)}">{shown(name)}</li>'


def rest(count: int, most: int) -> str:
    """How many tests there are beside those that are shown."""
    return f"<p>{counted(count - most, 'more test')}.</p>" if count > most else ""
