"""How the walk comes to each place at which the versions part."""
from __future__ import annotations

from typing import Callable, Iterator, List

from ..change import Outcome
from ..walks import CALL, OVER, STEP, Explanation, Fact
from .markup import counted, folded, link, listed, row, shown, table
from .places import Places

MOST_EDGES = 40  # that are explained
FIRST_STEPS, LAST_STEPS = 10, 50  # of a long way, which are shown


def section(outcome: Outcome, old: Places, new: Places) -> Iterator[str]:
    """The way to each of the edges that are explained."""
    if not outcome.explained:
        yield "<p>No test is selected.</p>"
        return
    selected = {test.edge for test in outcome.tests if test.edge is not None}
    yield "<p>At each step both versions stand at equal statements. Behind the last one they may part.</p>"
    if old.coverage is None:
        yield "<p>Points are told by their numbers, as the program <code>points</code> isn't there.</p>"
    for why in outcome.explained:
        yield way(outcome, why, old, new, len(outcome.explained) == 1)
    more = len(selected) - len(outcome.explained)
    if more > 0:
        yield f"<p>{counted(more, 'more edge')} for which tests are selected can be had by <code>explain</code>.</p>"


def way(outcome: Outcome, why: Explanation, old: Places, new: Places, is_open: bool) -> str:
    """The way to an edge."""
    edge = why.edge
    tests = [test for test in outcome.tests if test.edge == edge.number]
    differing = sum(test.differs for test in tests)
    told = f"{counted(len(tests), 'test')} selected, {differing:,} {'differs' if differing == 1 else 'differ'}"
    where = f"<code>{edge.exit}</code> of {shown(edge.function)} at {old.text(edge.place)}"
    summary = f"Edge {edge.number} {where}: {told}; {counted(len(why.facts), 'step')}"
    name = f"way-{edge.number}"
    rows = step_rows(why.facts, name, old, new)
    heads = ("Step", "Function", "Old version", "New version", "Reached")
    steps = table(heads, rows, "steps", f"The steps to edge {edge.number}")
    links = listed([link(f"test-{test.name}", shown(test.name)) for test in tests])
    return folded(summary, f"{steps}<p>{parting(why, name, old, new)}</p><p>Tests: {links}.</p>", name, is_open)


def step_rows(facts: List[Fact], name: str, old: Places, new: Places) -> Iterator[str]:
    """The rows of the steps; of a long way those at its beginning and its end."""
    hidden = range(FIRST_STEPS + 1, max(FIRST_STEPS, len(facts) - LAST_STEPS) + 1)

    def step(number: int) -> str:
        """The number of a step, as a link where it is shown."""
        return str(number) if number in hidden else link(f"{name}-{number}", str(number))

    for number, fact in enumerate(facts, 1):
        if number not in hidden:
            cells = shown(fact.function), old.told(fact.old), new.told(fact.new), reason(fact, step)
            yield row(str(number), *cells, name=f"{name}-{number}")
        elif number == hidden.start:
            between = f"{counted(len(hidden), 'step')} between, which <code>explain</code> has"
            yield f'<tr><td colspan="5">{between}</td></tr>'


def reason(fact: Fact, step: Callable[[int], str]) -> str:
    """How a step is reached; `step` shows the number of one."""
    if fact.kind == STEP:
        return f"along <code>{fact.exit}</code> from {step(fact.source)}"
    if fact.kind == CALL:
        return f"called at {step(fact.source)}"
    if fact.kind == OVER:
        return f"behind the call at {step(fact.source)}, whose callee ended at {step(fact.end)}"
    return "both versions begin here"


def parting(why: Explanation, name: str, old: Places, new: Places) -> str:
    """How the versions part behind the last step."""
    where = f"At step {link(f'{name}-{why.last}', str(why.last))}"
    if why.end:
        end = link(f"{name}-{why.end}", str(why.end))
        where = f"Behind the call at step {link(f'{name}-{why.last}', str(why.last))}, whose callee ended at {end},"
    goes_on = f"the new one goes on at {new.link(why.new)}" if why.new else "the new one has no such way out"
    edge = why.edge
    leaves = f"{link(f'edge-{edge.number}', f'edge {edge.number}')} at {old.link(edge.place)}"
    return f"{where} the old version takes <code>{edge.exit}</code>, {leaves}; {goes_on}."
