"""The page of a change, made of its sections."""
from __future__ import annotations

from pathlib import Path
from typing import Iterator, Optional

from ..change import Looks, Outcome
from ..reports import suite_lines, summary
from . import outputs, sources, steps, tests
from .markup import counted, link, plain, shown
from .places import NEW, OLD, Places

STYLE = Path(__file__).with_name("style.css")

POINTS = Path("crates/points/out/points")  # in the repository, where `rt run` writes it

SECTIONS = (("sources", "What the change does to the sources"), ("outputs", "Tests that differ or fail"),
            ("ways", "How the walk comes to where the versions part"), ("tests", "All tests"))


def looks(top: Path, points: Optional[Path]) -> Looks:
    """What has to be looked for, so that a page can be made of the outcome.

    Where no program `points` is named, it is the one of the repository whose folder is `top`, if it is there.
    """
    built = top / POINTS
    program = points or (built if built.is_file() else None)
    return Looks(steps.MOST_EDGES, True, program.absolute() if program else None)


def page(outcome: Outcome) -> bytes:
    """The page of an outcome that has its traces; a `ToolError` where a file of a version can't be read."""
    return "\n".join(parts(outcome)).encode("utf-8") + b"\n"


def parts(outcome: Outcome) -> Iterator[str]:
    """The pieces of the page."""
    old = Places(OLD, outcome.old, outcome.traces.old)
    new = Places(NEW, outcome.new, outcome.traces.new)
    title = f"{outcome.old.version.name} to {outcome.new.version.name}"
    yield '<!DOCTYPE html>\n<html lang="en"><head><meta charset="utf-8">'
    yield '<meta name="viewport" content="width=device-width, initial-scale=1">'
    yield "<meta http-equiv=\"Content-Security-Policy\" content=\"default-src 'none'; style-src 'unsafe-inline'\">"
    yield f"<title>{plain(title)}: {summary(outcome)}</title>"
    yield f"<style>{STYLE.read_text(encoding='ascii')}</style></head><body>"
    yield f"<header><h1>{shown(title)}</h1>"
    yield from overview(outcome, old, new)
    links = "".join(f"<li>{link(name, heading)}</li>" for name, heading in SECTIONS)
    yield f"<nav><ul>{links}</ul></nav></header><main>"
    crossing = sources.crossings(outcome)
    made = (sources.section(outcome, crossing, old, new), outputs.section(outcome), steps.section(outcome, old, new),
            tests.section(outcome, crossing))
    for (name, heading), content in zip(SECTIONS, made):
        yield f'<section aria-labelledby="{name}"><h2 id="{name}">{heading}</h2>'
        yield from content
        yield "</section>"
    yield "</main></body></html>"


def overview(outcome: Outcome, old: Places, new: Places) -> Iterator[str]:
    """What there is to know first."""
    walk = outcome.traces.walk
    yield f"<p><strong>{summary(outcome)}.</strong></p>"
    if outcome.recorded:
        yield f"<p>{shown(outcome.old.version.name)} was recorded: {shown(outcome.recorded)}</p>"
    yield from (f"<p>{shown(line)}</p>" for line in suite_lines(outcome))
    yield (f"<p>{len(walk.edges):,} of {counted(walk.count, 'edge')} of the old version are dangerous: behind them the"
           f" new one may go on otherwise. Both versions reach {counted(walk.pairs, 'pair')} of points together.</p>")
    if old.coverage and new.coverage:
        yield f"<p>The tests {reached(old)} of the old version, and {reached(new)} of the new one.</p>"


def reached(places: Places) -> str:
    """What the tests reach of a version."""
    lines, every = places.reached
    edges = places.coverage.crossed
    crossed = sum(map(bool, edges))
    return f"reach {lines:,} of {counted(every, 'line')} and cross {crossed:,} of {counted(len(edges), 'edge')}"
