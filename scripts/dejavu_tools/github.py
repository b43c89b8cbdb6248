"""What a change does, told to GitHub: annotations of the sources, and a summary of the step."""
from __future__ import annotations

from typing import Iterator, List, Tuple

from .change import Outcome
from .compare import Compared
from .console import readable
from .reports import difference, headline, suite_lines, summary
from .walks import Explanation

MOST_ANNOTATIONS = 10  # so many of a kind GitHub shows of a step
MOST_NAMED = 10  # tests in an annotation
MOST_TOLD = 20  # tests whose differences the summary shows
MOST_LINES = 60  # of a test's difference in the summary
MOST_COLUMNS = 200  # of such a line


def annotations(outcome: Outcome) -> Iterator[str]:
    """A line for each dangerous edge for which tests are selected: where the new version goes on otherwise, and else
    where the edge begins in the old one."""
    for why in outcome.explained[:MOST_ANNOTATIONS]:
        edge = why.edge
        tests = [test for test in outcome.tests if test.edge == edge.number]
        kind = "error" if any(test.is_wrong and test.differs for test in tests) else "notice"
        file, line, column = place_of(outcome, why)
        told = first([headline(test) for test in tests if test.differs], MOST_NAMED) or ["none of them differs"]
        counted = f"{len(tests)} test{'' if len(tests) == 1 else 's'} crossed edge {edge.number} of {edge.function}"
        message = "\n".join((f"{counted}:", *told))
        yield (f"::{kind} file={value_of(file)},line={line},col={column},title=a change that tests reach::"
               f"{data_of(message)}")


def first(lines: List[str], most: int) -> List[str]:
    """The first of these lines, and how many more there are."""
    return lines if len(lines) <= most else [*lines[:most], f".. {len(lines) - most:,} more"]


def place_of(outcome: Outcome, why: Explanation) -> Tuple[str, int, int]:
    """The file, the line and the column that an edge is told at."""
    side = outcome.new if why.new else outcome.old
    file, line, column = side.unit.origin(*(why.new or why.edge.place))
    return side.version.inside(file), line, column


def data_of(text: str) -> str:
    """A message in GitHub's form."""
    return text.replace("%", "%25").replace("\r", "%0D").replace("\n", "%0A")


def value_of(text: str) -> str:
    """The value of a property in GitHub's form."""
    return data_of(text).replace(":", "%3A").replace(",", "%2C")


def step_summary(outcome: Outcome) -> bytes:
    """The outcome in Markdown."""
    lines = [f"### dejavu: {summary(outcome)}", ""]
    if outcome.recorded:
        lines += [readable(f"{outcome.old.version.name} was recorded: {outcome.recorded}"), ""]
    lines += [line for told in suite_lines(outcome) for line in (told, "")]
    told = [test for test in outcome.tests if test.fails or test.differs]
    for test in told[:MOST_TOLD]:
        lines += section(test)
    if len(told) > MOST_TOLD:
        lines += [f"and {len(told) - MOST_TOLD:,} more tests", ""]
    return "\n".join(lines).encode("utf-8")


def section(test: Compared) -> List[str]:
    """A test's difference, folded."""
    lines = [line if len(line) <= MOST_COLUMNS else f"{line[:MOST_COLUMNS]}.." for line in difference(test)]
    shown = first(lines, MOST_LINES)
    fence = "```"
    while any(fence in line for line in shown):
        fence += "`"
    return [f"<details><summary>{headline(test)}</summary>", "", f"{fence}diff", *shown, fence, "</details>", ""]
