"""The choices of tests that are compared, and what of a change and of a coverage they go by."""
from __future__ import annotations

from dataclasses import dataclass
from difflib import SequenceMatcher
from typing import Dict, FrozenSet, Iterator, List, Mapping, Sequence, Tuple

ALL, FUNCTIONS, LINES, SELECT = "all tests", "changed functions", "changed lines", "`select`"

Line = Tuple[str, int]  # the name of a file, and a line of it from 1


@dataclass(frozen=True)
class Span:
    """Lines of an old file that a change replaces or takes away; where `last` is `first` - 1, it adds lines there."""

    file: str
    first: int  # from 1
    last: int

    @property
    def lines(self) -> List[Line]:
        """The changed lines; where lines are only added, the one before them and the one behind them."""
        first, last = (self.first, self.last) if self.last >= self.first else (self.last, self.first)
        return [(self.file, line) for line in range(first, last + 1)]


@dataclass(frozen=True)
class Function:
    """A function of an old file, from the line of its name to that of its last brace."""

    file: str
    name: str
    first: int  # from 1
    last: int

    def has(self, span: Span) -> bool:
        """Whether the change of these lines changes its text."""
        if span.file != self.file:
            return False
        if span.last < span.first:
            return self.first <= span.last and span.first <= self.last
        return span.first <= self.last and self.first <= span.last


@dataclass(frozen=True)
class Covered:
    """What a test covers of the old files, by gcov."""

    functions: FrozenSet[Function]  # that it enters
    lines: FrozenSet[Line]  # that it crosses


def spans_of(old: Mapping[str, str], new: Mapping[str, str]) -> List[Span]:
    """What changes from these files to those, by their names; a file that isn't there is like an empty one."""
    names = sorted({*old, *new})
    return [span for name in names for span in spans_of_file(name, old.get(name, ""), new.get(name, ""))]


def spans_of_file(name: str, old: str, new: str) -> Iterator[Span]:
    """The same of one file."""
    if old != new:
        for word, first, last, _, _ in SequenceMatcher(None, old.split("\n"), new.split("\n"), False).get_opcodes():
            if word != "equal":
                yield Span(name, first + 1, last)


def is_inside(spans: Sequence[Span], functions: Sequence[Function]) -> bool:
    """Whether all that changes is in functions."""
    return all(any(function.has(span) for function in functions) for span in spans)


def by_functions(spans: Sequence[Span], covered: Mapping[str, Covered]) -> FrozenSet[str]:
    """The tests that enter a function whose text changes."""
    return frozenset(
        test for test, it in covered.items() if any(function.has(span) for function in it.functions for span in spans)
    )


def by_lines(spans: Sequence[Span], covered: Mapping[str, Covered]) -> FrozenSet[str]:
    """The tests that cross a changed line."""
    changed = {line for span in spans for line in span.lines}
    return frozenset(test for test, it in covered.items() if not changed.isdisjoint(it.lines))


def by_select(text: str) -> FrozenSet[str]:
    """The tests that a text of `dejavu select` names."""
    return frozenset(line.split()[1] for line in text.splitlines() if line.startswith("run "))


def choices_of(spans: Sequence[Span], covered: Mapping[str, Covered], selection: str) -> Dict[str, FrozenSet[str]]:
    """What each of the choices runs again."""
    return {
        ALL: frozenset(covered),
        FUNCTIONS: by_functions(spans, covered),
        LINES: by_lines(spans, covered),
        SELECT: by_select(selection),
    }
