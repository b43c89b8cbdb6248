"""The histories of two versions, test by test."""
from __future__ import annotations

from dataclasses import dataclass
from typing import List, Mapping, Optional, Sequence, Tuple

from .formats import Entry, History, Test
from .suites import Verdict

LEFT, RUN, ADDED, CHANGED = "left", "run", "added", "changed"


@dataclass(frozen=True)
class Compared:
    """A test of the new version's suite, and what became of it."""

    choice: str  # left or run, as `select` says; or the old suite has no such test, or another one of its name
    edge: Optional[int]  # for which it is selected
    before: Optional[Entry]  # on the old version; none where the test wasn't in its suite
    now: Entry
    verdict: Verdict  # whether it does what is expected

    @property
    def name(self) -> str:
        """The name of the test."""
        return self.now.test.name

    @property
    def differs(self) -> bool:
        """Whether its output or its status is another than before. Its number of turns alone makes no difference."""
        before, now = self.before, self.now
        return before is not None and (before.output, before.status) != (now.output, now.status)

    @property
    def fails(self) -> bool:
        """Whether it does otherwise than expected."""
        return self.verdict.kind == "fail"

    @property
    def is_wrong(self) -> bool:
        """Whether it does otherwise than expected, or, where nothing is expected, than before."""
        return self.fails or self.verdict.kind == "none" and self.differs

    @property
    def reference(self) -> Optional[Tuple[str, bytes, str]]:
        """What it is held against, if there is anything: what that is, an output and a status."""
        if self.fails or self.before is None:
            expected = self.verdict.expected
            return ("expected", expected.output, expected.status) if expected else None
        return "recorded", self.before.output, self.before.status


@dataclass(frozen=True)
class Parts:
    """The tests of two suites, by what is done with them. They have the order of their suites."""

    same: List[Test]
    added: List[Test]
    changed: List[Test]  # those of the new suite
    removed: List[Test]


def parts_of(old: Sequence[Test], new: Sequence[Test]) -> Parts:
    """The tests of an old suite and a new one: a test is the same where its name, its budget and its input are."""
    before = {test.name: test for test in old}
    names = {test.name for test in new}
    return Parts(
        same=[test for test in new if before.get(test.name) == test],
        added=[test for test in new if test.name not in before],
        changed=[test for test in new if test.name in before and before[test.name] != test],
        removed=[test for test in old if test.name not in names],
    )


def compared(
    before: History, now: History, choices: Mapping[str, Optional[int]], parts: Parts, verdicts: Sequence[Verdict]
) -> List[Compared]:
    """What became of each test of the new suite.

    `before` and `choices` are of the tests that both suites have, `now` and `verdicts` of the new suite.
    """
    entries = {entry.test.name: entry for entry in before.entries}
    changed = {test.name for test in parts.changed}
    found = []
    for entry, verdict in zip(now.entries, verdicts):
        name = entry.test.name
        edge = choices.get(name)
        if name in entries:
            choice = LEFT if edge is None else RUN
        else:
            choice = CHANGED if name in changed else ADDED
        found.append(Compared(choice, edge, entries.get(name), entry, verdict))
    return found
