"""What a change does to the tests: the histories of two versions, of which the new one runs what it must."""
from __future__ import annotations

from dataclasses import dataclass
from hashlib import sha256
from pathlib import Path
from typing import Dict, List, NamedTuple, Optional, Tuple

from .compare import RUN, Compared, Parts, compared, parts_of
from .errors import ToolError
from .files import check_folder, read_file
from .formats import History, history_text, read_history
from .histories import NoHistory, joined, keep, limited, read_kept
from .listing import Coverage, check_points, coverage_of
from .revisions import Version, told_of, version_of
from .runs import Runs
from .settings import read_settings, settings_of
from .sides import Side, Unit, side_of
from .steps import Steps
from .suites import Verdict, verdicts
from .walks import Explanation, Walk


class Looks(NamedTuple):
    """What is looked for beside the tests."""

    edges: int = 0  # how many dangerous edges are explained at most
    traces: bool = False
    points: Optional[Path] = None  # the program that lists points


@dataclass(frozen=True)
class Traces:
    """Where two versions part, and what the tests reach in each; that is none without a list of points."""

    walk: Walk
    old: Optional[Coverage]
    new: Optional[Coverage]


@dataclass(frozen=True)
class Outcome:
    """What a change does."""

    old: Side
    new: Side
    recorded: str  # why the old version's tests were recorded; empty where a history of it was kept
    parts: Parts
    tests: List[Compared]  # in the order of the new suite
    explained: List[Explanation]  # of dangerous edges for which tests are selected, those first whose tests differ
    traces: Optional[Traces]  # where they were looked for

    @property
    def run(self) -> int:
        """How many tests are selected."""
        return sum(test.choice == RUN for test in self.tests)

    @property
    def differing(self) -> int:
        """How many tests do otherwise than on the old version."""
        return sum(test.differs for test in self.tests)

    @property
    def failing(self) -> int:
        """How many tests do otherwise than expected."""
        return sum(test.fails for test in self.tests)

    @property
    def is_wrong(self) -> bool:
        """Whether a test does otherwise than expected, or, where nothing is expected, than on the old version."""
        return any(test.is_wrong for test in self.tests)


def outcome_of(names: Tuple[str, str], settings: Path, program: Path, scratch: Path, looks: Looks) -> Outcome:
    """What the change from one version to another does, by a file of settings.

    `scratch` is an empty folder. The new version's history is kept. Raises a `ToolError` for all that goes wrong.
    """
    given = read_settings(settings)
    folder = settings.parent / given.history
    check_folder(folder)
    steps = Steps("change", folder / "times.json")
    sides = []
    for name, role in zip(names, ("old", "new")):
        with steps.step("read", f"reading {name}"):
            version = version_of(name, settings.parent, scratch / role)
            with told_of(version):
                sides.append(side_of(version, settings.name, given, scratch / f"{role}.c"))
    with told_of(*(side.version for side in sides)):
        return Change(Runs(program, *sides, scratch), folder, steps).outcome(looks)


def outcome_of_files(
    sources: Tuple[Path, Path], path: Path, expected: Optional[Path], program: Path, scratch: Path, looks: Looks
) -> Outcome:
    """What the change from one source of the language to another does to the tests of a history of the first.

    `expected` is a folder that says what is expected of them, where there is one, and `scratch` an empty folder.
    Nothing is kept. Raises a `ToolError` for all that goes wrong.
    """
    history = read_history(path)
    sides = [file_side(source, path, history, expected) for source in sources]
    change = Change(Runs(program, *sides, scratch), scratch, Steps("report", scratch / "times.json"))
    try:
        change.begin(history)
    except NoHistory as error:
        raise ToolError(f"{path}: {error}") from error
    return change.told("", history, change.tried(), looks)


def file_side(source: Path, path: Path, history: History, expected: Optional[Path]) -> Side:
    """A source as a version, with the tests of a history that is in this file."""
    keys = {"sources": [str(source)], "suite": str(path), "adopt": False}
    settings = settings_of(str(source), {**keys, "expected": str(expected)} if expected else keys)
    unit = Unit(source, sha256(read_file(source)).hexdigest(), ())
    return Side(Version(str(source), Path(), Path(), False), settings, unit, [entry.test for entry in history.entries])


class Change:
    """A change of a program."""

    def __init__(self, runs: Runs, folder: Path, steps: Steps) -> None:
        self.runs, self.folder, self.steps = runs, folder, steps
        self.old, self.new = runs.old, runs.new
        self.parts = parts_of(self.old.tests, self.new.tests)

    def outcome(self, looks: Looks) -> Outcome:
        """What the change does; the new version's history is kept."""
        reason = ""
        try:
            before = read_kept(self.folder, self.old)
            self.begin(before)
        except NoHistory as error:
            reason = str(error)
            before = self.recorded()
            self.begin(before)
        now = self.tried()
        keep(self.folder, self.new, now)
        outcome = self.told(reason, before, now, looks)
        self.steps.keep()
        return outcome

    def begin(self, history: History) -> None:
        """Reads what the old version's history tells of the tests that both suites have, and which are selected."""
        self.before = limited(history, set(self.parts.same))
        self.history = self.runs.written("history", history_text(self.before))
        self.choices = self.runs.select(self.history)

    def told(self, reason: str, before: History, now: History, looks: Looks) -> Outcome:
        """What two histories tell of the change; `reason` says why the old one was recorded."""
        tests = compared(self.before, now, self.choices, self.parts, self.verdicts(now))
        explained = self.explained(tests, looks.edges) if looks.edges else []
        traces = self.traces(before, now, looks.points) if looks.traces else None
        return Outcome(self.old, self.new, reason, self.parts, tests, explained, traces)

    def recorded(self) -> History:
        """The old version's history, made and kept."""
        with self.steps.step("record", f"recording {len(self.old.tests):,} tests on {self.old.version.name}"):
            history = self.runs.record(self.old, self.old.tests)
        keep(self.folder, self.old, history)
        return history

    def tried(self) -> History:
        """The new version's history: carried where both suites have a test, and recorded for the others."""
        with self.steps.step("carry", f"trying {self.new.version.name}"):
            carried = self.runs.carry(self.history)
            first = [*self.parts.added, *self.parts.changed]
            entries = self.runs.record(self.new, first).entries if first else []
            return joined(carried, entries, self.new.tests)

    def verdicts(self, now: History) -> List[Verdict]:
        """Whether each test of the new suite does what is expected."""
        expected = self.new.settings.expected
        if expected is None:
            return [Verdict("none", test.name) for test in self.new.tests]
        return verdicts(now, self.new.version.folder / expected)

    def explained(self, tests: List[Compared], most: int) -> List[Explanation]:
        """Why tests are selected: at most so many dangerous edges, those first whose tests differ."""
        first: Dict[int, str] = {}
        for test in sorted(tests, key=lambda test: (not test.differs, not test.is_wrong)):
            if test.edge is not None:
                first.setdefault(test.edge, test.name)
        if not first:
            return []
        with self.steps.step("explain", "looking for the places of the change"):
            return self.runs.explain(self.history, list(first.values())[:most])

    def traces(self, before: History, now: History, points: Optional[Path]) -> Traces:
        """Where the versions part, and by the program `points`, where there is one, what the tests reach."""
        walk = self.runs.walk()
        if points is None:
            return Traces(walk, None, None)
        both = ((self.old, before), (self.new, now))
        return Traces(walk, *(self.coverage(points, side, history) for side, history in both))

    def coverage(self, points: Path, side: Side, history: History) -> Coverage:
        """What the tests of a history reach in a version."""
        graph, lines = self.runs.points(points, side), read_file(side.unit.path).split(b"\n")
        check_points(graph, lines, points, side.unit.path)
        edges = len(list(graph.edges))
        if edges != history.edges:
            raise ToolError(f"{points}: there are {edges} edges, and dejavu tells of {history.edges}")
        return coverage_of(history, graph, lines)
