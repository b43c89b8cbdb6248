"""The programs of examples/adopt: adopted, checked, recorded, and selected from for each of their changes.

Each has its files, tests, changes as patches, and `changes/selected.md`: which tests reach each change, found by hand.
"""
from __future__ import annotations

import re
import shutil
import subprocess
from dataclasses import dataclass
from pathlib import Path
from typing import Dict, FrozenSet, Iterator, List, Sequence

from . import formats, suites
from .adopt.library import FUNCTIONS, definitions
from .errors import ToolError
from .files import files_in, read_file

TOP = Path(__file__).resolve().parents[2]
EXAMPLES = TOP / "examples" / "adopt"

BUDGET = 1_000_000  # turns of a test
RANDOM_INPUTS = 200
FLAGS = {"calc": ["--drop-stderr", "--long-as-int"]}  # of `adopt`
OTHER_FLAGS = ["--drop-stderr"]

ROW = re.compile(r"\| ([\w.-]+) \| (yes|no) \|")
FUNCTION = re.compile(r"^(?:\w+ )+(\w+)\([^;{}]*\)\s*\{\n.*?^\}", re.MULTILINE | re.DOTALL)


# ---- what was found by hand


@dataclass(frozen=True)
class Expected:
    """What the table of a change says."""

    function: str  # that is changed
    tests: FrozenSet[str]
    reached: FrozenSet[str]


def read_tables(path: Path) -> Dict[str, Expected]:
    """What a file `selected.md` says, by the names of the changes; a `ToolError` where a part of it can't be read."""
    tables = {}
    for part in read_file(path).decode("utf-8").split("\n## ")[1:]:
        name, _, text = part.partition("\n")
        rows, function = dict(ROW.findall(text)), re.search(r"`(\w+)`", text)
        if not rows or not function:
            raise ToolError(f"{path}: {name} has no table, or names no function")
        reached = frozenset(test for test, word in rows.items() if word == "yes")
        tables[name] = Expected(function[1], frozenset(rows), reached)
    return tables


# ---- what the program says


def run(*words: object, statuses: Sequence[int] = (0,)) -> subprocess.CompletedProcess:
    """Runs a program or script, and gives what it wrote; a `ToolError` where it ends with another status."""
    done = subprocess.run(list(map(str, words)), stdout=subprocess.PIPE, check=False)
    if done.returncode not in statuses:
        shown = done.stdout[:200].decode("utf-8", "replace")
        raise ToolError(f"{' '.join(map(str, words))} ends with {done.returncode}: {shown}", 1)
    return done


class Example:
    """One of the programs, with a folder to work in."""

    def __init__(self, name: str, program: Path, work: Path) -> None:
        self.folder, self.program, self.work = EXAMPLES / name, program, work
        self.name = name
        self.tables = read_tables(self.folder / "changes" / "selected.md")
        self.old, self.suite, self.history = work / "old.c", work / "suite", work / "history"

    def version(self, name: str, patches: Sequence[Path]) -> List[Path]:
        """The C files of a version: a copy of the program's with these patches, and then that which adopts it."""
        folder = self.work / name
        shutil.copytree(self.folder, folder, ignore=shutil.ignore_patterns("tests", "changes", "*.md", "*.patch"))
        by_hand = self.folder / "by-hand.patch"
        for patch in [*patches, *([by_hand] if by_hand.exists() else [])]:
            run("patch", "--silent", "-p1", "-d", folder, "-i", patch)
        return files_in(folder, ".c")

    def adopt(self, unit: Path, files: Sequence[Path], *options: object) -> bool:
        """Writes the unit of these files; whether it is the same program, where that is checked."""
        words = [TOP / "scripts" / "adopt", *FLAGS.get(self.name, OTHER_FLAGS), *options, *files]
        done = run(*words, statuses=(0, 1) if options else (0,))
        unit.write_bytes(done.stdout)
        return done.returncode == 0

    def faults_of_old(self) -> Iterator[str]:
        """Adopts, checks and records the program; what is wrong with that."""
        tests = suites.suite_of_folder(self.folder / "tests", BUDGET).tests
        self.suite.write_bytes(formats.suite_text(tests))
        checked = ["--check", self.suite, "--program", self.program, "--random", RANDOM_INPUTS]
        if not self.adopt(self.old, self.version("old", []), *checked):
            yield "the unit differs from its files"
        self.history.write_bytes(run(self.program, "record", self.old, self.suite).stdout)
        verdicts = suites.verdicts(formats.read_history(self.history), self.folder / "tests")
        yield from (str(verdict) for verdict in verdicts if verdict.kind != "pass")
        for change, expected in self.tables.items():
            if expected.tests != {test.name for test in tests}:
                yield f"the table of {change} has other tests"

    def change(self, name: str) -> "Change":
        """What the program says of a change."""
        new = self.work / f"{name}.c"
        self.adopt(new, self.version(name, [self.folder / "changes" / f"{name}.patch"]))
        choices = run(self.program, "select", self.old, new, self.history).stdout.decode().splitlines()
        edges = run(self.program, "walk", self.old, new).stdout.decode().splitlines()
        selected = frozenset(line.split()[1] for line in choices if line.startswith("run "))
        parted = [line.split()[2] for line in edges if line.startswith("edge ")]
        texts = [text for unit in (self.old, new) for text in functions_of(unit.read_text()).items()]
        return Change(self.tables[name], selected, parted, callers(self.tables[name].function, texts))


def faults_of_library(program: Path, work: Path) -> Iterator[str]:
    """The refusal of a unit of all functions of the library, where the program refuses it."""
    unit, suite = work / "library.c", work / "suite"
    unit.write_text(f"{definitions(FUNCTIONS)}\nint main(void)\n{{\n    return 0;\n}}\n", encoding="ascii")
    suite.write_bytes(formats.suite_text([formats.Test("none", BUDGET, b"")]))
    done = run(program, "record", unit, suite, statuses=range(256))
    if done.returncode:
        yield done.stdout.decode("utf-8", "replace").rstrip("\n")


def functions_of(unit: str) -> Dict[str, str]:
    """The functions of a unit, by name, as they are written."""
    return {found[1]: found[0] for found in FUNCTION.finditer(unit)}


def callers(name: str, texts: Sequence[tuple[str, str]]) -> FrozenSet[str]:
    """A function and those in whose text it is called."""
    return frozenset(caller for caller, text in texts if caller == name or re.search(rf"\b{name}\(", text))


@dataclass(frozen=True)
class Change:
    """What the program says of a change, and what was found by hand."""

    expected: Expected
    selected: FrozenSet[str]
    parted: Sequence[str]  # the function of each dangerous edge
    allowed: FrozenSet[str]  # where these may be: the changed function and its callers

    def __str__(self) -> str:
        where = ", ".join(sorted(set(self.parted))) or "no function"
        return (
            f"selected {len(self.selected)} of {len(self.expected.tests)}, by hand {len(self.expected.reached)};"
            f" {len(self.parted)} dangerous edges in {where}"
        )

    def faults(self) -> Iterator[str]:
        """What differs."""
        for what, names in (
            ("selected, and not by hand", self.selected - self.expected.reached),
            ("by hand, and not selected", self.expected.reached - self.selected),
            ("dangerous edges neither in the changed function nor in its callers", set(self.parted) - self.allowed),
        ):
            if names:
                yield f"{what}: {', '.join(sorted(names))}"
