"""Suites of folders: one is made of a folder of tests, one is shown, and a history is held against a folder.

A folder has for each test the input `NAME.in`, and it may have `NAME.budget`, `NAME.out` and `NAME.status`. The name of
the test is NAME, with `_` for what rule S4 doesn't allow, and cut to 64 characters.
"""
from __future__ import annotations

import os
import re
from dataclasses import dataclass
from io import BytesIO
from itertools import accumulate, zip_longest
from pathlib import Path
from typing import Dict, Iterator, List, Mapping, Optional, Sequence, Tuple

from . import limits
from .console import escaped, parts_around, readable
from .errors import ToolError
from .files import files_in, read_file, told_of
from .formats import SUITE_LINE, Entry, History, Test, line_of_test, read_number, suite_text
from .words import TRAPS

INPUT, BUDGET, OUTPUT, STATUS = ".in", ".budget", ".out", ".status"

LEAST_SHOWN = 10  # columns of an input
ROOM = 30  # bytes of a line on either side of the first that differs


# ---- the files of a folder


def name_of_test(stem: str) -> str:
    """The name by rule S4 of the test of a file with this name, its ending aside."""
    return re.sub(r"^[.-]|[^A-Za-z0-9_.-]", "_", stem)[:limits.MOST_NAME]


def files_by_test(folder: Path, ending: str) -> Dict[str, Path]:
    """The files of a folder with this ending by the names of their tests, in the order of the files' names.

    Raises a `ToolError` where the folder can't be read or has none, or where the names of two become one.
    """
    files: Dict[str, Path] = {}
    for path in files_in(folder, ending):
        name = name_of_test(path.stem)
        if name in files:
            raise ToolError(f"{files[name]} and {path} would both be the test {name}: rename one of them")
        files[name] = path
    return files


def number_in(path: Path, most: int, absent: int) -> int:
    """The number up to `most` that a file has in it, `absent` where there is no such file; a `ToolError` for others."""
    if not os.path.lexists(path):
        return absent
    return checked_number(str(path), read_file(path).strip(), most)


def checked_number(where: str, word: bytes, most: int) -> int:
    """The number up to `most` that a word is; a `ToolError` that says where it stands for others."""
    number = read_number(word, most)
    if number is None:
        raise ToolError(f"{where}: this is no number from 0 to {most:,} without leading zeros: {escaped(word[:ROOM])}")
    return number


# ---- a suite of a folder


@dataclass(frozen=True)
class FolderSuite:
    """The tests of a folder, and the names of those that have another name than their files."""

    tests: List[Test]
    renamed: Mapping[str, str]  # from the name of a file to that of its test


def suite_of_folder(folder: Path, budget: int) -> FolderSuite:
    """The tests of a folder in the order of their files' names; `budget` is that of all tests without one of their own.

    Raises a `ToolError` for a folder or a file that can't be read, names that become one, no input, an input that is
    too long, and a budget that is none.
    """
    files = files_by_test(folder, INPUT)
    tests = [
        Test(name, number_in(path.with_suffix(BUDGET), limits.MOST_BUDGET, budget), read_input(path))
        for name, path in files.items()
    ]
    return FolderSuite(tests, {path.name: name for name, path in files.items() if path.stem != name})


def read_input(path: Path) -> bytes:
    """The input that a file has in it; a `ToolError` where it is too long or can't be read."""
    with told_of(path):
        size = path.stat().st_size
    if size > limits.MOST_INPUT:
        raise ToolError(f"{path}: the input has {size:,} bytes, more than {limits.MOST_INPUT:,}")
    return read_file(path)


def renamed_table(renamed: Mapping[str, str]) -> List[str]:
    """A table for people of the files whose tests have other names."""
    if not renamed:
        return []
    rows = [("file", "test"), *((readable(file), name) for file, name in renamed.items())]
    width = max(len(file) for file, _ in rows)
    return [f"{file.ljust(width)}  {name}" for file, name in rows]


def cut(tests: Sequence[Test]) -> List[List[Test]]:
    """The tests in their order as suites, each with as many as one may have."""
    suites: List[List[Test]] = [[]]
    size = len(SUITE_LINE) + 1
    for test in tests:
        length = len(line_of_test(test))
        if len(suites[-1]) == limits.MOST_TESTS or size + length > limits.MOST_SUITE_BYTES:
            suites.append([])
            size = len(SUITE_LINE) + 1
        suites[-1].append(test)
        size += length
    return suites


def one_suite(folder: Path, tests: Sequence[Test]) -> bytes:
    """The suite of a folder's tests; a `ToolError` where they are more than one suite has room for."""
    suites = cut(tests)
    if len(suites) > 1:
        raise ToolError(
            f"{folder}: its {len(tests):,} tests don't fit in one suite, which has at most {limits.MOST_TESTS:,} tests"
            f" and {limits.MOST_SUITE_BYTES:,} bytes: --into PREFIX writes {len(suites)} suites"
        )
    return suite_text(tests)


def numbered_suites(prefix: str, tests: Sequence[Test]) -> Dict[Path, List[Test]]:
    """The suites PREFIX.1, PREFIX.2 and so on that these tests are cut into.

    Raises a `ToolError` where the file behind the last is there, which would seem to be one of them.
    """
    suites = {Path(f"{prefix}.{number}"): part for number, part in enumerate(cut(tests), 1)}
    behind = Path(f"{prefix}.{len(suites) + 1}")
    if os.path.lexists(behind):
        raise ToolError(f"{behind}: this would stand behind the last of {len(suites)} suites: move it away first")
    return suites


# ---- a suite for people


def listing(tests: Sequence[Test], width: int) -> Iterator[str]:
    """A table of a suite's tests for people, in lines of so many columns, or more where their names need them."""
    rows = [("test", "budget", "bytes"), *((test.name, f"{test.budget:,}", f"{len(test.input):,}") for test in tests)]
    name, budget, size = (max(map(len, column)) for column in zip(*rows))
    room = max(LEAST_SHOWN, width - name - budget - size - 6)
    shown = ["input", *(cut_escaped(test.input, room) for test in tests)]
    for row, text in zip(rows, shown):
        cells = row[0].ljust(name), row[1].rjust(budget), row[2].rjust(size), text
        yield "  ".join(cell for cell in cells if cell)


def cut_escaped(data: bytes, width: int) -> str:
    """The bytes as text with escapes; where they take more columns, cut behind a whole escape, with `..` at the end."""
    text = escaped(data[:width + 1])
    if len(text) <= width:
        return text
    ends = accumulate(len(escaped(data[at:at + 1])) for at in range(width))
    return text[:max((end for end in ends if end + 2 <= width), default=0)] + ".."


# ---- a history and what a folder expects


@dataclass(frozen=True)
class Expected:
    """What a folder expects of a test."""

    output: bytes
    status: str  # `exit N`


@dataclass(frozen=True)
class Verdict:
    """Whether a test did what a folder expects of it: `pass`, `fail` with what differs, or `none`."""

    kind: str
    name: str
    why: str = ""
    expected: Optional[Expected] = None

    def __str__(self) -> str:
        return f"{self.kind} {self.name} {self.why}" if self.why else f"{self.kind} {self.name}"


def verdicts(history: History, folder: Path) -> List[Verdict]:
    """Whether each test of a history did what a folder expects of it.

    Raises a `ToolError` where the folder or a file can't be read, or where a status is no number.
    """
    outputs = files_by_test(folder, OUTPUT)
    return [verdict_of(entry, outputs.get(entry.test.name)) for entry in history.entries]


def verdict_of(entry: Entry, output: Optional[Path]) -> Verdict:
    """Whether a test did what is expected of it; `output` is the file of its expected output, if there is one."""
    if output is None:
        return Verdict("none", entry.test.name)
    status = number_in(output.with_suffix(STATUS), limits.MOST_STATUS, 0)
    expected = Expected(read_file(output), f"exit {status}")
    faults = []
    if entry.output != expected.output:
        faults.append(f"output {first_difference(entry.output, expected.output)}")
    if entry.status != expected.status:
        faults.append(f"status recorded {status_in_words(entry)}, expected {expected.status}")
    return Verdict("fail" if faults else "pass", entry.test.name, "; ".join(faults), expected)


def first_difference(one: bytes, other: bytes, names: Tuple[str, str] = ("recorded", "expected")) -> str:
    """The place of the first byte at which two outputs differ, and both lines with it, by these names."""
    lines = enumerate(zip_longest(BytesIO(one), BytesIO(other), fillvalue=b""), 1)
    number, pair = next((number, pair) for number, pair in lines if pair[0] != pair[1])
    at = len(os.path.commonprefix(pair))
    shown = [f'"{"".join(parts_around(line, at, ROOM, escaped))}"' if line else "the end" for line in pair]
    return f"at {number}:{at + 1} {names[0]} {shown[0]}, {names[1]} {shown[1]}"


def status_in_words(entry: Entry) -> str:
    """How a run ended."""
    word, _, which = entry.status.partition(" ")
    if word == "turns":
        return f"no end within its budget of {entry.test.budget:,} turns"
    return f"trap {which} ({TRAPS[which]})" if word == "trap" else entry.status


def counts(found: Sequence[Verdict]) -> str:
    """How many tests there are of each verdict."""
    kinds = [verdict.kind for verdict in found]
    return f"passed {kinds.count('pass')} failed {kinds.count('fail')} none {kinds.count('none')}"
