"""Suites, and histories of version 3 (docs/formats.md): what they hold, read and written.

What breaks a rule is a `ToolError` with the line, the rule, and the words that a refusal of `dejavu` has for it.
"""
from __future__ import annotations

import re
from dataclasses import dataclass
from functools import partial
from hashlib import sha256
from pathlib import Path
from typing import Callable, Container, Dict, Iterable, List, Optional, TypeVar

from . import limits
from .errors import ToolError
from .files import read_file
from .refusals import message_of
from .words import TRAPS

SUITE_LINE = b"dejavu suite 1"
HISTORY_LINE = b"dejavu history 3"

NAME = re.compile(rb"[A-Za-z0-9_][A-Za-z0-9_.-]{0,%d}" % (limits.MOST_NAME - 1))
NUMBER = re.compile(rb"0|[1-9][0-9]{0,8}")
HEXADECIMAL = re.compile(rb"(?:[0-9a-f]{2})+")
DIGEST = re.compile(rb"[0-9a-f]{64}")
VERSION = re.compile(rb"dejavu history (0|[1-9][0-9]{0,8})")

T = TypeVar("T")


@dataclass(frozen=True)
class Test:
    """A test of a suite."""

    name: str
    budget: int  # turns
    input: bytes


@dataclass(frozen=True)
class Entry:
    """What a history tells of a test."""

    test: Test
    status: str  # `exit N`, `trap NAME` or `turns`
    turns: int
    output: bytes
    crossed: bytes  # a row of bits


@dataclass(frozen=True)
class History:
    """What a history of version 3 tells."""

    source: str  # the digest of the source
    edges: int
    entries: List[Entry]


# ---- the words of a line; each gives nothing where they don't have their form


def read_number(word: bytes, most: int) -> Optional[int]:
    """The number from 0 to `most` that a word is."""
    return int(word) if NUMBER.fullmatch(word) and int(word) <= most else None


def read_name(word: bytes) -> Optional[str]:
    """The name of a test that a word is."""
    return word.decode("ascii") if NAME.fullmatch(word) else None


def read_bytes(word: bytes) -> Optional[bytes]:
    """The bytes that a word is in hexadecimal, or `-` for none."""
    if word == b"-":
        return b""
    return bytes.fromhex(word.decode("ascii")) if HEXADECIMAL.fullmatch(word) else None


def read_short(word: bytes, most: int) -> Optional[bytes]:
    """The same of at most so many bytes."""
    data = read_bytes(word)
    return data if data is not None and len(data) <= most else None


def read_digest(word: bytes) -> Optional[str]:
    """The digest that a word is."""
    return word.decode("ascii") if DIGEST.fullmatch(word) else None


def read_status(words: bytes) -> Optional[str]:
    """The status of a run that these words are."""
    first, _, rest = words.partition(b" ")
    is_exit = first == b"exit" and read_number(rest, limits.MOST_STATUS) is not None
    is_trap = first == b"trap" and rest in (trap.encode() for trap in TRAPS)
    return words.decode("ascii") if is_exit or is_trap or words == b"turns" else None


def read_row(word: bytes, edges: int) -> Optional[bytes]:
    """The row of so many bits that a word is."""
    row = read_bytes(word)
    if row is None or len(row) != (edges + 7) // 8 or int.from_bytes(row, "little") >> edges:
        return None
    return row


# ---- files of lines


def refused(kind: str, path: Path, cause: str) -> ToolError:
    """What is told of a suite or a history for which `dejavu` writes the line `refused: KIND CAUSE`."""
    message = message_of(f"refused: {kind} {cause}", {kind: str(path)})
    return ToolError(f"{message.where}: {message.wrong}")


class Lines:
    """The lines of a suite or a history, one after another."""

    def __init__(self, kind: str, path: Path, most: int) -> None:
        """Reads the file; a `ToolError` where that can't be, or where it has more than so many bytes."""
        self.kind, self.path, self.data, self.number = kind, path, read_file(path, most), 0
        if len(self.data) > most:
            raise refused(kind, path, "too long")
        self.lines = self.data.split(b"\n")
        self.rest = self.lines.pop()

    def are_left(self) -> bool:
        """Whether a line follows, with or without its newline."""
        return self.number < len(self.lines) or bool(self.rest)

    def ahead(self) -> bytes:
        """The next line, with or without its newline; empty where there is none."""
        return self.lines[self.number] if self.number < len(self.lines) else self.rest

    def take(self, missing: str) -> bytes:
        """Takes the next line; where there is none, or none that has its newline, it breaks the rule `missing`."""
        self.number += 1
        if self.number > len(self.lines):
            raise self.broken(missing)
        return self.lines[self.number - 1]

    def value(self, word: bytes, rule: str, read: Callable[[bytes], Optional[T]]) -> T:
        """What the next line has behind a word; where it has another form, it breaks the rule."""
        first, _, rest = self.take(rule).partition(b" ")
        found = read(rest) if first == word else None
        if found is None:
            raise self.broken(rule)
        return found

    def broken(self, rule: str) -> ToolError:
        """What is told where the line that was last asked for breaks a rule."""
        return refused(self.kind, self.path, f"line {self.number} rule {rule}")


# ---- suites


def read_suite(path: Path) -> List[Test]:
    """The tests of a suite; a `ToolError` where the file can't be read or is none, for the first cause that holds."""
    lines = Lines("suite", path, limits.MOST_SUITE_BYTES)
    if lines.take("S2" if lines.ahead() == SUITE_LINE else "S1") != SUITE_LINE:
        raise lines.broken("S1")
    tests = []
    while lines.are_left():
        tests.append(read_test(lines.take("S2"), lines.broken))
    if len(tests) > limits.MOST_TESTS:
        raise refused("suite", path, f"tests {len(tests)}")
    names = set()
    for number, test in enumerate(tests, 2):
        if test.name in names:
            raise refused("suite", path, f"line {number} twice")
        names.add(test.name)
    return tests


def read_test(line: bytes, broken: Callable[[str], ToolError]) -> Test:
    """The test that a line of a suite has; where it has none, it breaks the least of the rules S3 to S7."""
    words = line.split(b" ")
    if len(words) != 4 or words[0] != b"test" or b"" in words:
        raise broken("S3")
    name, budget, data = read_name(words[1]), read_number(words[2], limits.MOST_BUDGET), read_bytes(words[3])
    if name is None:
        raise broken("S4")
    if budget is None:
        raise broken("S5")
    if data is None:
        raise broken("S6")
    if len(data) > limits.MOST_INPUT:
        raise broken("S7")
    return Test(name, budget, data)


def line_of_test(test: Test) -> bytes:
    """The line of a test in a suite."""
    return f"test {test.name} {test.budget} {test.input.hex() or '-'}\n".encode("ascii")


def suite_text(tests: Iterable[Test]) -> bytes:
    """The suite of these tests."""
    return b"".join((SUITE_LINE, b"\n", *map(line_of_test, tests)))


# ---- histories


def read_history(path: Path) -> History:
    """What a history of version 3 tells; a `ToolError` where the file can't be read or is none.

    The first cause that holds is told, as far as it can be seen without the source.
    """
    lines = Lines("history", path, limits.MOST_FILE_BYTES)
    check_version(lines)
    source = lines.value(b"source", "H2", read_digest)
    edges = lines.value(b"edges", "H3", partial(read_number, most=limits.MOST_EDGES))
    entries: Dict[str, Entry] = {}
    for _ in range(lines.value(b"tests", "H4", partial(read_number, most=limits.MOST_TESTS))):
        entry = read_entry(lines, edges, entries)
        entries[entry.test.name] = entry
    found = lines.value(b"end", "H13", read_digest)
    if lines.are_left():
        lines.take("H14")
        raise lines.broken("H14")
    computed = sha256(lines.data[:lines.data.rindex(b"end ")]).hexdigest()
    if found != computed:
        raise refused("history", path, f"sum {found} {computed}")
    return History(source, edges, list(entries.values()))


def check_version(lines: Lines) -> None:
    """Reads line 1 of a history; a `ToolError` where it is another one."""
    line = lines.take("H1")
    version = VERSION.fullmatch(line)
    if not version:
        raise lines.broken("H1")
    if line != HISTORY_LINE:
        raise refused("history", lines.path, f"version {version[1].decode()}")


def read_entry(lines: Lines, edges: int, names: Container[str]) -> Entry:
    """The next entry of a history with so many edges, which has none of these names."""
    name = lines.value(b"test", "H5", read_name)
    if name in names:
        raise lines.broken("H6")
    budget = lines.value(b"budget", "H7", partial(read_number, most=limits.MOST_BUDGET))
    return Entry(
        Test(name, budget, lines.value(b"input", "H8", partial(read_short, most=limits.MOST_INPUT))),
        lines.value(b"status", "H9", read_status),
        lines.value(b"turns", "H10", partial(read_number, most=budget)),
        lines.value(b"output", "H11", partial(read_short, most=limits.MOST_OUTPUT)),
        lines.value(b"crossed", "H12", partial(read_row, edges=edges)),
    )


def history_text(history: History) -> bytes:
    """The history of version 3 that tells this."""
    head = f"source {history.source}\nedges {history.edges}\ntests {len(history.entries)}\n"
    text = b"".join((HISTORY_LINE, b"\n", head.encode("ascii"), *map(lines_of_entry, history.entries)))
    return text + f"end {sha256(text).hexdigest()}\n".encode("ascii")


def lines_of_entry(entry: Entry) -> bytes:
    """The seven lines of an entry in a history."""
    test = entry.test
    words = (
        ("test", test.name),
        ("budget", test.budget),
        ("input", test.input.hex() or "-"),
        ("status", entry.status),
        ("turns", entry.turns),
        ("output", entry.output.hex() or "-"),
        ("crossed", entry.crossed.hex() or "-"),
    )
    return "".join(f"{word} {value}\n" for word, value in words).encode("ascii")
