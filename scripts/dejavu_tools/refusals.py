"""Refusals that a person can use: the line with which `dejavu` refuses becomes a message that says what to do."""
from __future__ import annotations

import os
import re
from dataclasses import dataclass
from itertools import islice
from typing import Callable, Dict, List, Mapping, NamedTuple, Optional, Sequence, Tuple

from .console import parts_around, readable
from .errors import ToolError
from .words import COMMANDS, FILES, OF_NO_FILE, REFUSALS, Words

BEGINNING = "refused: "
ROOM = 80  # bytes of a line on either side of a place

# What stands in a refusal's line for the words in capitals of its form.
PARTS = {
    "ROLE": r"(?P<role>source|old|new)",
    "KIND": r"(?P<key>\w+)",
    "LIMIT": r"(?P<key>\w+)",
    "MK": r"(?P<key>M\d+)",
    "SK": r"(?P<key>S\d+)",
    "HK": r"(?P<key>H\d+)",
    "CK": r"(?P<key>C\d+)",
    "LINE": r"(?P<line>\d{1,9})",
    "L:C": r"(?P<line>\d{1,9}):(?P<column>\d{1,9})",
    "N": r"(?P<count>\d{1,20})",
    "COUNT": r"(?P<count>\d{1,20})",
    "FOUND": r"(?P<found>\w+)",
    "COMPUTED": r"(?P<computed>\w+)",
    "REAL": r"(?P<computed>\d+)",
    "NAME": r"(?P<name>[\w.-]+)",
}


class Place(NamedTuple):
    """A byte of a file: its line and its column, both from 1."""

    file: str
    line: int
    column: int


# From a place of a unit to the one in a maintainer's own file.
PlaceMap = Callable[[Place], Tuple[str, int, int]]


def same_place(place: Place) -> Place:
    """The place itself, for units that are a maintainer's own files."""
    return place


@dataclass(frozen=True)
class Message:
    """What is told of a refusal: where and what is wrong, the line of the file, the rule in words, and what to do."""

    where: str
    wrong: str
    shown: Tuple[str, ...]
    rule: str
    remedy: str

    def lines(self) -> List[str]:
        """The lines of the message."""
        return [f"{self.where}: error: {self.wrong}", *self.shown, f"rule: {self.rule}", f"help: {self.remedy}"]


# ---- the line of a refusal


def pattern_of(form: str) -> re.Pattern[str]:
    """What matches the lines of a form."""
    words = form.replace("line N", "line LINE").split(" ")
    return re.compile(BEGINNING + " ".join(PARTS.get(word) or re.escape(word) for word in words), re.ASCII)


PATTERNS = {form: pattern_of(form) for form in REFUSALS}


@dataclass(frozen=True)
class Refusal:
    """What the line of a refusal says: its form, the words for it, and what stands in it."""

    form: str
    words: Words
    parts: Mapping[str, str]  # by the names in `PARTS`

    @property
    def role(self) -> Optional[str]:
        """Which of the command's files it speaks of: source, old, new, suite, history or certificate."""
        if self.form in OF_NO_FILE:
            return None
        return self.parts.get("role") or self.form.split(" ")[0]

    def number(self, part: str) -> Optional[int]:
        """The number that stands in it under this name."""
        return int(self.parts[part]) if part in self.parts else None

    def filled(self, text: str) -> str:
        """A text of its words with its numbers and names."""
        numbers = {"most": self.words.most, "count": self.number("count")}
        told = {name: f"{number:,}" for name, number in numbers.items() if number is not None}
        return text.format(**{**self.parts, **told})


def read_refusal(line: str) -> Refusal:
    """What the line of a refusal says; a `ToolError` where it is none that is known."""
    for form, pattern in PATTERNS.items():
        found = pattern.fullmatch(line.rstrip("\n"))
        if found:
            parts = found.groupdict()
            entry = REFUSALS[form]
            words = entry if isinstance(entry, Words) else entry.get(parts["key"])
            if words:
                return Refusal(form, words, parts)
    raise ToolError(f"this refusal isn't known: {line}")


# ---- its message


def message_of(line: str, files: Mapping[str, str], place_map: PlaceMap = same_place) -> Message:
    """The message for the line of a refusal.

    `files` has the files of the command by what they are to it (`files_of`). `place_map` takes the place of a fault in
    a source, a unit, to that in the file of which the unit was made. Raises a `ToolError` where the line isn't known.
    """
    refusal = read_refusal(line)
    if refusal.form == "read fault":
        return read_fault(refusal, files)
    where, shown = place_of(refusal, files, place_map)
    code = f" ({refusal.parts['key']})" if "key" in refusal.parts else ""
    wrong, rule, remedy = map(refusal.filled, (refusal.words.wrong, refusal.words.rule, refusal.words.remedy))
    return Message(where, wrong + code, shown, rule, remedy)


def place_of(refusal: Refusal, files: Mapping[str, str], place_map: PlaceMap) -> Tuple[str, Tuple[str, ...]]:
    """Where a refusal's fault is, and the lines that show that place."""
    role, line, column = refusal.role, refusal.number("line"), refusal.number("column")
    file = files.get(role) if role else None
    if file and line and column:
        file, line, column = place_map(Place(file, line, column))
    where = ":".join(str(part) for part in (file or role or "dejavu", line, column) if part)
    return where, lines_that_show(file, line, column) if file and line else ()


def lines_that_show(file: str, number: int, column: Optional[int]) -> Tuple[str, ...]:
    """A line of a file, cut where it is long, with a caret under the column; nothing where there is no such line."""
    line = line_of(file, number)
    if not line:
        return ()
    if not column or column > len(line) + 1:
        return ("".join(parts_around(line, 0, ROOM, readable)),)
    before, behind = parts_around(line, column - 1, ROOM, readable)
    return before + behind, re.sub(r"[^\t]", " ", before) + "^"


def line_of(file: str, number: int) -> Optional[bytes]:
    """A line of a plain file without what ends it; nothing where that can't be read. A pipe was read before."""
    if not os.path.isfile(file):
        return None
    try:
        with open(file, "rb") as lines:
            return next(islice(lines, number - 1, None), b"").rstrip(b"\r\n")
    except OSError:
        return None


def read_fault(refusal: Refusal, files: Mapping[str, str]) -> Message:
    """The message where a file could not be read, which names the first one that can't be read now."""
    words = refusal.words
    for file in files.values():
        why = fault_of(file)
        if why:
            return Message(file, f"{words.wrong}: {why}", (), words.rule, words.remedy)
    return Message("dejavu", words.wrong, (), words.rule, words.remedy)


def fault_of(file: str) -> Optional[str]:
    """Why a file can't be read; nothing where it can, or where it is a pipe or the like, which was read before."""
    if os.path.exists(file) and not os.path.isfile(file) and not os.path.isdir(file):
        return None
    try:
        with open(file, "rb"):
            return None
    except OSError as error:
        return error.strerror


# ---- the words of a command


def files_of(words: Sequence[str]) -> Dict[str, str]:
    """The files that the words of a command name, by what they are to it: source, old, new, suite and so on."""
    wanted = COMMANDS.get(words[0], ()) if words else ()
    return {role.lower(): word for role, word in zip(wanted, plain_words(words[1:])) if role in FILES}


def plain_words(words: Sequence[str]) -> List[str]:
    """The words without `--workers N`, `--workers=N` and a first `--`, behind which all words are plain."""
    plain: List[str] = []
    rest = iter(words)
    for word in rest:
        if word == "--":
            plain.extend(rest)
        elif word == "--workers":
            next(rest, None)
        elif not word.startswith("--workers="):
            plain.append(word)
    return plain
