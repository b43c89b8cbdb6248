"""What a file `dejavu.toml` says of a program and its tests (docs/change.md has the keys)."""
from __future__ import annotations

import os
from dataclasses import dataclass
from pathlib import Path
from typing import Callable, Mapping, NamedTuple, Optional, Tuple

from .errors import ToolError
from .files import read_file
from .limits import MOST_BUDGET

DOCUMENT = "docs/change.md has its keys"


@dataclass(frozen=True)
class Settings:
    """The settings of a program. Paths are as they were written: relative to the folder that has the file."""

    sources: Tuple[str, ...]
    inputs: Optional[str]  # a folder; where there is none, `suite` is a file
    budget: int  # turns of each test of `inputs` that has none of its own
    suite: Optional[str]
    expected: Optional[str]  # a folder
    history: str  # a folder
    adopt: bool
    drop_stderr: bool
    long_as_int: bool
    include: Tuple[str, ...]  # folders
    define: Tuple[str, ...]  # NAME or NAME=VALUE


class Kind(NamedTuple):
    """What the value of a key has to be."""

    words: str
    holds: Callable[[object], bool]


def is_text(value: object) -> bool:
    """Whether this is a text that isn't empty."""
    return isinstance(value, str) and value != ""


def are_texts(value: object) -> bool:
    """Whether this is a list of such texts."""
    return isinstance(value, list) and all(map(is_text, value))


TEXT = Kind("a text in quotes", is_text)
TEXTS = Kind("a list of texts in quotes", are_texts)
SWITCH = Kind("true or false", lambda value: isinstance(value, bool))
TURNS = Kind(f"a number from 0 to {MOST_BUDGET:,}", lambda value: type(value) is int and 0 <= value <= MOST_BUDGET)

KEYS: Mapping[str, Kind] = {
    "sources": TEXTS,
    "inputs": TEXT,
    "budget": TURNS,
    "suite": TEXT,
    "expected": TEXT,
    "history": TEXT,
    "adopt": SWITCH,
    "drop-stderr": SWITCH,
    "long-as-int": SWITCH,
    "include": TEXTS,
    "define": TEXTS,
}


def read_settings(path: Path) -> Settings:
    """The settings that a file has; a `ToolError` where it can't be read, has a key that isn't known, lacks one that
    is wanted, or has a value of another kind."""
    if not os.path.lexists(path):
        raise ToolError(f"{path}: there is no such file, which says what the program and its tests are ({DOCUMENT})")
    return settings_of(str(path), parsed(str(path), read_file(path)))


def parsed(where: str, data: bytes) -> Mapping[str, object]:
    """What a text in TOML says; a `ToolError` where it is none, or where no library is there that reads it."""
    try:
        import tomllib
    except ModuleNotFoundError:  # before Python 3.11
        try:
            import tomli as tomllib
        except ModuleNotFoundError:
            wanted = "Python before 3.11 reads TOML by the library tomli: python3 -m pip install tomli"
            raise ToolError(f"{where}: {wanted}") from None
    try:
        return tomllib.loads(data.decode("utf-8"))
    except ValueError as error:
        raise ToolError(f"{where}: this is no TOML: {error}") from error


def settings_of(where: str, values: Mapping[str, object]) -> Settings:
    """The settings of these values; `where` names the file that they are from."""
    for key, value in values.items():
        if key not in KEYS:
            raise ToolError(f"{where}: the key {key} isn't known; there are {', '.join(KEYS)}")
        if not KEYS[key].holds(value):
            raise ToolError(f"{where}: {key} has to be {KEYS[key].words}")
    check_together(where, values)
    return Settings(
        sources=tuple(values["sources"]),
        inputs=values.get("inputs"),
        budget=values.get("budget", 0),
        suite=values.get("suite"),
        expected=values.get("expected"),
        history=values.get("history", ".dejavu"),
        adopt=values.get("adopt", True),
        drop_stderr=values.get("drop-stderr", False),
        long_as_int=values.get("long-as-int", False),
        include=tuple(values.get("include", ())),
        define=tuple(values.get("define", ())),
    )


def check_together(where: str, values: Mapping[str, object]) -> None:
    """Raises a `ToolError` where a key is missing, or where two don't go together."""
    if not values.get("sources"):
        raise ToolError(f"{where}: the key sources is missing: it lists the C files of the program")
    if ("suite" in values) == ("inputs" in values):
        raise ToolError(f"{where}: one of the keys suite, a file, and inputs, a folder, says where the tests are")
    if "inputs" in values and "budget" not in values:
        raise ToolError(f"{where}: the key budget is missing: it says how many turns a test of {values['inputs']} has")
    if "suite" in values and "budget" in values:
        raise ToolError(f"{where}: budget goes with inputs; the tests of a suite have budgets of their own")
    if values.get("adopt") is False:
        check_unit(where, values)


def check_unit(where: str, values: Mapping[str, object]) -> None:
    """Raises a `ToolError` where keys don't go with a source that is taken as it is."""
    if len(values["sources"]) != 1:
        raise ToolError(f"{where}: without adopt there is one source, and sources has {len(values['sources'])}")
    for key in ("drop-stderr", "long-as-int", "include", "define"):
        if key in values:
            raise ToolError(f"{where}: {key} goes with adopt, which is false")
