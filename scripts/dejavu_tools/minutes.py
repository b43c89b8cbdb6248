"""Which crates stand on which, and the processor minutes that each takes of the gate."""
from __future__ import annotations

import re
from functools import lru_cache
from pathlib import Path
from typing import Dict, List, NamedTuple, Tuple

from .crates import read_lines, words_of
from .errors import ToolError

Libraries = Dict[str, List[str]]  # crates by their names, each with the crates that it names

TABLE = "docs/architecture.md"
ROW = re.compile(r"^\| `(\w+)` \| ([\d.]+) \| ([\d.]*) ?\|$", re.MULTILINE)

LATER_EDIT = 0.75  # minutes of a wrong body behind the first of its crate: half a minute to a minute


class Minutes(NamedTuple):
    """What the gate takes for a crate: for its own proof, for that of its tests, and for its wrong bodies."""

    own: float
    tests: float
    edits: float


def libraries(top: Path) -> Libraries:
    """The crates of crates.txt in the order of its lines, each with those of them that it names."""
    listed = read_lines(str(top / "crates.txt"))
    return {name: [word for word in words_of(line)[1:] if word in listed] for name, line in listed.items()}


def table_minutes(top: Path) -> Dict[str, Minutes]:
    """The minutes of each crate in the table of docs/architecture.md.

    Those of the wrong bodies are an estimate: the first costs the crate's own proof once more.
    """
    try:
        text = (top / TABLE).read_text(encoding="utf-8")
    except OSError as error:
        raise ToolError(f"{TABLE}: {error.strerror}") from error
    found = {}
    for name, own, tests in ROW.findall(text):
        edits = len(list((top / "crates" / name / "must-fail").glob("*.edit")))
        tried = float(own) + LATER_EDIT * (edits - 1) if edits else 0.0
        found[name] = Minutes(float(own), float(tests or 0), tried)
    return found


def above(name: str, below: Libraries) -> List[str]:
    """A crate and all that stand on it, each behind those that it stands on."""

    @lru_cache(maxsize=None)
    def level(crate: str) -> int:
        return 1 + max(map(level, below[crate]), default=0)

    found = {name}
    for crate in sorted(below, key=level):
        if found.intersection(below[crate]):
            found.add(crate)
    return sorted(found, key=lambda crate: (level(crate), list(below).index(crate)))


def chain_to(name: str, below: Libraries, minutes: Dict[str, float]) -> Tuple[float, Tuple[str, ...]]:
    """The longest chain of proofs up to a crate: its minutes, and its crates from the lowest up.

    A crate without minutes counts as none.
    """

    @lru_cache(maxsize=None)
    def longest(crate: str) -> Tuple[float, Tuple[str, ...]]:
        length, path = max(map(longest, below[crate]), default=(0, ()))
        return length + minutes.get(crate, 0), (*path, crate)

    return longest(name)
