"""How far the proofs are, by what rt says, and how long the rest may take."""
from __future__ import annotations

import os
import time

from .console import say
from .crates import Crates

# What is known of a crate: that it has to be proved, that it was, that rt is done with it, or nothing.
WANTED, PROVED, ENDED, UNKNOWN = "wanted", "proved", "ended", "unknown"


class Progress:
    """Takes the lines of `rt all check`, and tells of each crate that was proved.

    rt writes `== NAME` as it is done with a crate, and then what was said of it: nothing where what it kept is still
    good. Behind `== summary` stands which crates failed; `failed` is the first.
    """

    def __init__(self, crates: Crates, workers: int) -> None:
        self.libraries = crates.libraries
        self.folder = os.path.join(os.fsdecode(crates.top), "crates")
        self.workers = workers
        self.state = dict.fromkeys(crates.libraries, UNKNOWN)
        self.begun = time.monotonic()
        self.crate = ""
        self.ended = 0
        self.is_summary = False
        self.failed = ""
        self.mark_wanted()

    def begin(self) -> None:
        """Says what has to be proved."""
        count = len(self.libraries)
        what = f"{count} crates, which takes half an hour to an hour on four processors"
        if UNKNOWN in self.state.values():
            what = f"what changed of {count} crates and what stands on it"
        say(f"dejavu: the program has to be built: proving {what}")

    def take(self, line: str) -> None:
        """Takes a line of what rt says."""
        if line == "== summary":
            self.crate, self.is_summary = "", True
        elif line.startswith("== "):
            self.crate = line[len("== "):]
            self.ended += 1
            self.state[self.crate] = ENDED
        elif self.is_summary:
            if ": failed" in line:
                self.failed = self.failed or line.partition(":")[0]
        elif line.startswith("logic=proved ") and self.crate and self.state[self.crate] != PROVED:
            self.state[self.crate] = PROVED
            self.tell()

    def tell(self) -> None:
        """Says that the crate is proved, and once a fifth of the way is gone how long the rest may take."""
        self.mark_wanted()
        rest, left, steps = "", self.steps(WANTED), self.steps(PROVED, WANTED)
        if 5 * (steps - left) >= steps:
            minutes = -int((self.begun - time.monotonic()) * left / (steps - left) // 60)
            rest = f"; some {minutes} minutes to go" if minutes > 1 else "; about a minute to go"
        say(f"dejavu: {self.crate} is proved, {self.ended} of {len(self.libraries)}{rest}")

    def mark_wanted(self) -> None:
        """Marks the crates that are still to be proved, as far as this is known before rt comes to them.

        These are those of which nothing is kept, and those above one that was or is to be proved.
        """
        for crate, libraries in self.libraries.items():
            if self.state[crate] in (UNKNOWN, WANTED):
                stands_on_new = any(self.state[library] in (PROVED, WANTED) for library in libraries)
                if stands_on_new or not os.path.isdir(os.path.join(self.folder, crate, "out", "rlib")):
                    self.state[crate] = WANTED

    def steps(self, *states: str) -> int:
        """How many steps the crates in these states take, where each crate is one, and the program is one more.

        That is the longest chain of them, or all shared among the workers if that is more.
        """
        chain: dict[str, int] = {}
        for crate, libraries in self.libraries.items():
            if self.state[crate] in states:
                chain[crate] = 1 + max((chain.get(library, 0) for library in libraries), default=0)
        return max(-(-len(chain) // self.workers), max(chain.values(), default=0)) + 1
