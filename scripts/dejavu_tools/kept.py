"""The programs that were built: each stands under a name that says what it was built from."""
from __future__ import annotations

import os

from .crates import PROGRAM, Crates
from .errors import Unbuilt

# So many are kept, since another call may be about to run an older one.
MOST_KEPT = 4


class Place:
    """Where the programs of a checkout stand."""

    def __init__(self, top: str) -> None:
        self.top = top
        self.crate = os.path.join(top, "crates", PROGRAM)
        self.built = os.path.join(self.crate, "out", "built")
        self.log = os.path.join(self.crate, "out", "proofs.log")

    def path(self) -> str:
        """Where the program for the files and the kit as they stand is, or would be.

        Where no kit is there, the program of any kit will do.
        """
        start = f"{PROGRAM}-{Crates(self.top).sum()}-"
        rt = find_rt()
        if rt:
            return os.path.join(self.built, start + kit_name(rt))
        names = sorted(name for name in self.names() if name.startswith(start))
        paths = [os.path.join(self.built, name) for name in names or [start]]
        return next(filter(is_program, paths), paths[0])

    def names(self) -> list[str]:
        """The names of what stands beside the programs, and of these."""
        try:
            return os.listdir(self.built)
        except OSError:
            return []

    def forget_old(self, path: str) -> None:
        """Deletes all programs but this one and the newest of the others."""
        others = [os.path.join(self.built, name) for name in self.names() if name.startswith(f"{PROGRAM}-")]
        others = sorted((it for it in others if it != path), key=os.path.getmtime)
        for other in others[:1 - MOST_KEPT]:
            try:
                os.unlink(other)
            except OSError:
                pass  # another time


def is_program(path: str) -> bool:
    """Whether this is a file that can be run."""
    return os.path.isfile(path) and os.access(path, os.X_OK)


def find_rt() -> str | None:
    """The path of rt, where it is on the PATH."""
    paths = [os.path.join(folder, "rt") for folder in os.get_exec_path()]
    return next(map(os.path.abspath, filter(is_program, paths)), None)


def kit_name(rt: str) -> str:
    """What `rt version` says, as part of a file's name."""
    kit = kit_line(rt) or version_of(rt)
    return "".join(it if it.isascii() and it.isalnum() or it in ".-" else "_" for it in kit)


def kit_line(rt: str) -> str:
    """What the kit's file says. rt takes 0.3 s to print it, so it is read where it stands, if it does."""
    path = os.path.realpath(rt)
    folder = path[:-len("/bin/rt")] if path.endswith("/bin/rt") else path
    try:
        with open(os.path.join(folder, "KIT-ID"), encoding="utf-8", errors="replace") as file:
            return file.readline().strip()
    except OSError:
        return ""


def version_of(rt: str) -> str:
    """What rt itself says."""
    import subprocess  # which takes a while, and is hardly ever wanted

    try:
        asked = subprocess.run([rt, "version"], stdin=subprocess.DEVNULL, stdout=subprocess.PIPE, check=True)
    except (OSError, subprocess.CalledProcessError):
        raise Unbuilt("rt version fails, so it isn't known which kit is there") from None
    return asked.stdout.decode("utf-8", "replace").rstrip("\n")
