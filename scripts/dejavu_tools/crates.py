"""The crates that the program is built from, and a sum over all that decides what it does.

Each call of ./dejavu reads all their files, so this imports little, and asks little of the system for each of them.
"""
from __future__ import annotations

import hashlib
import os

from .errors import Unbuilt

PROGRAM = "dejavu"  # the program's crate
PARTS = (b"src", b"specs", b"proofs", b"c")  # the folders of a crate that rt reads for it

BLOCK = 1 << 16  # bytes, more than most files have


class Crates:
    """The program's crate and all that it stands on, each behind those that it stands on.

    `lines` has the line of each in crates.txt, and `libraries` the crates that it names; those of the kit have no line.
    """

    def __init__(self, top: str) -> None:
        self.top = os.fsencode(top)
        self.lines: dict[str, str] = {}
        self.libraries: dict[str, list[str]] = {}
        listed = read_lines(os.path.join(top, "crates.txt"))
        if PROGRAM not in listed:
            raise Unbuilt(f"crates.txt has no line of the crate {PROGRAM}")
        self.add(PROGRAM, listed, set())

    def add(self, name: str, listed: dict[str, str], begun: set[str]) -> None:
        """Adds a crate behind what it stands on."""
        begun.add(name)
        libraries = [library for library in words_of(listed[name])[1:] if library in listed]
        for library in libraries:
            if library not in begun:
                self.add(library, listed, begun)
        self.lines[name] = listed[name]
        self.libraries[name] = libraries

    def sum(self) -> str:
        """A sum over HANDLES, the lines of the crates, and the names and contents of their files."""
        try:
            total = hashlib.sha256(framed([b"handles", read(os.path.join(self.top, b"HANDLES"))]))
            for name, line in self.lines.items():
                parts = [b"crate", os.fsencode(line)]
                for path in files_of(os.path.join(self.top, b"crates", os.fsencode(name))):
                    parts += b"file", path[len(self.top):], read(path)
                total.update(framed(parts))
        except OSError as error:
            raise unreadable(error) from error
        return total.hexdigest()


def framed(parts: list[bytes]) -> bytes:
    """The parts in one, each behind its length, so that other parts never give the same bytes."""
    return b"".join([piece for part in parts for piece in (b"%d:" % len(part), part)])


def unreadable(error: OSError) -> Unbuilt:
    """What is said where a file can't be read that the program is built from."""
    where = f"{os.fsdecode(error.filename)}: " if error.filename else ""
    return Unbuilt(f"what the program is built from can't be read: {where}{error.strerror}")


def words_of(line: str) -> list[str]:
    """The names in a line of crates.txt, of which the first is the crate's."""
    return line.replace(":", " ").replace(",", " ").split()


def read_lines(path: str) -> dict[str, str]:
    """The lines of crates.txt by the names of their crates, without comments."""
    try:
        text = os.fsdecode(read(path))
    except OSError as error:
        raise unreadable(error) from error
    lines = [line.partition("#")[0].strip() for line in text.splitlines()]
    return {words_of(line)[0]: line for line in lines if words_of(line)}


def files_of(crate: bytes) -> list[bytes]:
    """The files of a crate that rt reads for it, in the order of the bytes of their names."""
    folders = [os.path.join(crate, part) for part in PARTS]
    folders = [folder for folder in folders if os.path.isdir(folder)]
    files = []
    for folder in folders:  # they grow by those within
        with os.scandir(folder) as entries:
            for entry in entries:
                if entry.is_dir(follow_symlinks=False):
                    folders.append(entry.path)
                elif entry.is_file():
                    files.append(entry.path)
    return sorted(files)


def read(path: bytes | str) -> bytes:
    """The bytes of a file, with half of the calls to the system that `open` and `read` take."""
    file = os.open(path, os.O_RDONLY | os.O_CLOEXEC)
    try:
        data = last = os.read(file, BLOCK)
        while len(last) == BLOCK:
            last = os.read(file, BLOCK)
            data += last
        return data
    finally:
        os.close(file)
