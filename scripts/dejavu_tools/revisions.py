"""The files of a version: those of a folder, or those of a revision, which are written into one for the time being."""
from __future__ import annotations

import os
import subprocess
from contextlib import contextmanager
from dataclasses import dataclass
from pathlib import Path
from typing import Iterator, Mapping, Optional, Tuple

from .errors import Told, ToolError


@dataclass(frozen=True)
class Version:
    """A version of a program, whose files can be read."""

    name: str  # as it was given
    top: Path  # the folder that has all of its files
    folder: Path  # the one of the settings: `top`, or one in it
    is_revision: bool

    def inside(self, file: str) -> str:
        """A file as the version's repository names it; one of a folder, or from outside, by its path."""
        beginning = f"{self.top}/"
        is_within = self.is_revision and file.startswith(beginning)
        return os.path.normpath(file[len(beginning):]) if is_within else file

    def told(self, text: str) -> str:
        """A text for people, in which the files of a revision stand as `git show` takes them."""
        return text.replace(f"{self.top}/", f"{self.name}:") if self.is_revision else text


@contextmanager
def told_of(*versions: Version) -> Iterator[None]:
    """Tells a `ToolError` within with the names that files have in these versions.

    A line that doesn't say of which version it is begins with the name of the one that there is.
    """
    try:
        yield
    except ToolError as error:
        text = str(error)
        for version in versions:
            text = version.told(text)
        if isinstance(error, Told):
            raise Told(text.split("\n"), error.status) from error
        is_named = len(versions) != 1 or versions[0].name in text
        raise ToolError(text if is_named else f"{versions[0].name}: {text}", error.status) from error


def version_of(name: str, home: Path, scratch: Path) -> Version:
    """The version that a word names: a folder where it begins with `.` or `/`, and else a revision.

    `home` is the folder of the settings, whose repository has the revision; its files are written into `scratch`, a
    folder that isn't there. Raises a `ToolError` where there is no such folder or revision.
    """
    if name.startswith((".", "/")):
        if not Path(name).is_dir():
            raise ToolError(f"{name}: there is no such folder")
        return Version(name, Path(name), Path(name), False)
    top = Path(os.fsdecode(asked(home, name, "rev-parse", "--show-toplevel")))
    commit = os.fsdecode(asked(home, name, "rev-parse", "--verify", "--quiet", f"{name}^{{commit}}"))
    take_out(top, commit, scratch)
    return Version(name, scratch, scratch / home.resolve().relative_to(top.resolve()), True)


def asked(home: Path, name: str, *words: str) -> bytes:
    """The line that git answers in this folder; a `ToolError` where it doesn't know the revision `name`."""
    done = git(home, words)
    if done.returncode:
        said = done.stderr.decode("utf-8", "surrogateescape").strip().split("\n")[0]
        raise ToolError(f"{name}: {said or unknown(home, name)}")
    return done.stdout.rstrip(b"\n")


def unknown(home: Path, name: str) -> str:
    """What is told of a revision that the repository of a folder doesn't have."""
    if git(home, ("rev-parse", "--is-shallow-repository")).stdout == b"true\n":
        return "git knows no such revision, and this clone is shallow: git fetch --deepen=1 brings one commit more"
    return f"git knows no such revision; a folder is written ./{name}"


def take_out(top: Path, commit: str, folder: Path) -> None:
    """Writes the files of a commit into a folder. The repository, its index and its files stay as they are.

    (`git archive` would leave out what has the attribute `export-ignore`, as tests often have.)
    """
    index = {"GIT_INDEX_FILE": str(folder.with_name(f"{folder.name}.index"))}
    for words in (("read-tree", commit), ("checkout-index", "--all", "--quiet", f"--prefix={folder}/")):
        done = git(top, ("-c", "core.sparseCheckout=false", *words), index)
        if done.returncode:
            said = done.stderr.decode("utf-8", "surrogateescape").strip().split("\n")[-1]
            raise ToolError(f"the files of {commit} can't be had: {said}")
    folder.mkdir(exist_ok=True)  # a commit may have no files


def git(
    folder: Path, words: Tuple[str, ...], more: Optional[Mapping[str, str]] = None
) -> subprocess.CompletedProcess[bytes]:
    """What git does in a folder, with these variables besides; a `ToolError` where there is no git."""
    try:
        return subprocess.run(["git", *words], cwd=folder, env={**os.environ, **(more or {})}, stdin=subprocess.DEVNULL,
                              stdout=subprocess.PIPE, stderr=subprocess.PIPE, check=False)
    except OSError as error:
        raise ToolError(f"git: {error.strerror}") from error
