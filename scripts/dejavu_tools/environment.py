"""Libraries that a script wants beside Python's own, in the version that the repository is tested with.

Where the Python that runs a script doesn't have that version, pip puts it into the folder .environment of the
repository, once. Nothing else of the machine is changed.
"""
from __future__ import annotations

import os
import shutil
import subprocess
import sys
from importlib import metadata
from pathlib import Path

from .console import say
from .errors import ToolError

FOLDER = Path(__file__).resolve().parents[2] / ".environment"

VERSIONS = {"pycparser": "3.0"}  # which wants Python 3.10


def provide(library: str) -> None:
    """Makes a library of `VERSIONS` one that can be imported.

    Raises a `ToolError` with the line that installs it where it isn't there and pip can't bring it.
    """
    version = VERSIONS[library]
    if installed(library) == version:
        return
    folder = FOLDER / f"{library}-{version}"
    if not folder.is_dir():
        install(f"{library}=={version}", folder)
    sys.path.insert(0, str(folder))


def installed(library: str) -> str:
    """The version of a library that can be imported as it is; "" where there is none."""
    try:
        return metadata.version(library)
    except metadata.PackageNotFoundError:
        return ""


def install(wanted: str, folder: Path) -> None:
    """Puts a library into a new folder, which appears whole or not at all; a `ToolError` where that can't be."""
    say(f"{wanted} goes into {folder.parent}, once")
    part = folder.with_name(f"{folder.name}.{os.getpid()}.part")
    words = [sys.executable, "-m", "pip", "install", "--quiet", "--no-deps", "--target", str(part), wanted]
    try:
        done = subprocess.run(words, stdout=subprocess.PIPE, stderr=subprocess.STDOUT, text=True, check=False)
        if done.returncode:
            raise unavailable(wanted, (done.stdout.strip() or "pip fails").splitlines()[-1])
        part.rename(folder)
    except OSError as error:
        if not folder.is_dir():  # it is, where another script was faster
            raise unavailable(wanted, f"{error.filename}: {error.strerror}") from error
    finally:
        shutil.rmtree(part, ignore_errors=True)


def unavailable(wanted: str, why: str) -> ToolError:
    """What is told where a library can't be had."""
    return ToolError(f"{wanted} is wanted, and can't be had: {why}: {sys.executable} -m pip install {wanted}")
