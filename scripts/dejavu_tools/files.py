"""Files that are read, and files that appear whole or not at all."""
from __future__ import annotations

import errno
import os
import stat
from contextlib import contextmanager, suppress
from pathlib import Path
from typing import Iterator, List, Mapping, Optional

from .errors import ToolError


@contextmanager
def told_of(path: Path) -> Iterator[None]:
    """Tells an error of the system within as a `ToolError` of this file."""
    try:
        yield
    except OSError as error:
        raise ToolError(f"{path}: {error.strerror}") from error


def read_file(path: Path, most: Optional[int] = None) -> bytes:
    """The bytes of a file, of a longer one than `most` the first `most` + 1; a `ToolError` where it can't be read."""
    with told_of(path), path.open("rb") as file:
        return file.read() if most is None else file.read(most + 1)


def files_in(folder: Path, ending: str) -> List[Path]:
    """The files of a folder whose names end so and don't begin with a dot, in the order of the bytes of their names.

    Raises a `ToolError` where the folder can't be read or has none, or where one of them is no plain file.
    """
    with told_of(folder):
        names = sorted(os.listdir(folder), key=os.fsencode)
    paths = [folder / name for name in names if name.endswith(ending) and not name.startswith(".")]
    if not paths:
        raise ToolError(f"{folder}: there is no file *{ending}")
    for path in paths:
        with told_of(path):
            if not path.is_file():
                raise ToolError(f"{path}: this is no file")
    return paths


def check_place(path: Path) -> None:
    """Raises a `ToolError` where it shows already that a file can't be written; nothing is written."""
    with told_of(path):
        if path.is_dir():
            raise IsADirectoryError(errno.EISDIR, os.strerror(errno.EISDIR))
        if not is_stream(path):
            check_writable(Path(os.path.realpath(path)).parent)
        elif not os.access(path, os.W_OK):
            raise PermissionError(errno.EACCES, os.strerror(errno.EACCES))


def check_folder(folder: Path) -> None:
    """Raises a `ToolError` where it shows already that no files can be put into a folder, or that it can't be made."""
    with told_of(folder):
        check_writable(next(it for it in (folder, *folder.absolute().parents) if os.path.lexists(it)))


def check_writable(folder: Path) -> None:
    """Raises an `OSError` where no file can be put into a folder by its rights, or where it is none."""
    number = 0
    if not stat.S_ISDIR(folder.stat().st_mode):
        number = errno.ENOTDIR
    elif os.statvfs(folder).f_flag & os.ST_RDONLY:
        number = errno.EROFS
    elif not os.access(folder, os.W_OK | os.X_OK):
        number = errno.EACCES
    if number:
        raise OSError(number, os.strerror(number))


def is_stream(path: Path) -> bool:
    """Whether a path names a device, a pipe or what a descriptor has open, which takes text and isn't replaced."""
    try:
        mode = path.stat().st_mode
    except OSError:
        return False
    is_other = not stat.S_ISREG(mode) and not stat.S_ISDIR(mode)
    return is_other or str(path.absolute()).startswith(("/dev/", "/proc/"))


def write_whole(texts: Mapping[Path, bytes]) -> None:
    """Writes files, each of which appears whole or not at all: all are written beside their places, then renamed.

    A link stays, and leads to the new file. What is a stream is written to behind that. Raises a `ToolError` of the first
    that can't be written. None appears where that shows before the renaming.
    """
    places = {path: Path(os.path.realpath(path)) if os.path.islink(path) else path for path in texts if not is_stream(path)}
    parts = {path: place.with_name(f"{place.name}.{os.getpid()}.part") for path, place in places.items()}
    try:
        for path, part in parts.items():
            with told_of(path):
                write_part(path, part, texts[path])
        for path, part in parts.items():
            with told_of(path):
                part.replace(places[path])
        for path in texts.keys() - parts.keys():
            with told_of(path), path.open("ab") as stream:
                stream.write(texts[path])
    finally:
        for part in parts.values():
            with suppress(OSError):  # it was renamed, or never came to be
                part.unlink()


def write_part(path: Path, part: Path, data: bytes) -> None:
    """Writes a new file that is to be renamed to `path`; an `OSError` where that can't be."""
    if path.is_dir():
        raise IsADirectoryError(errno.EISDIR, os.strerror(errno.EISDIR))
    with part.open("xb") as file:
        file.write(data)
