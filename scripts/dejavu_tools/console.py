"""What scripts write for people, and how they end."""
from __future__ import annotations

import os
import signal
import sys
from contextlib import suppress
from typing import Callable, Iterable, Tuple, Union

from .errors import Told, ToolError

OUTPUT, ERROR = 1, 2  # the descriptors of standard output and standard error

UNWRITTEN = 7  # the exit status where standard output can't be written, as of `dejavu`
SIGNALLED = 128  # and the number of the signal


class Stopped(BaseException):
    """A signal has come that ends the script."""

    def __init__(self, number: int) -> None:
        super().__init__(number)
        self.number = number


def readable(text: Union[str, bytes]) -> str:
    """The text with escapes for what can't be seen and for bytes that are no UTF-8. Tabs stay; no newline does."""
    data = text if isinstance(text, bytes) else text.encode("utf-8", "surrogateescape")
    return "".join(
        character if character.isprintable() or character == "\t" else escaped(character)
        for character in data.decode("utf-8", "backslashreplace")
    )


def escaped(text: Union[str, bytes]) -> str:
    """The text in ASCII, with an escape for each character, or byte, that is no printable one, and for each `\\`."""
    characters = text.decode("latin-1") if isinstance(text, bytes) else text
    return characters.encode("unicode_escape").decode("ascii")


def parts_around(line: bytes, at: int, room: int, show: Callable[[bytes], str]) -> Tuple[str, str]:
    """What is shown of a line before a byte and from that byte on: at most `room` bytes each, `..` for what is cut."""
    start, end = max(0, at - room), at + room
    return (".." if start else "") + show(line[start:at]), show(line[at:end]) + (".." if end < len(line) else "")


def write_all(descriptor: int, data: bytes) -> None:
    """Writes all of this at once; an `OSError` where that can't be."""
    rest = memoryview(data)
    while rest:
        rest = rest[os.write(descriptor, rest):]


def say(*lines: str) -> None:
    """Writes lines to standard error, where there is one that can be written."""
    say_bytes("".join(f"{readable(line)}\n" for line in lines).encode("utf-8"))


def say_bytes(text: bytes) -> None:
    """Writes what another program said to standard error, as it is, where there is one that can be written."""
    if sys.stderr:
        with suppress(OSError):
            write_all(ERROR, text)


def put(text: bytes) -> None:
    """Writes the text of a script to standard output; a `ToolError` where that fails, unless its reader went away."""
    try:
        write_all(OUTPUT, text)
    except BrokenPipeError:
        raise
    except OSError as error:
        raise ToolError(f"standard output: {error.strerror}", UNWRITTEN) from error


def put_lines(lines: Iterable[str]) -> None:
    """Writes lines to standard output, all at once, in the same way."""
    put("".join(f"{line}\n" for line in lines).encode("utf-8", "surrogateescape"))


def ended(name: str, work: Callable[[], int]) -> int:
    """The exit status of a script: that of its work, or of what keeps it from this, of which a line is written.

    Nothing is said where whoever reads standard output went away, or where a signal ends it; what is behind `finally`
    and `with` is done then.
    """
    for number in (signal.SIGTERM, signal.SIGHUP):
        if signal.getsignal(number) is signal.SIG_DFL:
            signal.signal(number, stop)
    try:
        return work()
    except Told as error:
        say(*error.lines)
        return error.status
    except ToolError as error:
        say(f"{name}: {error}")
        return error.status
    except BrokenPipeError:
        return UNWRITTEN
    except OSError as error:
        say(f"{name}: {error.filename or 'the system'}: {error.strerror}")
        return 2
    except KeyboardInterrupt:
        return SIGNALLED + signal.SIGINT
    except Stopped as stopped:
        return SIGNALLED + stopped.number


def stop(number: int, _: object) -> None:
    """Ends the work that a signal comes to, as an interrupt does."""
    raise Stopped(number)
