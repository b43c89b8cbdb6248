"""Functions of the C library as functions of the language (docs/language.md).

`FUNCTIONS` has them by name: that of C, or of a variant of it. Their text is that of `library.c`, where each piece says
what its parameters are.

- `strlen` is `std_strlen(text)`: an argument is a whole array. `strlen_at` is `std_strlen_at(text, text_at)`: behind
  each array comes an offset, the index of the element at which the argument begins, so that `memcpy(&out[n], word, k)`
  is `std_memcpy_at(out, n, word, 0, k)`. Most that take an array are there in both forms.
- `strchr_index` gives how far behind its first argument the result is, or -1 for NULL, and `strchr_found` whether it
  isn't NULL; so do `memchr_..`, `strpbrk_..` and `strstr_..`, and `strrchr_index`.
- `print_text`, `print_padded_text`, `print_int`, `print_number` and `pad` are the conversions of `printf`.
- `write_text_at`, `write_padded_text_at`, `write_int`, `write_number` and `write_pad` write the same to a char array,
  behind what was written since `written` became 0; so does `write_byte`, and `write_end` writes the 0 at its end. There
  is `room` for so many bytes: what has none is counted and not written.
- `DECLARED` are the names of all functions and macros that the headers in `include` declare.
- `scan_int` is `scanf("%d", ..)`: where it gives 1, the number is in the object `std_scanned`.
- `getchar` is for units that push a byte back, by `ungetc` or `scan_int`: where it is among the functions of a unit,
  what the unit itself reads has to be read by `std_getchar` too.
"""
from __future__ import annotations

import re
from dataclasses import dataclass
from pathlib import Path
from typing import Dict, Iterable, Iterator, Tuple

TEXT = Path(__file__).with_name("library.c")

DEFINED = re.compile(r"^(?:void|int|unsigned) std_(\w+)", re.MULTILINE)
NAMED = re.compile(r"\bstd_(\w+)")
PRINTING = re.compile(r"\bstd_(?:pad|print_(\w+))\b")
WRITING = re.compile(r"(\bstd_write_\w+\()")
OFFSETS = re.compile(r", (?:unsigned )?\w+_at\b(?! \+)|\b\w+_at \+ |_at(?=\()")

HEADERS = Path(__file__).resolve().with_name("include")  # stand in for those of the system
DECLARED = frozenset(
    name for header in HEADERS.rglob("*.h") for name in re.findall(r"\b(\w+)\(", header.read_text(encoding="ascii")))


@dataclass(frozen=True)
class LibraryFunction:
    """A function `std_NAME`, or the objects that such functions share."""

    name: str  # without `std_`
    text: str  # its definition, which ends with a newline
    needs: Tuple[str, ...]  # the names of those that its text names


def pieces(text: str) -> Iterator[str]:
    """The definitions that a text has between its empty lines, and those that are made of one.

    Before one with offsets comes the same without, and behind one that prints what writes the same to a char array.
    """
    for piece in text.rstrip("\n").split("\n\n"):
        name = DEFINED.search(piece)
        if name and name[1].endswith("_at") and name[1] != "memmove_at":
            yield OFFSETS.sub("", piece) + "\n"
        if name:
            yield piece + "\n"
        if name and PRINTING.fullmatch(f"std_{name[1]}"):
            yield into_array(piece) + "\n"


def into_array(piece: str) -> str:
    """What writes to a char array what a function prints; each call hands the array and its start on."""
    text = PRINTING.sub(lambda match: "std_write_" + (match[1] or "pad"), piece).replace("putchar(", "std_write_byte(")
    head = DEFINED.search(text)
    body = text.index("{", head.start())
    started = text[head.start():body].replace("(", "(char to[], unsigned start, ", 1)
    return text[:head.start()] + started + WRITING.sub(r"\1to, start, ", text[body:])


def read(text: str) -> Dict[str, LibraryFunction]:
    """The functions that a text defines, by name, in its order: what is named stands before what names it."""
    functions: Dict[str, LibraryFunction] = {}
    for piece in pieces(text):
        name = DEFINED.search(piece)[1]
        named = dict.fromkeys(NAMED.findall(piece))
        functions[name] = LibraryFunction(name, piece, tuple(other for other in named if other in functions))
    return functions


FUNCTIONS = read(TEXT.read_text(encoding="ascii"))


def with_needs(names: Iterable[str]) -> Dict[str, LibraryFunction]:
    """The functions of these names and all that they need, in the order of `FUNCTIONS`."""
    wanted = set()
    waiting = list(names)
    while waiting:
        name = waiting.pop()
        if name not in wanted:
            wanted.add(name)
            waiting.extend(FUNCTIONS[name].needs)
    return {name: function for name, function in FUNCTIONS.items() if name in wanted}


def definitions(names: Iterable[str]) -> str:
    """The text of the functions of these names and of all that they need, each once, whatever the order of the names.

    Gives "" for no names. Where `getchar` is among them, the others read by it.
    """
    functions = with_needs(names)
    texts = [
        function.text.replace(" getchar()", " std_getchar()") if name != "getchar" and "getchar" in functions
        else function.text
        for name, function in functions.items()
    ]
    return "\n".join(texts)
