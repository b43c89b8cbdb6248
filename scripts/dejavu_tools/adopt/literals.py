"""Characters, strings and numbers of C, and how the language spells them."""
from __future__ import annotations

import hashlib
import re
from typing import Any, List, Optional, Tuple

from .types import INT, LONG, UNSIGNED, UNSIGNED_LONG, Number

PREFIXES = ("L", "u", "U")  # the first characters of `L`, `u8`, `u` and `U`
PIECE = re.compile(r'"((?:[^"\\]|\\.)*)"')
ESCAPE = re.compile(r"\\(x[0-9A-Fa-f]+|[0-7]{1,3}|.)|([^\\])", re.S)
SIMPLE = {"n": 10, "t": 9, "r": 13, "a": 7, "b": 8, "f": 12, "v": 11, "\\": 92, "'": 39, '"': 34, "?": 63}
SPELLED = {10: "\\n", 9: "\\t", 13: "\\r", 7: "\\a", 8: "\\b", 12: "\\f", 11: "\\v", 92: "\\\\", 0: "\\0"}

MOST_INT = 2_147_483_647
MOST_UNSIGNED = 4_294_967_295
PLAIN_NAME = re.compile(r"[A-Za-z0-9]+(?:[ _][A-Za-z0-9]+)*")
LONGEST_NAME = 24  # characters of a literal that its object's name shows


def decoded(text: str) -> List[int]:
    """The bytes that stand between quotes, escapes resolved (C11 6.4.4.4)."""
    found = []
    for escape, plain in ESCAPE.findall(text):
        if plain:
            found.extend(plain.encode("utf-8", "surrogateescape"))
        elif escape[0] == "x":
            found.append(int(escape[1:], 16) & 255)
        elif escape[0] in "01234567":
            found.append(int(escape, 8) & 255)
        else:
            found.append(SIMPLE.get(escape, ord(escape)))
    return found


def string_bytes(text: str) -> List[int]:
    """The bytes of a string literal, joined with those behind it, without the 0 at its end."""
    return [byte for piece in PIECE.findall(text) for byte in decoded(piece)]


def is_character(node: Any) -> bool:
    """Whether a constant is one of a character, or of several in one."""
    return node.value.endswith("'")


def has_prefix(node: Any) -> bool:
    """Whether a constant is a string or a character with a prefix, such as `L"a"`."""
    return node.value[-1:] in ("'", '"') and node.value[:1] in PREFIXES


def char_value(text: str) -> int:
    """The value of a character constant; one of several characters is what gcc makes of them."""
    data = decoded(text[1:-1])
    return signed_byte(data[0]) if len(data) == 1 else int.from_bytes(bytes(data[-4:]), "big", signed=len(data) > 3)


def signed_byte(byte: int) -> int:
    """A byte as a `char` has it."""
    return byte - 256 if byte > 127 else byte


def spelled_char(byte: int) -> str:
    """A byte as an initial value of a char."""
    if byte == 0:
        return "0"
    if byte in SPELLED:
        return f"'{SPELLED[byte]}'"
    if byte == ord("'"):
        return "'\\''"
    return f"'{chr(byte)}'" if 32 <= byte < 127 else str(signed_byte(byte))


def spelled_format(data: List[int]) -> List[str]:
    """The bytes of a format's literal text as strings that the language can spell, and as single bytes between them."""
    parts: List[str] = [""]
    for byte in data:
        if byte == 0 or byte > 126 or byte < 32 and byte not in SPELLED:
            parts.extend((str(byte), ""))
        elif byte == ord('"'):
            parts[-1] += '\\"'
        else:
            parts[-1] += SPELLED.get(byte, chr(byte))
    return parts


def number_value(text: str) -> Tuple[int, Optional[Number]]:
    """The value of a number, and its type on LP64 (6.4.4.1p5); None where that is no integer."""
    digits = text.rstrip("uUlL")
    suffix = text[len(digits):].lower()
    try:
        value = int(digits, 8) if re.fullmatch(r"0[0-7]+", digits) else int(digits, 0)
    except ValueError:
        return 0, None
    is_decimal = not digits.startswith("0") or digits == "0"
    if "l" not in suffix:
        if value <= MOST_INT and "u" not in suffix:
            return value, INT
        if value <= MOST_UNSIGNED and ("u" in suffix or not is_decimal):
            return value, UNSIGNED
    return value, UNSIGNED_LONG if "u" in suffix or value >= 1 << 63 else LONG


def spelled_number(text: str) -> str:
    """A number that an `int` or an `unsigned` holds, as the language spells it."""
    digits = text.rstrip("uUlL")
    return digits + ("u" if "u" in text[len(digits):].lower() else "")


def text_name(data: List[int]) -> str:
    """The name of the object that holds a string literal: by its content alone."""
    content = bytes(data)
    shown = content.decode("latin-1")
    if len(shown) <= LONGEST_NAME and PLAIN_NAME.fullmatch(shown) and "_" not in shown:
        return "text_" + shown.replace(" ", "_")
    start = re.sub(r"[^A-Za-z0-9]+", "_", shown[:LONGEST_NAME]).strip("_")
    return "_".join(part for part in ("text", start, hashlib.sha256(content).hexdigest()[:8]) if part)
