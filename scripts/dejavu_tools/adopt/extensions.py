"""Words of gcc beside C11 that say nothing about what a program does: they become blanks, so that all else keeps its place."""
from __future__ import annotations

import re

# Attributes that only tell the compiler what to expect, or what to warn of.
ATTRIBUTES = (
    "access alloc_size always_inline artificial cold const deprecated fallthrough flatten format format_arg hot leaf malloc"
    " noclone noinline nonnull nonstring noreturn nothrow pure returns_nonnull sentinel unused used visibility"
    " warn_unused_result"
).split()
WORDS = "const const__ extension__ inline inline__ restrict restrict__ volatile volatile__".split()  # behind `__`

ARGUMENTS = r"(?:\s*\([^()]*\))?"
ATTRIBUTE = rf"(?:__)?(?:{'|'.join(ATTRIBUTES)})(?:__)?{ARGUMENTS}"
SILENT = re.compile(
    r'"(?:[^"\\\n]|\\.)*"|\'(?:[^\'\\\n]|\\.)*\''
    rf"|(?P<silent>\b__attribute(?:__)?\s*\(\s*\(\s*{ATTRIBUTE}(?:\s*,\s*{ATTRIBUTE})*\s*\)\s*\)|\b__(?:{'|'.join(WORDS)})\b)"
)


def without_extensions(text: str) -> str:
    """The text with blanks in place of these words; its lines, and the columns of all other words, stay."""
    return SILENT.sub(lambda match: re.sub(r"\S", " ", match.group()) if match["silent"] else match.group(), text)
