"""Preprocessed text as the external declarations that it is made of, and the names that one declares (C11 6.9).

These are found by the brackets alone, so that also a declaration has its end that nothing here can read.
"""
from __future__ import annotations

import re
from dataclasses import dataclass
from typing import Dict, Iterator, List, Optional, Set, Tuple

TOKEN = re.compile(r'"(?:[^"\\]|\\.)*"|\'(?:[^\'\\]|\\.)*\'|[A-Za-z_$][\w$]*|\.?\d[\w.]*|\S')
PAIRS = {"(": ")", "[": "]", "{": "}"}
NAME = re.compile(r"[A-Za-z_$][\w$]*")
OLD_HEAD = re.compile(r"\(\s*[A-Za-z_$][\w$,\s]*\)\s*[A-Za-z_$][\w$]*[\s*]")  # `(a, b) int a`, as in an old definition
ATTRIBUTES = {"__attribute__", "__attribute", "__asm__", "__asm", "asm", "__declspec", "_Alignas"}
TYPE_WORDS = {
    "void", "char", "short", "int", "long", "float", "double", "signed", "unsigned", "_Bool", "_Complex", "const",
    "volatile", "restrict", "static", "extern", "inline", "typedef", "typeof", "__typeof__", "__typeof", "_Atomic",
}
TAGGED = {"struct", "union", "enum"}


@dataclass(frozen=True)
class Item:
    """Where an external declaration begins and ends in its text, and where what stands in a function's braces does."""

    start: int
    end: int
    body: Optional[Tuple[int, int]] = None


@dataclass
class Declared:
    """The names of objects, functions or types that an item declares, and the tags and constants that it defines."""

    names: Set[str]
    tags: Set[str]
    constants: Set[str]
    is_typedef: bool


class Tokens:
    """The tokens of a text, and for each opening bracket the number of the one that closes it."""

    def __init__(self, text: str) -> None:
        self.found = list(TOKEN.finditer(text))
        self.words = [match.group() for match in self.found]
        self.closing: Dict[int, int] = {}
        waiting: List[int] = []
        for k, word in enumerate(self.words):
            if word in PAIRS:
                waiting.append(k)
            elif waiting and word == PAIRS[self.words[waiting[-1]]]:
                self.closing[waiting.pop()] = k
        self.closing.update(dict.fromkeys(waiting, len(self.words) - 1))

    def outermost(self) -> Iterator[int]:
        """The numbers of the tokens outside of brackets, opening ones among them; attributes are left out."""
        k = 0
        while k < len(self.words):
            if self.words[k] in ATTRIBUTES and k + 1 in self.closing:
                k += 1
            else:
                yield k
            k = self.closing.get(k, k) + 1


def split(text: str) -> List[Item]:
    """The external declarations of a text, in order."""
    tokens = Tokens(text)
    items: List[Item] = []
    first = 0
    before = ""
    for k in tokens.outermost():
        word = tokens.words[k]
        close = tokens.closing.get(k, k)
        is_body = word == "{" and before in ("", ")")
        before = tokens.words[close]
        if word == ";" or is_body:
            body = (tokens.found[k].end(), tokens.found[close].start()) if is_body else None
            start = tokens.found[first].start()
            if is_body and first == k:
                start = old_head(text, items, start)
            items.append(Item(start, tokens.found[close].end(), body))
            first, before = close + 1, ""
    if first < len(tokens.words):
        items.append(Item(tokens.found[first].start(), len(text)))
    return items


def old_head(text: str, items: List[Item], start: int) -> int:
    """Where the head begins of a body that begins at `start`, in the old style; the items that it is are taken out."""
    for k in range(len(items) - 1, -1, -1):
        if items[k].body is not None:
            break
        if OLD_HEAD.search(text, items[k].start, items[k].end):
            start = items[k].start
            del items[k:]
            break
    return start


def declared(text: str) -> Declared:
    """What the text of an item declares."""
    tokens = Tokens(text)
    outer = list(tokens.outermost())
    found = Declared(set(), set(), set(), False)
    for k, behind in zip(outer, [*outer[1:], len(tokens.words)]):
        word = tokens.words[k]
        follows = tokens.words[behind] if behind < len(tokens.words) else ";"
        found.is_typedef = found.is_typedef or word == "typedef"
        if word == "(":
            found.names.update(pointed(tokens.words[k + 1:tokens.closing[k]]))
        elif word == "{" and "enum" in tokens.words[:k]:
            found.constants.update(listed(tokens.words[k:tokens.closing[k]]))
        elif NAME.fullmatch(word) and word not in TAGGED and follows == "{":
            found.tags.add(word)
        elif NAME.fullmatch(word) and word not in TYPE_WORDS and follows in (",", ";", "=", "[", "(", ":"):
            found.names.add(word)
    return found


def pointed(words: List[str]) -> List[str]:
    """The name that a declarator in brackets has, such as `*name`."""
    if words[:1] != ["*"]:
        return []
    return [word for word in words if NAME.fullmatch(word) and word not in TYPE_WORDS][:1]


def listed(words: List[str]) -> List[str]:
    """The names that stand behind the opening brace or a comma of a list."""
    return [word for before, word in zip(words, words[1:]) if before in ("{", ",") and NAME.fullmatch(word)]
