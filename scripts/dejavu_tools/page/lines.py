"""The lines of two texts beside each other."""
from __future__ import annotations

import os
from difflib import SequenceMatcher
from itertools import groupby, zip_longest
from typing import Iterator, List, NamedTuple, Optional, Sequence, Tuple

CONTEXT = 3  # lines around those that are told


class Pair(NamedTuple):
    """An old line and a new one beside each other, by their places from 0; None where there is none."""

    old: Optional[int]
    new: Optional[int]
    is_equal: bool


class Stretch(NamedTuple):
    """Pairs that follow one another, and whether they are told."""

    pairs: List[Pair]
    is_told: bool


def pairs_of(old: Sequence[bytes], new: Sequence[bytes], most: Optional[int] = None) -> List[Pair]:
    """All lines of two texts, each once: equal ones beside each other, and replaced ones beside what replaces them.

    Where there are more than `most` lines between the first that differs and the last, all of these are replaced ones:
    to find equal ones among lines that often recur takes time by the square of their number.
    """
    first = len(os.path.commonprefix([old, new]))
    behind = len(os.path.commonprefix([old[first:][::-1], new[first:][::-1]]))
    ends = len(old) - behind, len(new) - behind
    parts = [("replace", 0, ends[0] - first, 0, ends[1] - first)]
    if most is None or max(ends) - first <= most:
        parts = SequenceMatcher(None, old[first:ends[0]], new[first:ends[1]]).get_opcodes()
    found = [Pair(at, at, True) for at in range(first)]
    for kind, low, high, new_low, new_high in parts:
        places = zip_longest(range(first + low, first + high), range(first + new_low, first + new_high))
        found += [Pair(at, new_at, kind == "equal") for at, new_at in places]
    return found + [Pair(at, new_at, True) for at, new_at in zip(range(ends[0], len(old)), range(ends[1], len(new)))]


def stretches(pairs: Sequence[Pair], is_told: Sequence[bool], least: int = 1) -> Iterator[Stretch]:
    """The pairs in their order, cut into those that are told, with `CONTEXT` around each, and others.

    Others that are fewer than `least` are told too.
    """
    shows = [any(is_told[max(0, at - CONTEXT):at + CONTEXT + 1]) for at in range(len(pairs))]
    for told, group in groupby(range(len(pairs)), key=list(shows).__getitem__):
        places = list(group)
        for at in places:
            shows[at] = told or len(places) < least
    for told, group in groupby(range(len(pairs)), key=shows.__getitem__):
        yield Stretch([pairs[at] for at in group], told)


def differing(old: str, new: str) -> Tuple[range, range]:
    """The characters from the first to the last at which two lines differ; none where most of a line does."""
    before = len(os.path.commonprefix([old, new]))
    behind = len(os.path.commonprefix([old[before:][::-1], new[before:][::-1]]))
    if 2 * (before + behind) < max(len(old), len(new)) and not is_white(old, new):
        return range(0), range(0)
    return range(before, len(old) - behind), range(before, len(new) - behind)


def is_white(old: str, new: str) -> bool:
    """Whether two lines differ in white space alone."""
    return old != new and "".join(old.split()) == "".join(new.split())
