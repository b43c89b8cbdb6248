"""Texts and elements of HTML. What comes from outside passes `shown` or `plain`; all else here is HTML already."""
from __future__ import annotations

import html
import re
from typing import Iterable, Sequence, Union

MOST_LISTED = 20  # in one list

# Characters that aren't seen, or that change how others are: controls but the tab, bytes that are no UTF-8, and what
# Unicode has for formatting.
UNSEEN = re.compile(
    "[\0-\x08\n-\x1f\x7f-\x9f\xad\u061c\u180e\u200b-\u200f\u2028-\u202e\u2060-\u206f\ufeff\ud800-\udfff"
    "\U000e0000-\U000e0fff]"
)
NAMES = {"\n": "\\n", "\r": "\\r"}
WHITE = str.maketrans({" ": "\u00b7", "\t": "\u2192"})


def name_of(unseen: re.Match[str]) -> str:
    """What stands for a character that isn't seen."""
    code = ord(unseen[0])
    if 0xDC80 <= code <= 0xDCFF:  # a byte that is no UTF-8
        return f"\\x{code - 0xDC00:02x}"
    return NAMES.get(unseen[0]) or (f"\\x{code:02x}" if code < 0x100 else f"U+{code:04X}")


def decoded(text: Union[str, bytes]) -> str:
    """The text, in which each byte that is no UTF-8 is a lone surrogate."""
    return text.decode("utf-8", "surrogateescape") if isinstance(text, bytes) else text


def plain(text: Union[str, bytes]) -> str:
    """A text for an attribute or a title, with names in place of what isn't seen."""
    return UNSEEN.sub(name_of, html.escape(decoded(text)))


def shown(text: Union[str, bytes]) -> str:
    """The same for the page, with these names set apart."""
    return UNSEEN.sub(lambda unseen: f"<i>{name_of(unseen)}</i>", html.escape(decoded(text)))


def marked(text: str, differing: range, words: Iterable[range] = (), shows_white: bool = False) -> str:
    """A text with the characters set apart that differ, in which white space may be seen, and those of some words."""
    tags = (("mark", [differing]), ("em", list(words)))
    ends = (end for _, parts in tags for part in parts for end in (part.start, part.stop))
    cuts = sorted({0, len(text), *(end for end in ends if 0 < end < len(text))})
    pieces = []
    for start, stop in zip(cuts, cuts[1:]):
        piece = text[start:stop]
        html_piece = shown(piece.translate(WHITE) if shows_white and start in differing else piece)
        for tag, parts in tags:
            if any(start in part for part in parts):
                html_piece = f"<{tag}>{html_piece}</{tag}>"
        pieces.append(html_piece)
    return "".join(pieces)


def code(text: Union[str, bytes]) -> str:
    """A piece of a program or of its output."""
    return f"<code>{shown(text)}</code>"


def counted(count: int, word: str) -> str:
    """So many of what the word names."""
    return f"{count:,} {word}{'' if count == 1 else 's'}"


def listed(items: Sequence[str], most: int = MOST_LISTED) -> str:
    """The first of these, and how many more there are."""
    more = len(items) - most
    return ", ".join(items[:most]) + (f" and {more:,} more" if more > 0 else "")


def link(name: str, text: str) -> str:
    """A link to what has this name as its `id`, which is escaped here."""
    return f'<a href="#{plain(name)}">{text}</a>'


def row(first: str, *cells: str, name: str = "") -> str:
    """A row of a table, whose first cell is its head; `name` is the `id` of the row, if it has one."""
    opening = f'<tr id="{plain(name)}">' if name else "<tr>"
    return f'{opening}<th scope="row">{first}</th>{"".join(f"<td>{cell}</td>" for cell in cells)}</tr>'


def head(*names: str) -> str:
    """The heads of a table's columns."""
    return "<thead><tr>" + "".join(f'<th scope="col">{name}</th>' for name in names) + "</tr></thead>"


def table(heads: Sequence[str], rows: Iterable[str], kind: str, label: str = "") -> str:
    """A table; one with a label is a region that is scrolled by itself where it is wider than the page."""
    made = f'<table class="{kind}">{head(*heads)}<tbody>{"".join(rows)}</tbody></table>'
    return f'<div class="wide" role="region" tabindex="0" aria-label="{plain(label)}">{made}</div>' if label else made


def folded(summary: str, content: str, name: str = "", is_open: bool = False) -> str:
    """What is shown where its summary is opened."""
    opening = f'<details id="{plain(name)}"' if name else "<details"
    return f"{opening}{' open' if is_open else ''}><summary>{summary}</summary>{content}</details>"
