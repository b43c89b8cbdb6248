"""The text on the commands, `docs/commands.md`, for a terminal and as a man page."""
from __future__ import annotations

import re
import textwrap
from pathlib import Path
from typing import Dict, List, NamedTuple

from .errors import ToolError

TEXT = Path(__file__).resolve().parents[2] / "docs/commands.md"

LINK = re.compile(r"\[([^]]*)\]\([^)]*\)")
NAMED = re.compile(r"`([^`]*)`|\*([^*]*)\*")


class Manual(NamedTuple):
    """What stands before the first section, and the sections by their titles; each is a list of blocks.

    A block is a paragraph or an entry of a list on one line, or lines that are indented by four blanks.
    """

    before: List[str]
    sections: Dict[str, List[str]]

    def commands(self) -> Dict[str, List[str]]:
        """The sections that are of a command: those that begin with how it is called."""
        return {title: blocks for title, blocks in self.sections.items() if is_code(blocks[0])}


def read_manual(path: Path = TEXT) -> Manual:
    """The text on the commands; a `ToolError` where it can't be read."""
    try:
        text = path.read_text(encoding="utf-8")
    except OSError as error:
        raise ToolError(f"{path}: {error.strerror}") from error
    before, *rest = re.split(r"^## ", text, flags=re.MULTILINE)
    sections = (section.partition("\n") for section in rest)
    return Manual(blocks_of(before)[1:], {title: blocks_of(body) for title, _, body in sections})


def blocks_of(text: str) -> List[str]:
    """The blocks of a text, which blank lines and the beginnings of entries part."""
    return [block.strip("\n") for block in re.split(r"\n\n+|\n(?=- )", text) if block.strip()]


def is_code(block: str) -> bool:
    """Whether a block is shown as it stands."""
    return block.startswith("    ")


def summary(blocks: List[str]) -> str:
    """What a section says of its command first: up to the first full stop or colon."""
    return plain(re.split(r"[.:](?= |$)", blocks[1])[0])


def plain(text: str) -> str:
    """A text without its marks."""
    return NAMED.sub(lambda found: found[1] or found[2], LINK.sub(r"\1", text))


def overview(manual: Manual) -> List[str]:
    """How each command is called and what it does, as lines."""
    return [
        line
        for blocks in manual.commands().values()
        for line in (blocks[0].strip(), f"    {summary(blocks)}")
    ]


def for_terminal(blocks: List[str], columns: int) -> List[str]:
    """A section as lines of at most so many columns, words that are longer aside."""
    lines: List[str] = []
    for block in blocks:
        entry = block.startswith("- ")
        if lines and not (entry and lines[-1].startswith(("- ", "  "))):
            lines.append("")
        shown = block.split("\n") if is_code(block) else wrapped(plain(block), columns, "  " if entry else "")
        lines.extend(shown)
    return lines


def wrapped(text: str, columns: int, indent: str) -> List[str]:
    """A paragraph as lines; those behind the first begin with the indent."""
    return textwrap.wrap(text, columns, subsequent_indent=indent, break_long_words=False, break_on_hyphens=False)


def man_page(manual: Manual) -> List[str]:
    """The lines of the man page, in the macros of man(7)."""
    lines = [".TH DEJAVU 1", ".SH NAME", "dejavu \\- which tests have to run again after a C program changed"]
    lines += [".SH SYNOPSIS", ".nf"]
    lines += [roff(blocks[0].strip()) for blocks in manual.commands().values()]
    lines += [".fi", ".SH DESCRIPTION", *man_blocks(manual.before)]
    for title, blocks in manual.sections.items():
        lines += [f'.SH "{roff(title.upper())}"', *man_blocks(blocks)]
    return lines


def man_blocks(blocks: List[str]) -> List[str]:
    """The blocks of a section in the macros of man(7)."""
    lines: List[str] = []
    for block in blocks:
        if is_code(block):
            lines += [".PP", ".nf", *(roff(line.strip()) for line in block.split("\n")), ".fi"]
        elif block.startswith("- "):
            name, _, rest = block[2:].partition(": ")
            lines += [".TP", roff(name), roff(rest)]
        else:
            lines += [".PP", roff(block)]
    return lines


def roff(text: str) -> str:
    """A text as roff has it: what is named in bold, terms in italics, and nothing that is taken as a request."""
    escaped = LINK.sub(r"\1", text).replace("\\", "\\e").replace("-", "\\-")
    marked = NAMED.sub(lambda found: f"\\fB{found[1]}\\fR" if found[1] else f"\\fI{found[2]}\\fR", escaped)
    return f"\\&{marked}" if marked.startswith((".", "'")) else marked
