"""What a change does to the sources, with the places at which the versions part."""
from __future__ import annotations

import re
from typing import Dict, Iterator, List, NamedTuple, Optional, Sequence, Tuple

from ..change import Outcome
from ..listing import count
from ..walks import Edge
from .lines import Pair, Stretch, differing, is_white, pairs_of, stretches
from .markup import counted, folded, link, listed, marked, shown
from .places import File, Places, file_pairs

MOST_EDGES = 200  # that are told of at their lines
MOST_WAYS = 6  # out of the points of a line
LEAST_FOLDED = 6  # lines


Crossing = Dict[int, List[str]]  # the names of tests by the numbers of dangerous edges


class Section(NamedTuple):
    """What is told of a pair of files."""

    has_told: bool
    html: str


# ---- what is put at the lines


def put_notes(outcome: Outcome, crossing: Crossing, old: Places, new: Places) -> int:
    """Puts a note at each dangerous edge, those first that tests crossed, and where the new version goes on behind it.

    Gives how many edges aren't told, as there are too many.
    """
    edges = outcome.traces.walk.edges
    behind = {why.edge.number: why for why in outcome.explained}
    for number in sorted(edges, key=lambda number: not crossing[number])[:MOST_EDGES]:
        edge, why = edges[number], behind.get(number)
        goes_on = ""
        if why:
            there = f"goes on at {new.link(why.new)}" if why.new else "has no such way out"
            goes_on = f"; the new version {there}"
        old.put(edge.place, edge_note(edge, crossing[number], goes_on))
        if why and why.new:
            new.put(why.new, f"<li>here this version goes on, behind {link(f'edge-{number}', f'edge {number}')}</li>")
    return max(0, len(edges) - MOST_EDGES)


def crossings(outcome: Outcome) -> Crossing:
    """The tests that crossed each dangerous edge on the old version."""
    found: Dict[int, List[str]] = {number: [] for number in outcome.traces.walk.edges}
    mask = sum(1 << number for number in found)
    for test in outcome.tests:
        bits = int.from_bytes(test.before.crossed, "little") & mask if test.before else 0
        for one in re.finditer("1", f"{bits:b}"[::-1]):
            found[one.start()].append(test.name)
    return found


def edge_note(edge: Edge, names: Sequence[str], goes_on: str) -> str:
    """What is told of a dangerous edge."""
    links = [link(f"test-{name}", shown(name)) for name in names]
    crossed_by = f"crossed by {counted(len(names), 'test')}: {listed(links)}" if names else "crossed by no test"
    name = f"<b>edge {edge.number}</b> <code>{edge.exit}</code> of {shown(edge.function)}"
    return f'<li id="edge-{edge.number}">{name}: {crossed_by}{goes_on}</li>'


# ---- the tables


def section(outcome: Outcome, crossing: Crossing, old: Places, new: Places) -> Iterator[str]:
    """The files of both versions beside each other, those first in which something is told."""
    more = put_notes(outcome, crossing, old, new)
    if old.coverage:
        yield ("<p>Beside a line stands how many tests reach it, and beside a condition how many take each way out:"
               " in the old source as recorded, in the new one as they are now.</p>")
    else:
        yield "<p>How many tests reach each line isn't told, as the program <code>points</code> isn't there.</p>"
    found = [file_section(before, after, bool(old.coverage)) for before, after in file_pairs(old, new)]
    for part in sorted(found, key=lambda part: not part.has_told):
        yield part.html
    outside = [*old.outside, *new.outside]
    if outside:
        yield f"<p>At places of the unit that are in none of these files:</p><ul>{''.join(outside)}</ul>"
    if more:
        yield f"<p>{counted(more, 'more dangerous edge')} {'is' if more == 1 else 'are'} told by <code>walk</code>.</p>"


def file_section(old: Optional[File], new: Optional[File], has_margin: bool) -> Section:
    """Two files beside each other, one of which may be missing."""
    pairs = pairs_of(old.lines if old else [], new.lines if new else [])
    told = [not pair.is_equal or has_note(old, pair.old) or has_note(new, pair.new) for pair in pairs]
    names = list(dict.fromkeys(file.name for file in (old, new) if file))
    differ = sum(not pair.is_equal for pair in pairs)
    title = f"<h3>{' to '.join(map(shown, names))}</h3>"
    if not (old and new):
        alone = f"Only the {'old' if old else 'new'} version has this file, of {counted(len(pairs), 'line')}"
        return Section(True, title + folded(alone, table(old, new, Stretch(pairs, True), has_margin)))
    said = f"<p>{counted(differ, 'line') if differ else 'No line'} differ{'s' if differ < 2 else ''}.</p>"
    parts = [stretch_html(old, new, stretch, has_margin) for stretch in stretches(pairs, told, LEAST_FOLDED)]
    return Section(any(told), f"{title}{said}{''.join(parts)}")


def has_note(file: Optional[File], at: Optional[int]) -> bool:
    """Whether something is told at a line, by its place from 0."""
    return file is not None and at is not None and at + 1 in file.notes


def stretch_html(old: File, new: File, stretch: Stretch, has_margin: bool) -> str:
    """A stretch of two files, folded where nothing of it is told."""
    lines = table(old, new, stretch, has_margin)
    if stretch.is_told:
        return lines
    first = stretch.pairs[0]
    return folded(f"{counted(len(stretch.pairs), 'equal line')}, from {first.old + 1} and {first.new + 1} on", lines)


def table(old: Optional[File], new: Optional[File], stretch: Stretch, has_margin: bool) -> str:
    """The lines of a stretch, with what stands beside and below them."""
    heads = ("Line", "Tests", "Ways out") if has_margin else ("Line",)
    sides = "".join(f'<th scope="col">{name}</th>' for file in (old, new)
                    for name in (*heads, shown(file.name) if file else "no such file"))
    rows = "".join(row for pair in stretch.pairs for row in rows_of(old, new, pair, has_margin))
    kind = "sources margins" if has_margin else "sources"
    return f'<table class="{kind}"><thead><tr>{sides}</tr></thead><tbody>{rows}</tbody></table>'


def rows_of(old: Optional[File], new: Optional[File], pair: Pair, has_margin: bool) -> Iterator[str]:
    """The row of a pair of lines, and one with the notes at them."""
    width = 4 if has_margin else 2
    sides = [(file, at + 1 if file and at is not None else None) for file, at in zip((old, new), pair)]
    texts = line_texts(sides, pair.is_equal)
    cells = [line_cells(file, line, text, has_margin) if line else f'<td class="none" colspan="{width}"></td>'
             for (file, line), text in zip(sides, texts)]
    yield f"""<tr{' class="same"' if pair.is_equal else ""}>{"".join(cells)}</tr>"""
    notes = ["".join(file.notes.get(line, [])) if line else "" for file, line in sides]
    if any(notes):
        cells = [f'<td colspan="{width}">{f"<ul>{note}</ul>" if note else ""}</td>' for note in notes]
        yield f'<tr class="notes">{"".join(cells)}</tr>'


def line_texts(sides: Sequence[Tuple[Optional[File], Optional[int]]], is_equal: bool) -> List[str]:
    """The lines of a pair, with marks where they differ."""
    texts = [file.text(line) if line else "" for file, line in sides]
    both = not is_equal and all(line for _, line in sides)
    spans = differing(*texts) if both else (range(0), range(0))
    shows_white = both and is_white(*texts)
    found = []
    for (file, line), text, span, tag in zip(sides, texts, spans, ("del", "ins")):
        words = file.words(line, file.columns.get(line, [])) if line else []
        html = marked(text, span, words, shows_white)
        found.append(html if is_equal else f"<{tag}>{html}</{tag}>")
    return found


def line_cells(file: File, line: int, text: str, has_margin: bool) -> str:
    """The cells of a line of one version: its number, what tests reach of it, and its text."""
    margin = margin_cells(file, line) if has_margin else ""
    return f'<td class="n" id="{file.id_of(line)}">{line}</td>{margin}<td><code>{text}</code></td>'


def margin_cells(file: File, line: int) -> str:
    """The cells of what tests reach of a line."""
    margin = file.margins.get(line)
    if margin is None:
        return "<td></td><td></td>"
    tests = count(margin.tests)
    ways = [f"{exit}: {crossing:,}" for exit, crossing in margin.ways]
    more = len(ways) - MOST_WAYS
    told = "<br>".join([*ways[:MOST_WAYS], *([f"{more} more"] if more > 0 else [])])
    return f"""<td class="n{'' if tests else ' zero'}">{tests:,}</td><td class="w">{told}</td>"""
