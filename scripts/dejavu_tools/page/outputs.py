"""The tests that differ or fail: what was expected of them, what they did before, and what they do now."""
from __future__ import annotations

from io import BytesIO
from itertools import groupby
from typing import Dict, Iterator, List, NamedTuple, Optional, Tuple

from ..change import Outcome
from ..compare import Compared
from ..suites import status_in_words
from .lines import Pair, differing, is_white, pairs_of, stretches
from .markup import counted, decoded, folded, marked, plain, row, shown, table

MOST_TESTS = 40  # that are told in full
MOST_OPEN = 10  # of these
MOST_COMPARED = 1_000  # lines between the first that differs and the last
MOST_LINES = 60  # of a difference
MOST_CHARACTERS = 300  # of one of its lines
LEAD = 60  # characters before the first that differs, where a line is cut
MOST_BYTES = 2_000  # of an input or an output that is shown whole

EXPECTED, BEFORE, NOW = "expected", "before", "now"


class Text(NamedTuple):
    """An output, and of which runs it is."""

    names: Tuple[str, ...]
    output: bytes


def told_tests(outcome: Outcome) -> List[Compared]:
    """The tests that are told in full, those first that are wrong."""
    return sorted(differing_tests(outcome), key=lambda test: not test.is_wrong)[:MOST_TESTS]


def differing_tests(outcome: Outcome) -> List[Compared]:
    """The tests that differ or fail."""
    return [test for test in outcome.tests if test.differs or test.fails]


def section(outcome: Outcome) -> Iterator[str]:
    """All of these tests, of which the first are seen at once."""
    every = len(differing_tests(outcome))
    told = [test_html(test) for test in told_tests(outcome)]
    if not every:
        yield "<p>None does.</p>"
    if told:
        yield f'<div class="cards">{"".join(told[:MOST_OPEN])}</div>'
    more = told[MOST_OPEN:]
    if more:
        summary = f"{counted(len(more), 'more test')} that differ or fail"
        yield folded(summary, f'<div class="cards">{"".join(more)}</div>')
    if every > len(told):
        yield f"<p>{counted(every - len(told), 'more test')} can be found in the tables below.</p>"


def test_html(test: Compared) -> str:
    """A test: how its runs ended, and where their outputs differ."""
    texts = texts_of(test)
    *others, now = texts
    differences = [difference(other, now) for other in others] or ["<p>The output is the same.</p>"]
    whole = [f"<h4>Input</h4>{whole_text(test.now.test.input)}"]
    whole += [f"<h4>Output {' and '.join(text.names)}</h4>{whole_text(text.output)}" for text in texts]
    return (f'<section class="test" id="test-{plain(test.name)}"><h3>{shown(test.name)}: {result(test)}</h3>'
            f"""<div class="outcome">{runs_table(test)}{"".join(differences)}</div>"""
            f"{folded('Input and whole outputs', ''.join(whole))}</section>")


def result(test: Compared) -> str:
    """What became of a test."""
    if test.fails:
        return "fails" if test.before is None else "fails, and differs" if test.differs else "fails, as before"
    if test.differs:
        return "differs, as expected" if test.verdict.kind == "pass" else "differs"
    return "does the same"


def texts_of(test: Compared) -> List[Text]:
    """What a test was expected to write, wrote before and writes now: equal outputs once, the one now at the end."""
    outputs: Dict[str, bytes] = {}
    if test.verdict.expected:
        outputs[EXPECTED] = test.verdict.expected.output
    if test.before:
        outputs[BEFORE] = test.before.output
    outputs[NOW] = test.now.output
    found: Dict[bytes, List[str]] = {}
    for name, output in outputs.items():
        found.setdefault(output, []).append(name)
    texts = [Text(tuple(names), output) for output, names in found.items()]
    return sorted(texts, key=lambda text: NOW in text.names)


def runs_table(test: Compared) -> str:
    """How the runs of a test ended."""
    rows = []
    if test.verdict.expected:
        expected = test.verdict.expected
        rows.append(row("expected", shown(expected.status), "", counted(len(expected.output), "byte")))
    for name, entry in ((BEFORE, test.before), (NOW, test.now)):
        if entry:
            turns = f"{entry.turns:,} of {entry.test.budget:,}"
            rows.append(row(name, shown(status_in_words(entry)), turns, counted(len(entry.output), "byte")))
    return table(("Run", "Status", "Turns", "Output"), rows, "runs")


def whole_text(data: bytes) -> str:
    """An input or an output as it is, up to `MOST_BYTES`."""
    if not data:
        return "<p>It is empty.</p>"
    more = f"<p>{len(data) - MOST_BYTES:,} more bytes.</p>" if len(data) > MOST_BYTES else ""
    lines = decoded(data[:MOST_BYTES]).split("\n")
    return f"<pre>{chr(10).join(map(shown, lines))}</pre>{more}"


# ---- the lines of two outputs


def difference(other: Text, now: Text) -> str:
    """Where an output differs from the one now."""
    caption = f"Output: &minus; {' and '.join(other.names)}, + {' and '.join(now.names)}"
    rows = list(rows_of(*(BytesIO(text.output).readlines() for text in (other, now))))
    more = len(rows) - MOST_LINES
    last = f'<tr><td colspan="4">{counted(more, "more line")}</td></tr>' if more > 0 else ""
    heads = f'<th scope="col">{other.names[0]}</th><th scope="col">now</th><th scope="col">&plusmn;</th>'
    return (f'<table class="difference"><caption>{caption}</caption><thead><tr>{heads}<th scope="col">Line</th></tr>'
            f"</thead><tbody>{''.join(rows[:MOST_LINES])}{last}</tbody></table>")


def rows_of(old: List[bytes], new: List[bytes]) -> Iterator[str]:
    """The rows of two outputs' lines, which have their newlines; those that are far from a difference are left out."""
    pairs = pairs_of(old, new, MOST_COMPARED)
    for stretch in stretches(pairs, [not pair.is_equal for pair in pairs], 2):
        if not stretch.is_told:
            yield f'<tr><td colspan="4">{counted(len(stretch.pairs), "equal line")}</td></tr>'
            continue
        for is_equal, group in groupby(stretch.pairs, key=lambda pair: pair.is_equal):
            if is_equal:
                yield from (line_row(pair.old, pair.new, "", line_html(old[pair.old])) for pair in group)
            else:
                yield from replaced_rows(old, new, list(group))


def replaced_rows(old: List[bytes], new: List[bytes], pairs: List[Pair]) -> Iterator[str]:
    """The rows of lines that differ: the old ones, and then the new ones."""
    gone, come = [], []
    for pair in pairs:
        before = old[pair.old] if pair.old is not None else None
        after = new[pair.new] if pair.new is not None else None
        texts = both_html(before, after) if before is not None and after is not None else None
        if before is not None:
            gone.append(line_row(pair.old, None, "del", texts[0] if texts else line_html(before)))
        if after is not None:
            come.append(line_row(None, pair.new, "ins", texts[1] if texts else line_html(after)))
    yield from (*gone, *come)


def line_row(old: Optional[int], new: Optional[int], tag: str, text: str) -> str:
    """A line with its numbers."""
    numbers = "".join(f'<td class="n">{"" if at is None else at + 1}</td>' for at in (old, new))
    sign = {"": "", "del": "&minus;", "ins": "+"}[tag]
    return f"<tr>{numbers}<td>{sign}</td><td><code>{f'<{tag}>{text}</{tag}>' if tag else text}</code></td></tr>"


def line_html(line: bytes, span: range = range(0), shows_white: bool = False) -> str:
    """A line of an output, cut where it is long, with what differs marked; it is told where no newline ends it."""
    text = without_newline(line)
    start = max(0, span.start - LEAD) if len(text) > MOST_CHARACTERS else 0
    stop = start + MOST_CHARACTERS
    moved = range(max(0, span.start - start), max(0, min(span.stop, stop) - start))
    end = "" if line.endswith(b"\n") else " <i>no newline</i>"
    part = marked(text[start:stop], moved, (), shows_white)
    return f"{'&hellip;' if start else ''}{part}{'&hellip;' if stop < len(text) else ''}{end}"


def both_html(old: bytes, new: bytes) -> Tuple[str, str]:
    """Two lines of outputs, with marks where they differ. Where only white space does, it is seen."""
    texts = without_newline(old), without_newline(new)
    spans = differing(*texts)
    return tuple(line_html(line, span, is_white(*texts)) for line, span in zip((old, new), spans))


def without_newline(line: bytes) -> str:
    """A line without the newline that ends it, if one does."""
    return decoded(line[:-1] if line.endswith(b"\n") else line)
