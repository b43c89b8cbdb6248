"""Sources, and why they are refused, as the table refused_sources.txt has them.

A line is empty, or one of these:

- `// ..` is a comment.
- `SOURCE => ANSWER` is a source and its answer: behind `refused: source ` why it isn't accepted, or `accepted`.
- `head: TEXT`, `part: TEXT` and `tail: TEXT` have the parts of sources whose answers follow.
- `COUNT times => ANSWER` is the answer to the one that has the head, so many of the part, and the tail. In each part its
  number, from 0, stands in the place of `#`.
"""
import re
import unittest
from pathlib import Path
from typing import NamedTuple

from program import Folder
from source_tables import lines_of

TABLE = Path(__file__).resolve().parent / "refused_sources.txt"


class Row(NamedTuple):
    """A source, and its answer."""

    source: str
    answer: str


def repeated(parts, count):
    """A source that has its part so many times."""
    middle = (parts["part"].replace("#", str(number)) for number in range(count))
    return " ".join((parts["head"], *middle, parts["tail"]))


def rows_of(path):
    """The rows of the table."""
    parts = {}
    rows = []
    for line in lines_of(path):
        word, _, rest = line.partition(":")
        if word in ("head", "part", "tail"):
            parts[word] = rest.strip()
            continue
        source, answer = line.split(" => ")
        times = re.fullmatch(r"(\d+) times", source)
        rows.append(Row(repeated(parts, int(times[1])) if times else source, answer))
    return rows


class RefusedSources(unittest.TestCase):
    maxDiff = None

    def check(self, folder, source, answer):
        """`record` gives this answer to a source, without tests."""
        folder.keep("source.c", source)
        folder.keep("suite", "dejavu suite 1\n")
        status, text = folder.answer("record", "source.c", "suite")
        if answer == "accepted":
            self.assertEqual(status, "Done", text)
        else:
            self.assertEqual((status, text), ("Source", f"refused: source {answer}\n"))

    def test_refused_sources(self):
        with Folder() as folder:
            for source, answer in rows_of(TABLE):
                with self.subTest(source=source[:200], answer=answer):
                    self.check(folder, source, answer)
