"""Walks of two versions, as the table walks.txt has them.

A line is empty, or one of these:

- `// ..` is a comment.
- `with: BEGINNING` has what both sources of the lines behind it begin with, which may be nothing.
- `old: REST` and `new: REST` have what stands behind that in the old source and in the new one.
- `=> EDGES|PAIRS` is the walk of both: the numbers of the dangerous edges, rising and with commas between them, and how many
  pairs of points are reached together.
"""
import unittest
from pathlib import Path
from typing import NamedTuple

from dejavu_tools.walks import read_walk
from program import Folder
from source_tables import lines_of

TABLE = Path(__file__).resolve().parent / "walks.txt"


class Row(NamedTuple):
    """Two sources, and their walk."""

    old: str
    new: str
    walk: str


def rows_of(path):
    """The rows of the table."""
    parts = {}
    rows = []
    for line in lines_of(path):
        word, _, rest = line.partition(" ")
        if word == "=>":
            old, new = (f"{parts['with:']} {parts[part]}\n" for part in ("old:", "new:"))
            rows.append(Row(old, new, rest))
        elif word in ("with:", "old:", "new:"):
            parts[word] = rest
        else:
            raise ValueError(f"no line of a table of walks: {line}")
    return rows


def walked(folder, old, new):
    """The walk of two sources, as a row tells it."""
    folder.keep("old.c", old)
    folder.keep("new.c", new)
    walk = read_walk(folder.done("walk", "old.c", "new.c").splitlines())
    return f"{','.join(map(str, walk.edges))}|{walk.pairs}"


class Walks(unittest.TestCase):
    maxDiff = None

    def test_walks(self):
        with Folder() as folder:
            for row in rows_of(TABLE):
                with self.subTest(old=row.old, new=row.new):
                    self.assertEqual(walked(folder, row.old, row.new), row.walk)
