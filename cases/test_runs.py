r"""Sources, and what their runs show, as the tables in runs/ have them.

A line is empty, or one of these:

- `// ..` is a comment.
- `with: ITEMS` has what stands before `main` in the sources of the lines behind it, which may be nothing.
- `BODY => RUN` is a body of `main`, and its run without input, which may take 100,000 turns.
- `main: BODY` is a body of `main` whose runs follow.
- `file: PATH` is a source whose runs follow, by its path in the repository.
- `"INPUT" BUDGET => RUN` is a run of it, which may take so many turns.

RUN is `OUTPUT|STATUS TURNS EDGES`. STATUS is the exit status, the name of a trap, or `turns`. EDGES are the numbers of the
crossed edges, rising and with commas between them, or `none`. A row may leave out the edges, or the turns and the edges. In
INPUT and OUTPUT `\n` is a newline and `\xHH` the byte of these digits, and in OUTPUT `C{N}` stands for N times C.
"""
import re
import unittest
from pathlib import Path
from typing import List, NamedTuple

from dejavu_tools.formats import Test, read_history, suite_text
from program import Folder
from source_tables import lines_of

TOP = Path(__file__).resolve().parent.parent
TABLES = Path(__file__).resolve().parent / "runs"

BUDGET = 100_000


class Run(NamedTuple):
    """A run of a source, and what it has to show."""

    input: bytes
    budget: int
    shown: str


class Runs(NamedTuple):
    """A source, and its runs."""

    source: str
    runs: List[Run]


def bytes_of(text):
    """The bytes for which an input or an output of a table stands."""
    whole = re.sub(r"(.)\{(\d+)\}", lambda found: found[1] * int(found[2]), text)
    return whole.encode("ascii").decode("unicode_escape").encode("latin-1")


def run_of(line):
    """The run of a line."""
    found = re.fullmatch(r'"(.*)" (\d+) => (.*)', line)
    return Run(bytes_of(found[1]), int(found[2]), found[3])


def source_of(items, body):
    """A source with these items before `main`, and this body of it."""
    return f"{items}\nint main(void) {{ {body} }}\n"


def sources_of(path):
    """The sources of a table."""
    items = ""
    sources = []
    for line in lines_of(path):
        word, _, rest = line.partition(":")
        if word == "with":
            items = rest.strip()
        elif word == "main":
            sources.append(Runs(source_of(items, rest.strip()), []))
        elif word == "file":
            sources.append(Runs((TOP / rest.strip()).read_text(encoding="utf-8"), []))
        elif line.startswith('"'):
            sources[-1].runs.append(run_of(line))
        else:
            body, shown = line.split(" => ")
            sources.append(Runs(source_of(items, body), [Run(b"", BUDGET, shown)]))
    return sources


def shown_by(entry):
    """What a history tells of a run: its output, and the words that stand behind the bar."""
    row = int.from_bytes(entry.crossed, "little")
    edges = ",".join(str(edge) for edge in range(row.bit_length()) if row >> edge & 1)
    return entry.output, [entry.status.split(" ")[-1], str(entry.turns), edges or "none"]


class Shown(unittest.TestCase):
    maxDiff = None

    def entries_of(self, folder, source, runs):
        """What the history of a source tells of its runs, in their order."""
        tests = [Test(f"t{at}", run.budget, run.input) for at, run in enumerate(runs)]
        folder.keep("source.c", source)
        folder.keep("suite", suite_text(tests))
        folder.keep("history", folder.done("record", "source.c", "suite"))
        entries = read_history(folder.path / "history").entries
        self.assertEqual([entry.test for entry in entries], tests)
        return entries

    def check(self, entry, run):
        """A run shows what its row has."""
        output, _, end = run.shown.rpartition("|")
        words = end.split(" ")
        found, told = shown_by(entry)
        self.assertEqual((found, told[:len(words)]), (bytes_of(output), words))

    def agree(self, path):
        """The runs of a table show what their rows have."""
        with Folder() as folder:
            for source, runs in sources_of(path):
                with self.subTest(source=source):
                    for entry, run in zip(self.entries_of(folder, source, runs), runs):
                        with self.subTest(input=run.input, budget=run.budget):
                            self.check(entry, run)


def add_test(path):
    def test(self):
        self.agree(path)

    setattr(Shown, f"test_{path.stem}", test)


for table in sorted(TABLES.glob("*.txt")):
    add_test(table)
