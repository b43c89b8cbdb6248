"""The programs of the study, their changes, and what each choice runs again after a change."""
from __future__ import annotations

import json
import resource
import shutil
import subprocess
from concurrent.futures import ProcessPoolExecutor, as_completed
from dataclasses import dataclass
from pathlib import Path
from tempfile import TemporaryDirectory
from typing import Callable, Dict, FrozenSet, Iterator, List, Mapping, Optional, Sequence, Tuple

from .. import formats, suites
from ..errors import ToolError
from ..examples import BUDGET, FLAGS, OTHER_FLAGS
from ..files import files_in, read_file
from .choices import Covered, Function, choices_of, is_inside, spans_of
from .figures import BY_HAND, UNACCEPTED, UNADOPTED, UNCOMPILED, Cost, Figures, Program, Result
from .mutants import sample

TOP = Path(__file__).resolve().parents[3]
EXAMPLES = TOP / "examples"

GCC = ["gcc", "-std=c11", "-w", "-O0", "-fsigned-char"]
MICROSECONDS = 1_000_000  # of a second


@dataclass(frozen=True)
class Ended:
    """How a command ended: its status as `subprocess` tells it, what it wrote, and what it cost."""

    status: int
    output: bytes
    cost: Cost


@dataclass(frozen=True)
class Subject:
    """A program of the study; `is_adopted` says whether `scripts/adopt` makes its unit of several files."""

    name: str
    folder: Path
    is_adopted: bool

    @property
    def patches(self) -> List[Path]:
        """Its changes that were made by hand."""
        return sorted((self.folder / "changes").glob("*.patch" if self.is_adopted else "*.diff"))


@dataclass(frozen=True)
class Change:
    """A change of a program: its kind, and its C files and headers after it, by their names."""

    name: str
    kind: str  # an operator of `mutants`, or `BY_HAND`
    texts: Mapping[str, str]


@dataclass(frozen=True)
class Old:
    """A program before its changes, measured, in a folder of its own."""

    subject: Subject
    work: Path  # with the files `unit.c`, `suite` and `history`
    texts: Mapping[str, str]  # of its C files and headers
    functions: FrozenSet[Function]
    covered: Mapping[str, Covered]  # by the names of the tests
    runs: Mapping[str, Tuple[str, bytes]]  # the status and output of each test
    built: Cost  # of a build by gcc
    ran: Cost  # of this build's runs of all tests

    @property
    def program(self) -> Program:
        """Its figures."""
        return Program(self.subject.name, len(self.covered), self.built, self.ran)


# ---- commands


def run(words: Sequence[object], data: bytes = b"", folder: Optional[Path] = None) -> Ended:
    """Runs a command, whose standard error isn't kept; a `ToolError` where it can't be run.

    The cost is right where this process runs one command at a time.
    """
    before = resource.getrusage(resource.RUSAGE_CHILDREN)
    try:
        done = subprocess.run(
            list(map(str, words)), input=data, cwd=folder, check=False,
            stdout=subprocess.PIPE, stderr=subprocess.DEVNULL,
        )
    except OSError as error:
        raise ToolError(f"{words[0]}: {error.strerror}") from error
    after = resource.getrusage(resource.RUSAGE_CHILDREN)
    user, system = after.ru_utime - before.ru_utime, after.ru_stime - before.ru_stime
    return Ended(done.returncode, done.stdout, Cost(round(MICROSECONDS * user), round(MICROSECONDS * system)))


def wanted(words: Sequence[object], folder: Optional[Path] = None) -> Ended:
    """The same; a `ToolError` where it doesn't end with 0."""
    done = run(words, folder=folder)
    if done.status:
        shown = done.output[:200].decode("utf-8", "replace")
        raise ToolError(f"{' '.join(map(str, words))} ends with {done.status}: {shown}", 1)
    return done


# ---- programs and their changes


def subjects() -> List[Subject]:
    """All programs, in the order of their names, the adopted ones last."""
    plain = [Subject(path.parent.name, path.parent, False) for path in sorted(EXAMPLES.glob("*/old.c"))]
    adopted = [Subject(path.parent.name, path.parent, True) for path in sorted((EXAMPLES / "adopt").glob("*/changes"))]
    return plain + adopted


def patched(subject: Subject, patch: Optional[Path] = None) -> Dict[str, str]:
    """The C files and headers of a program by their names, with a patch if one is named, and that which adopts it."""
    with TemporaryDirectory() as name:
        folder = Path(name)
        sources = [*subject.folder.glob("*.[ch]")] if subject.is_adopted else [subject.folder / "old.c"]
        for path in sources:
            shutil.copy(path, folder)
        by_hand = subject.folder / "by-hand.patch"
        for it in [*([patch] if patch else []), *([by_hand] if by_hand.exists() else [])]:
            strip = ["-p1"] if subject.is_adopted else [folder / "old.c"]
            wanted(["patch", "--silent", "--no-backup-if-mismatch", "-d", folder, "-i", it, *strip])
        return {path.name: read_file(path).decode("utf-8") for path in sorted(folder.glob("*.[ch]"))}


def changes_of(subject: Subject, texts: Mapping[str, str], every: int) -> Iterator[Change]:
    """The changes that were made by hand, and of each file and operator every so manyth mutant."""
    for patch in subject.patches:
        yield Change(patch.stem, BY_HAND, patched(subject, patch))
    if not subject.is_adopted:
        yield Change("new", BY_HAND, {"old.c": read_file(subject.folder / "new.c").decode("utf-8")})
    for name, text in sorted(texts.items()):
        for mutant in sample(text, every):
            before = text[mutant.start:mutant.end].split("\n")[0]
            title = f"{name}:{mutant.place(text)} {before} to {mutant.text}".strip()
            yield Change(title, mutant.operator, {**texts, name: mutant.applied(text)})


def write_texts(folder: Path, texts: Mapping[str, str]) -> List[Path]:
    """Writes files into a new folder; the C files among them."""
    folder.mkdir()
    for name, text in texts.items():
        (folder / name).write_text(text, encoding="utf-8")
    return files_in(folder, ".c")


def adopt(subject: Subject, files: Sequence[Path], unit: Path) -> Ended:
    """Writes the unit of a program's files: that which `scripts/adopt` makes, or the one file that it has."""
    if not subject.is_adopted:
        shutil.copy(files[0], unit)
        return Ended(0, b"", Cost())
    done = run([TOP / "scripts" / "adopt", *FLAGS.get(subject.name, OTHER_FLAGS), *files])
    unit.write_bytes(done.output)
    return done


# ---- the old version


def measure_old(subject: Subject, program: Path, work: Path) -> Old:
    """Adopts, records and covers a program in a new folder; a `ToolError` where one of that fails."""
    work.mkdir()
    texts = patched(subject)
    files = write_texts(work / "files", texts)
    if adopt(subject, files, work / "unit.c").status:
        raise ToolError(f"{subject.folder}: `adopt` refuses it")
    tests = tests_of(subject)
    (work / "suite").write_bytes(formats.suite_text(tests))
    (work / "history").write_bytes(wanted([program, "record", work / "unit.c", work / "suite"]).output)
    built = wanted([*GCC, *files, "-o", work / "built"])
    ran = sum((run([work / "built"], test.input).cost for test in tests), Cost())
    wanted([*GCC, "--coverage", *[path.name for path in files], "-o", "covered"], work / "files")
    functions, covered = set(), {}
    for test in tests:
        found, covered[test.name] = covered_by(work / "files", test)
        functions |= found
    return Old(subject, work, texts, frozenset(functions), covered, runs_in(work / "history"), built.cost, ran)


def tests_of(subject: Subject) -> List[formats.Test]:
    """The tests of a program."""
    if subject.is_adopted:
        return suites.suite_of_folder(subject.folder / "tests", BUDGET).tests
    return formats.read_suite(subject.folder / "suite")


def runs_in(history: Path) -> Dict[str, Tuple[str, bytes]]:
    """The status and output of each test of a history, by its name."""
    return {entry.test.name: (entry.status, entry.output) for entry in formats.read_history(history).entries}


def covered_by(folder: Path, test: formats.Test) -> Tuple[FrozenSet[Function], Covered]:
    """The functions of the build `covered` of a folder, and what a test covers, by gcov."""
    for path in folder.glob("*.gcda"):
        path.unlink()
    run([folder / "covered"], test.input)
    told = files_in(folder, ".gcda")  # a run that a signal ends writes none
    text = wanted(["gcov", "--json-format", "--stdout", *[path.name for path in told]], folder).output
    return read_gcov(text.decode("utf-8"))


def read_gcov(text: str) -> Tuple[FrozenSet[Function], Covered]:
    """What a text of `gcov --json-format` tells, of which each line is one of JSON: all functions, and the covered."""
    functions, entered, lines = set(), set(), set()
    for line in text.splitlines():
        for file in json.loads(line)["files"]:
            name = file["file"]
            for it in file["functions"]:
                function = Function(name, it["name"], it["start_line"], it["end_line"])
                functions.add(function)
                if it["execution_count"]:
                    entered.add(function)
            lines |= {(name, it["line_number"]) for it in file["lines"] if it["count"]}
    return frozenset(functions), Covered(frozenset(entered), frozenset(lines))


# ---- a change


def measure(old: Old, program: Path, change: Change) -> Result:
    """What each choice runs again after a change, and which tests differ on the new version."""
    with TemporaryDirectory() as name:
        work = Path(name)
        files = write_texts(work / "files", change.texts)
        if run([*GCC, "-fsyntax-only", *files]).status:
            return Result(old.subject.name, change.name, change.kind, UNCOMPILED)
        adopted = adopt(old.subject, files, work / "unit.c")
        if adopted.status:
            return Result(old.subject.name, change.name, change.kind, UNADOPTED)
        recorded = run([program, "record", work / "unit.c", old.work / "suite"])
        if recorded.status:
            return Result(old.subject.name, change.name, change.kind, UNACCEPTED)
        (work / "history").write_bytes(recorded.output)
        selected = wanted([program, "select", old.work / "unit.c", work / "unit.c", old.work / "history"])
        after = runs_in(work / "history")
    costs = {"adopt": adopted.cost, "record": recorded.cost, "select": selected.cost}
    return result_of(old, change, selected.output.decode("ascii"), after, costs)


def result_of(
    old: Old, change: Change, selection: str, after: Mapping[str, Tuple[str, bytes]], costs: Mapping[str, Cost],
) -> Result:
    """What was found of a change, by the text of `select` and the runs of all tests on the new version."""
    spans = spans_of(old.texts, change.texts)
    chosen = choices_of(spans, old.covered, selection)
    differ = frozenset(test for test, run_before in old.runs.items() if after[test] != run_before)
    return Result(
        old.subject.name, change.name, change.kind,
        is_inside=is_inside(spans, sorted(old.functions, key=str)),
        differ=len(differ),
        run={choice: len(tests) for choice, tests in chosen.items()},
        missed={choice: len(differ - tests) for choice, tests in chosen.items()},
        costs=costs,
    )


# ---- all changes


def figures_of(program: Path, every: int, jobs: int, work: Path, tell: Callable[[int, int], None]) -> Figures:
    """What is found of all programs and of each change, in a folder to work in.

    `tell` is called before the first change and after each, with how many are measured and how many there are.
    """
    with ProcessPoolExecutor(jobs) as pool:
        olds = [task.result() for task in [pool.submit(measure_old, it, program, work / it.name) for it in subjects()]]
        pairs = [(old, change) for old in olds for change in changes_of(old.subject, old.texts, every)]
        tell(0, len(pairs))
        tasks = [pool.submit(measure, old, program, change) for old, change in pairs]
        try:
            for done, _ in enumerate(as_completed(tasks), 1):
                tell(done, len(tasks))
        except BaseException:
            pool.shutdown(cancel_futures=True)  # so that an interrupt needn't wait for all
            raise
        return Figures([old.program for old in olds], [task.result() for task in tasks])
