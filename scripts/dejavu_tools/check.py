"""Whether a unit does what the files do of which it was made, on the tests of a suite and on random inputs.

Three runs of each input are compared: the files as gcc builds them, the unit as gcc builds it, both with its sanitizers
for what C leaves undefined, and what `dejavu record` tells of the unit.
"""
from __future__ import annotations

import os
import re
import subprocess
from concurrent.futures import ThreadPoolExecutor
from dataclasses import dataclass
from functools import partial
from pathlib import Path
from random import Random
from tempfile import TemporaryDirectory
from typing import Dict, List, Optional, Sequence, Tuple

from . import files, formats, kept, limits, suites
from .adopt.options import Options
from .console import readable
from .errors import ToolError
from .formats import Test
from .programs import Answer
from .refusals import PlaceMap, message_of, same_place

TOP = Path(__file__).resolve().parents[2]

RANDOM_INPUTS = 100
SECONDS = 20  # a run that takes longer has no end

SANITIZERS = ["-fsanitize=address,undefined", "-fno-sanitize-recover=all"]
GCC = ["gcc", "-std=c11", "-O1", "-g", "-w", "-fsigned-char", *SANITIZERS]

# How a sanitizer ends a run, and where it says why.
STOPPED = 117
EXIT_CODE = f"exitcode={STOPPED}"
CAUSE = re.compile(rb"(?:runtime error|ERROR): (.*)")

# What was written before a sanitizer ends a run has to be seen.
UNBUFFERED = b"""#include <stdio.h>
__attribute__((constructor)) static void unbuffered(void) { setvbuf(stdout, NULL, _IONBF, 0); }
"""

# How a run ends at what only the language has a limit for.
LIMITS = ("trap flood", "trap depth", "turns")


@dataclass(frozen=True)
class Run:
    """What a run wrote, and how it ended."""

    output: bytes
    status: str  # `exit N`, as told by a shell; else `turns`, of a record also `trap NAME`, of a build `stopped`
    words: str  # the same for people

    @property
    def exits(self) -> bool:
        """Whether it ended by itself."""
        return self.status.startswith("exit ")


@dataclass(frozen=True)
class Finding:
    """What is told of an input: `differs` with a pair and what differs, `limit` or `undefined` with why."""

    kind: str
    test: Test
    why: str


@dataclass(frozen=True)
class Report:
    """What a check tells: its lines, and the exit status of the script, 1 where something differs."""

    lines: List[str]
    status: int


def check(
    paths: Sequence[Path], options: Options, unit: bytes, suite: Path, program: Optional[Path] = None,
    count: int = RANDOM_INPUTS, place_map: PlaceMap = same_place,
) -> Report:
    """Compares the files, and the unit that was made of them with these options, on a suite and on random inputs.

    Where no program is named it is the one that was built, if there is one. The bytes of a random input on which
    something differs are written to a file of the current folder. `place_map` takes a place of the unit, where it is
    refused, to one of the files. Raises a `ToolError` where a file can't be read, or gcc or the program can't be run.
    """
    tests = formats.read_suite(suite)
    drawn = random_tests(tests, count)
    program = program or built_program()
    with TemporaryDirectory() as name:
        folder = Path(name)
        files.write_whole({folder / "unit.c": unit, folder / "unbuffered.c": UNBUFFERED})
        original = build(paths, options, folder, "original")
        made = build([folder / "unit.c"], Options(), folder, "unit")
        recorded: Dict[str, Run] = {}
        if program:
            try:
                recorded = record(program, folder, [*tests, *drawn], place_map)
            except Refused as refused:
                return Report(["the unit is refused:", *refused.lines], 1)
        with ThreadPoolExecutor(os.cpu_count()) as pool:
            runs = [pool.map(partial(run_build, path), [*tests, *drawn]) for path in (original, made)]
            triples = zip([*tests, *drawn], *runs)
            found = [finding for test, *both in triples for finding in judge(test, *both, recorded.get(test.name))]
    return report(tests, drawn, found, bool(program))


def report(tests: Sequence[Test], drawn: Sequence[Test], found: Sequence[Finding], is_recorded: bool) -> Report:
    """The lines on what was found, and the status. Of random inputs a limit of the language is no fault."""
    differing = {finding.test.name for finding in found if finding.kind == "differs"}
    kept_inputs = {Path(f"check-{test.name}.in"): test.input for test in drawn if test.name in differing}
    files.write_whole(kept_inputs)
    names = {path.stem[len("check-"):]: f" ({path})" for path in kept_inputs}
    lines = [f"{it.kind} {it.test.name}{names.get(it.test.name, '')} {it.why}" for it in found]
    if not is_recorded:
        lines.append("not recorded: no program is built; ./dejavu builds it, and --program PATH names another")
    counts = [sum(finding.kind == kind for finding in found) for kind in ("limit", "undefined")]
    lines.append(
        f"compared {len(tests)} tests and {len(drawn)} random inputs: {len(differing)} differ,"
        f" {counts[0]} pass a limit of the language, {counts[1]} do what C leaves undefined"
    )
    limited = {finding.test.name for finding in found if finding.kind == "limit"}
    return Report(lines, 1 if differing or any(test.name in limited for test in tests) else 0)


# ---- the comparison


def judge(test: Test, original: Run, unit: Run, recorded: Optional[Run]) -> List[Finding]:
    """What is told of an input: nothing where all runs agree."""
    found = []
    if original.exits:
        found += compare(test, ("original", original), ("unit", unit))
    elif original.status == "stopped":
        found.append(Finding("undefined", test, original.words))
    if recorded and recorded.status in LIMITS:
        found.append(Finding("limit", test, recorded.words))
        if not unit.output.startswith(recorded.output):
            found += compare_outputs(test, unit, recorded)
    elif recorded and (recorded.exits or unit.exits):
        found += compare(test, ("unit", unit), ("record", recorded))
    elif recorded:  # both end at what C leaves undefined, each in its own words
        found += compare_outputs(test, unit, recorded)
    return found


def compare_outputs(test: Test, unit: Run, recorded: Run) -> List[Finding]:
    """What differs between the outputs of the unit and of its record, however they ended."""
    return compare(test, ("unit", Run(unit.output, "", "")), ("record", Run(recorded.output, "", "")))


def compare(test: Test, one: Tuple[str, Run], other: Tuple[str, Run]) -> List[Finding]:
    """What differs between two runs, which have the names of what was run."""
    (name, run), (other_name, other_run) = one, other
    faults = []
    if run.output != other_run.output:
        faults.append(f"output {suites.first_difference(run.output, other_run.output, (name, other_name))}")
    if run.status != other_run.status:
        faults.append(f"status {name} {run.words}, {other_name} {other_run.words}")
    return [Finding("differs", test, f"{name} and {other_name}: {'; '.join(faults)}")] if faults else []


# ---- the runs


def built_program() -> Optional[Path]:
    """The program that was built from the files of the repository as they stand, if it was."""
    path = kept.Place(str(TOP)).path()
    return Path(path) if kept.is_program(path) else None


def build(paths: Sequence[Path], options: Options, folder: Path, name: str) -> Path:
    """Builds files by gcc with its sanitizers; a `ToolError` where it refuses them, with its own messages before."""
    words = [*GCC, *(f"-D{it}" for it in options.definitions), *(f"-I{it}" for it in options.include_directories)]
    try:
        done = subprocess.run([*words, *map(no_option, paths), folder / "unbuffered.c", "-o", folder / name], check=False)
    except OSError as error:
        raise ToolError(f"gcc: {error.strerror}") from error
    if done.returncode:
        raise ToolError(f"gcc doesn't build {' '.join(map(str, paths))}")
    return folder / name


def no_option(path: Path) -> str:
    """A file's name as gcc takes it for one, also where it begins with `-`."""
    return f"./{path}" if str(path).startswith("-") else str(path)


def run_build(path: Path, test: Test) -> Run:
    """The run of a build on a test."""
    try:
        done = subprocess.run(
            [path], input=test.input, stdout=subprocess.PIPE, stderr=subprocess.PIPE, timeout=SECONDS, check=False,
            env={**os.environ, "ASAN_OPTIONS": f"{EXIT_CODE}:detect_leaks=0", "UBSAN_OPTIONS": EXIT_CODE},
        )
    except subprocess.TimeoutExpired as late:
        return Run(late.stdout or b"", "turns", f"no end within {SECONDS} seconds")
    cause = CAUSE.search(done.stderr) if done.returncode == STOPPED else None
    if cause:
        return Run(done.stdout, "stopped", f"stopped ({readable(cause[1])})")
    status = f"exit {done.returncode if done.returncode >= 0 else 128 - done.returncode}"
    return Run(done.stdout, status, status)


class Refused(Exception):
    """The program refuses the unit; `lines` say why."""

    def __init__(self, lines: List[str]) -> None:
        super().__init__("\n".join(lines))
        self.lines = lines


def record(program: Path, folder: Path, tests: Sequence[Test], place_map: PlaceMap) -> Dict[str, Run]:
    """What `dejavu record` tells of the unit in the folder, by the names of the tests; `Refused` where it refuses."""
    found: Dict[str, Run] = {}
    unit, suite, history = folder / "unit.c", folder / "suite", folder / "history"
    for part in suites.cut(tests):
        suite.write_bytes(formats.suite_text(part))
        words = [program, "record", unit, suite, "--workers", str(min(os.cpu_count() or 1, 64))]
        try:
            with history.open("wb") as output:
                status = subprocess.run(words, stdout=output, check=False).returncode
        except OSError as error:
            raise ToolError(f"{program}: {error.strerror}") from error
        refusal = Answer(status, files.read_file(history, limits.MOST_FILE_BYTES)).refusal
        if refusal:
            raise Refused(message_of(refusal, {"source": str(unit)}, place_map).lines())
        if status:
            raise ToolError(f"{program} record: it ends with {status}")
        for entry in formats.read_history(history).entries:
            found[entry.test.name] = Run(entry.output, entry.status, suites.status_in_words(entry))
    return found


# ---- random inputs


def random_tests(tests: Sequence[Test], count: int) -> List[Test]:
    """So many tests with inputs that are made of those of a suite; the same for the same suite and count."""
    inputs = [test.input for test in tests] or [b""]
    prefix = "random-"
    while any(test.name.startswith(prefix) for test in tests):
        prefix = "_" + prefix
    draw = Random(1)
    return [Test(f"{prefix}{number}", limits.MOST_BUDGET, mutated(draw, inputs)) for number in range(1, count + 1)]


def mutated(draw: Random, inputs: Sequence[bytes]) -> bytes:
    """One of the inputs after one to four changes of a byte, a part or a line, with parts of the others."""
    data = draw.choice(inputs)
    for _ in range(draw.randint(1, 4)):
        other = draw.choice(inputs)
        start, end = sorted(draw.randrange(len(data) + 1) for _ in range(2))
        change = draw.randrange(6)
        if change == 0:  # without a short part
            data = data[:start] + data[min(end, start + draw.randint(1, 8)):]
        elif change == 1:  # a part twice
            data = data[:end] + data[start:]
        elif change == 2:  # another byte, of the inputs or any
            byte = draw.choice(other) if other and draw.randrange(3) else draw.randrange(256)
            data = data[:start] + bytes([byte]) + data[start + draw.randrange(2):]
        elif change == 3:  # the start of one and the end of the other
            data = data[:start] + other[draw.randrange(len(other) + 1):]
        elif change == 4:  # a line of the other
            lines = other.splitlines(keepends=True) or [b"\n"]
            begin = data.rfind(b"\n", 0, start) + 1
            data = data[:begin] + draw.choice(lines) + data[begin:]
        else:  # the end is cut off
            data = data[:end]
    return data[:limits.MOST_INPUT]
