"""What a change does, told: as text, in JSON and as JUnit's XML."""
from __future__ import annotations

import json
from difflib import diff_bytes, unified_diff
from io import BytesIO
from typing import Dict, Iterator, Optional
from xml.etree import ElementTree

from .change import Outcome
from .compare import Compared
from .console import readable
from .formats import Entry
from .sides import Side
from .suites import status_in_words


# ---- text


def text_lines(outcome: Outcome) -> Iterator[str]:
    """What is told on standard output."""
    if outcome.recorded:
        yield f"{outcome.old.version.name} was recorded: {outcome.recorded}"
    yield from suite_lines(outcome)
    for test in outcome.tests:
        if test.fails or test.differs:
            yield headline(test)
            yield from difference(test)
    yield summary(outcome)


def summary(outcome: Outcome) -> str:
    """How many tests ran again, do otherwise, and fail."""
    return f"{outcome.run} of {len(outcome.tests)} tests run again, {outcome.differing} differ, {outcome.failing} fail"


def suite_lines(outcome: Outcome) -> Iterator[str]:
    """A line on how the suite changed, if it did."""
    parts = outcome.parts
    counted = (("added", parts.added), ("changed", parts.changed), ("removed", parts.removed))
    told = [f"{len(tests)} {word}" for word, tests in counted if tests]
    if told:
        yield f"the suite has other tests: {', '.join(told)}"


def headline(test: Compared) -> str:
    """That a test differs or fails."""
    if test.fails:
        how = "" if test.before is None else ", and differs" if test.differs else ", as before"
        return f"fails {test.name}{how}"
    return f"differs {test.name}{', as expected' if test.verdict.kind == 'pass' else ''}"


def difference(test: Compared) -> Iterator[str]:
    """How a test differs from what it is held against: its status, and its output as a diff."""
    what, output, status = test.reference
    if status != test.now.status:
        yield f"status {what} {status}, now {status_in_words(test.now)}"
    names = (f"{test.name} {what}".encode("ascii"), f"{test.name} now".encode("ascii"))
    lines = [BytesIO(data).readlines() for data in (output, test.now.output)]
    for number, line in enumerate(diff_bytes(unified_diff, *lines, *names, lineterm=b"")):
        yield readable(line[:-1] if line.endswith(b"\n") else line)
        is_of_output = number > 1 and not line.startswith(b"@@")
        if is_of_output and not line.endswith(b"\n"):
            yield "\\ No newline at the end"


# ---- JSON


def json_text(outcome: Outcome) -> bytes:
    """The outcome as one object."""
    parts = outcome.parts
    told = {
        "format": "dejavu change 1",
        "old": side_in_json(outcome.old),
        "new": side_in_json(outcome.new),
        "recorded": outcome.recorded or None,
        "tests": len(outcome.tests),
        "run": outcome.run,
        "differ": outcome.differing,
        "fail": outcome.failing,
        "wrong": outcome.is_wrong,
        "removed": [test.name for test in parts.removed],
        "results": [test_in_json(test) for test in outcome.tests],
    }
    return json.dumps(told, indent=1).encode("ascii") + b"\n"


def side_in_json(side: Side) -> Dict[str, str]:
    """A version, with the digests of its unit and its suite."""
    return {"version": readable(side.version.name), "unit": side.unit.digest, "suite": side.suite}


def test_in_json(test: Compared) -> Dict[str, object]:
    """What became of a test."""
    return {
        "name": test.name,
        "choice": test.choice,
        "edge": test.edge,
        "differs": test.differs,
        "expected": test.verdict.kind,
        "wrong": test.is_wrong,
        "before": entry_in_json(test.before),
        "now": entry_in_json(test.now),
    }


def entry_in_json(entry: Optional[Entry]) -> Optional[Dict[str, object]]:
    """A run, with its output in hexadecimal."""
    return entry and {"status": entry.status, "turns": entry.turns, "output": entry.output.hex()}


# ---- JUnit


def junit_text(outcome: Outcome) -> bytes:
    """The outcome as JUnit's XML: a case for each test of the new suite, with a failure where it is wrong."""
    wrong = sum(test.is_wrong for test in outcome.tests)
    counts = {"tests": str(len(outcome.tests)), "failures": str(wrong), "errors": "0", "skipped": "0"}
    top = ElementTree.Element("testsuites", counts)
    suite = ElementTree.SubElement(top, "testsuite", {"name": "dejavu", **counts})
    for test in outcome.tests:
        case = ElementTree.SubElement(suite, "testcase", {"classname": "dejavu", "name": test.name})
        properties = ElementTree.SubElement(case, "properties")
        ElementTree.SubElement(properties, "property", {"name": "choice", "value": test.choice})
        if test.is_wrong:
            failure = ElementTree.SubElement(case, "failure", {"message": headline(test), "type": test.reference[0]})
            failure.text = "\n".join(difference(test))
    return ElementTree.tostring(top, encoding="utf-8", xml_declaration=True) + b"\n"
