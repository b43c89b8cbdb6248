"""The lines of docs/ci.md, and the clones in which they are run."""
from __future__ import annotations

import os
import re
import shutil
import subprocess
from dataclasses import dataclass
from pathlib import Path
from typing import Dict, Iterator, List, Sequence

from .errors import ToolError

SETTINGS = """sources = ["rle.c", "codec.c"]
inputs = "tests"
budget = 1_000_000
expected = "tests"
drop-stderr = true
"""

NAMES = ("-c", "user.name=ci", "-c", "user.email=ci@example.com", "-c", "init.defaultBranch=main")


def blocks(text: str, language: str) -> List[str]:
    """The blocks of a Markdown text that are in this language."""
    return re.findall(rf"^```{language}\n(.*?)^```$", text, re.MULTILINE | re.DOTALL)


def values_of(workflow: str, name: str) -> List[str]:
    """The values of a list in a workflow that stands on one line, as those of a matrix may."""
    return [value for line in re.findall(rf"^ *{name}: \[(.*)\]$", workflow, re.MULTILINE) for value in line.split(", ")]


def run_lines(workflow: str) -> List[str]:
    """The lines that the steps `run` of a workflow have, each of which stands on the line of its step."""
    return re.findall(r"^ *- run: (\S.*)$", workflow, re.MULTILINE)


@dataclass(frozen=True)
class Answer:
    """What a line or a script wrote on standard output, and its status."""

    text: str
    status: int


# What the lines have to answer; examples/adopt/rle/changes/selected.md says which tests the change makes differ.
FAILING = ("decode-bad-byte", "decode-bad-escape", "decode-incomplete", "decode-line-limit")
SUMMARIES = {
    "main": Answer("0 of 30 tests run again, 0 differ, 0 fail", 0),
    "merge": Answer("6 of 30 tests run again, 4 differ, 4 fail", 1),
}

# The same for the suites of the matrix, each of which has the tests whose names begin with its own.
OF_SUITES = {
    "decode": {
        "main": Answer("0 of 11 tests run again, 0 differ, 0 fail", 0),
        "merge": Answer("6 of 11 tests run again, 4 differ, 4 fail", 1),
    },
    "encode": {branch: Answer("0 of 12 tests run again, 0 differ, 0 fail", 0) for branch in ("main", "merge")},
}

SUITE = "${{ matrix.suite }}"


REPORTS = ("tests.xml", "tests.json", "tests.html")


def outside() -> Dict[str, str]:
    """The environment without what git or GitHub has in it for the repository of this script."""
    return {name: value for name, value in os.environ.items() if not name.startswith(("GIT_", "GITHUB_"))}


class Clones:
    """A bare repository of an example, whose clones are the folders of jobs.

    It has the branch `main` with two commits, of which the second changes nothing that a test sees, and the branch
    `merge`: what GitHub makes of `main` and a branch with a change of the example.
    """

    def __init__(self, top: Path, program: Path, scratch: Path) -> None:
        self.example = top / "examples" / "adopt" / "rle"
        self.scratch = scratch
        self.dejavu = scratch / "dejavu"
        shutil.copytree(top / "scripts", self.dejavu / "scripts", ignore=shutil.ignore_patterns("__pycache__"))
        (self.dejavu / "dejavu").symlink_to(program)
        self.make()

    def make(self) -> None:
        """Makes the bare repository."""
        work = self.scratch / "work"
        shutil.copytree(self.example, work, ignore=shutil.ignore_patterns("changes", "by-hand.patch"))
        (work / "dejavu.toml").write_text(SETTINGS, encoding="ascii")
        for suite in OF_SUITES:
            (work / f"{suite}.toml").write_text(SETTINGS.replace('"tests"', f'"suites/{suite}"'), encoding="ascii")
            (work / "suites" / suite).mkdir(parents=True)
            for path in self.example.glob(f"tests/{suite}-*"):
                shutil.copy(path, work / "suites" / suite)
        (work / ".gitignore").write_text(".dejavu/\ntests.*\n", encoding="ascii")
        self.git(work, "init", "--quiet")
        self.commit(work, "the program")
        with (work / "rle.c").open("a", encoding="ascii") as file:
            file.write("/* A comment makes no difference. */\n")
        self.commit(work, "a comment")
        self.git(work, "checkout", "--quiet", "-b", "branch")
        self.git(work, "apply", str(self.example / "changes" / "3-show-decoded-part.patch"))
        self.commit(work, "a change")
        self.git(work, "checkout", "--quiet", "-b", "merge", "main")
        self.git(work, "merge", "--quiet", "--no-ff", "--message", "what GitHub tries", "branch")
        self.git(self.scratch, "clone", "--quiet", "--bare", str(work), "origin.git")

    def commit(self, folder: Path, message: str) -> None:
        """Commits all files of a folder."""
        self.git(folder, "add", "--all")
        self.git(folder, "commit", "--quiet", "--message", message)

    def git(self, folder: Path, *words: str) -> None:
        """Has git do this; a `ToolError` where it doesn't."""
        done = subprocess.run(["git", *NAMES, *words], cwd=folder, env=outside(), stdin=subprocess.DEVNULL,
                              stdout=subprocess.DEVNULL, stderr=subprocess.PIPE, text=True, check=False)
        if done.returncode:
            raise ToolError(f"git {' '.join(words)}: {done.stderr.strip()}")

    def fresh(self, name: str, branch: str) -> Path:
        """A new clone with the newest commit of a branch and the one before."""
        url = f"file://{self.scratch / 'origin.git'}"
        self.git(self.scratch, "clone", "--quiet", "--depth", "2", "--branch", branch, url, name)
        return self.scratch / name

    def run(self, folder: Path, words: Sequence[str], **variables: str) -> Answer:
        """What words of a shell answer in a folder."""
        environment = {**outside(), "DEJAVU": str(self.dejavu), **variables}
        done = subprocess.run(words, cwd=folder, env=environment, stdin=subprocess.DEVNULL, stdout=subprocess.PIPE,
                              text=True, check=False)
        return Answer(done.stdout, done.returncode)


def tried(clones: Clones, text: str) -> Iterator[str]:
    """Runs all lines of the document `text`, and tells of each that doesn't answer what it has to."""
    workflow, matrix = blocks(text, "yaml")
    script, *recipe = blocks(text, "sh")
    (line,), (line_of_suite,) = run_lines(workflow), run_lines(matrix)
    yield from told("workflow", tried_workflow(clones, line), SUMMARIES)
    yield from missing("workflow", [clones.scratch / f"checkout-{branch}" for branch in SUMMARIES])
    if values_of(matrix, "suite") != list(OF_SUITES) or SUITE not in line_of_suite:
        yield "matrix: it has other suites, or its line names none"
    for suite, wanted in OF_SUITES.items():
        yield from told(suite, tried_workflow(clones, line_of_suite.replace(SUITE, suite), f"{suite}-"), wanted)
    yield from told("script", tried_script(clones, script), SUMMARIES)
    yield from missing("script", [clones.scratch / f"reports-{branch}" for branch in SUMMARIES])
    failing = Answer("".join(f"{name} fails\n" for name in FAILING), 0)
    for runner in ("", "valgrind --quiet"):
        answer = failing if runner and not shutil.which("valgrind") else tried_recipe(clones, recipe, runner)
        if answer != failing:
            yield f"recipe {runner}: {answer}, and not {failing}"


def told(what: str, answers: Dict[str, Answer], wanted: Dict[str, Answer]) -> Iterator[str]:
    """Tells where the line that has the counts, or the status, is another one, and where a history wasn't kept."""
    for branch, answer in answers.items():
        lines = [line for line in answer.text.splitlines() if not line.startswith("::")]
        found = Answer("".join(lines[-1:]), answer.status)
        if found != wanted[branch]:
            yield f"{what} on {branch}: {found}, and not {wanted[branch]}"
        if (lines[:1] == ["HEAD^1 was recorded: none is kept in .dejavu"]) != (branch == "main"):
            yield f"{what} on {branch}: the history of HEAD^1 was {'kept' if branch == 'main' else 'recorded'}"


def missing(what: str, folders: Sequence[Path]) -> Iterator[str]:
    """Tells which reports aren't in their folders."""
    for folder in folders:
        for name in REPORTS:
            if not (folder / name).is_file():
                yield f"{what}: there is no {name} in {folder.name}"


def tried_workflow(clones: Clones, line: str, name: str = "") -> Dict[str, Answer]:
    """What a line of a workflow answers on `main` and for the change; a folder stands for the cache.

    The names of its folders begin with `name`.
    """
    cache, answers = clones.scratch / f"{name}cache", {}
    for branch in ("main", "merge"):
        folder = clones.fresh(f"{name}checkout-{branch}", branch)
        moved(cache, folder / ".dejavu")
        summary = str(clones.scratch / f"{name}summary-{branch}.md")
        answers[branch] = clones.run(folder, ["bash", "-e", "-c", line], GITHUB_STEP_SUMMARY=summary)
        moved(folder / ".dejavu", cache)
    return answers


def moved(folder: Path, to: Path) -> None:
    """Moves a folder, if it is there."""
    if folder.exists():
        folder.rename(to)


def tried_script(clones: Clones, script: str) -> Dict[str, Answer]:
    """What a script answers on `main` and for the change, with one folder of what is kept."""
    path = clones.scratch / "try.sh"
    path.write_text(script, encoding="utf-8")
    kept, answers = str(clones.scratch / "kept"), {}
    for branch in ("main", "merge"):
        folder = clones.fresh(f"shell-{branch}", branch)
        answers[branch] = clones.run(folder, ["sh", str(path), kept, str(clones.scratch / f"reports-{branch}")])
    return answers


def tried_recipe(clones: Clones, lines: Sequence[str], runner: str) -> Answer:
    """What the lines for a runner of one's own answer for the change, in a folder with both versions as units."""
    folder = clones.fresh("recipe-in-runner" if runner else "recipe", "merge")
    prepare = (
        '"$DEJAVU/scripts/adopt" --drop-stderr rle.c codec.c > new.c && git checkout --quiet HEAD^1 &&'
        ' "$DEJAVU/scripts/adopt" --drop-stderr rle.c codec.c > old.c &&'
        ' "$DEJAVU/scripts/suite" from tests --budget 1000000 > suite && "$DEJAVU/dejavu" record old.c suite > history'
    )
    made = clones.run(folder, ["sh", "-c", prepare])
    return made if made.status else clones.run(folder, ["sh", "-c", "\n".join(lines)], RUNNER=runner)
