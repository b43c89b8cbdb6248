"""A file through the system's preprocessor, and from its text back to the places of the files."""
from __future__ import annotations

import os
import re
import subprocess
from bisect import bisect_right
from difflib import SequenceMatcher
from pathlib import Path
from tempfile import TemporaryDirectory
from typing import Dict, List, NamedTuple, Optional, Sequence, Tuple

from ..console import say_bytes
from ..errors import ToolError
from .library import HEADERS
from .options import Options
from .places import Place

NOT_THE_SAME = ("__DATE__", "__TIME__", "__TIMESTAMP__")  # from one run to the next

MARKER = re.compile(r'^# (\d+) "((?:[^"\\]|\\.)*)"')
QUOTED = re.compile(r'"(?:[^"\\\n]|\\.)*"|\'(?:[^\'\\\n]|\\.)*\'')
ESCAPE = re.compile(r"\\(x[0-9A-Fa-f]+|[0-7]{1,3}|.)")
MISSING = re.compile(r"^(.+?):(\d+):(\d+): fatal error: (.+): No such file or directory$", re.MULTILINE)
TOKEN = re.compile(r'[A-Za-z_]\w*|\.?\d[\w.]*|"(?:[^"\\]|\\.)*"|\'(?:[^\'\\]|\\.)*\'|\S')


class Origin(NamedTuple):
    """Where a line of the preprocessed text comes from: a file as the preprocessor names it, and a line, from 1."""

    file: str
    line: int


class HeadersMissing(Exception):
    """The preprocessor doesn't find headers that a file names: the place and the name of each."""

    def __init__(self, headers: Sequence[Tuple[Place, str]]) -> None:
        super().__init__()
        self.headers = headers


class Preprocessed:
    """The text of one file after preprocessing, and the origins of its lines."""

    def __init__(self, path: Path, text: str, options: Options) -> None:
        self.path = path
        self.folder = path.parent
        self.includes = options.include_directories
        self.lines = QUOTED.sub(whole_escapes, text).split("\n")
        self.origins = list_origins(self.lines)
        self.sources: Dict[str, List[str]] = {}
        self.columns: Dict[Tuple[str, str], "Columns"] = {}

    def place(self, line: int, column: int) -> Place:
        """The place in a file of a line and a column of the preprocessed text, both from 1."""
        origin = self.origins[min(line, len(self.lines)) - 1]
        there = self.source_line(origin)
        if there is not None:
            key = (self.lines[line - 1], there)
            if key not in self.columns:
                self.columns[key] = Columns(*key)
            column = self.columns[key].origin(column)
        return Place(told_name(self.path, self.includes, origin.file), origin.line, column)

    def source_line(self, origin: Origin) -> Optional[str]:
        """The line of a file from which a line comes, or None where there is no such line."""
        if origin.file not in self.sources:
            try:
                text = (self.folder / origin.file).read_text("utf-8", "surrogateescape")
            except OSError:
                text = ""
            self.sources[origin.file] = text.split("\n")
        lines = self.sources[origin.file]
        return lines[origin.line - 1] if 0 < origin.line <= len(lines) else None

    def is_standard(self, line: int) -> bool:
        """Whether a line of the preprocessed text comes from a header of the system."""
        return self.origins[line - 1].file.startswith(str(HEADERS))


class Columns:
    """Columns of a preprocessed line as those of its source line, by the tokens that both have."""

    def __init__(self, made: str, source: str) -> None:
        ours, theirs = list(TOKEN.finditer(made)), list(TOKEN.finditer(source))
        matcher = SequenceMatcher(None, [m.group() for m in ours], [m.group() for m in theirs], autojunk=False)
        self.starts = [match.start() + 1 for match in ours]
        self.origins: List[int] = []
        at = len(source) - len(source.lstrip()) + 1
        for tag, begin, end, other, other_end in matcher.get_opcodes():
            for k in range(end - begin):
                if other < other_end:
                    at = theirs[other + k if tag == "equal" else other].start() + 1
                self.origins.append(at)

    def origin(self, column: int) -> int:
        """The column of the source line for a column of the preprocessed one."""
        k = bisect_right(self.starts, column) - 1
        return self.origins[k] if k >= 0 else column


def preprocessed_name(path: Path) -> str:
    """A file's name within its folder, as gcc is told it: one that begins with `-` would be an option."""
    return f"./{path.name}" if path.name.startswith("-") else path.name


def told_name(path: Path, includes: Sequence[Path], file: str) -> str:
    """The name of a file as people know it: that of the command line, or of a header beside it."""
    if file == preprocessed_name(path):
        return str(path)
    for include in includes:
        absolute = os.path.abspath(include)
        if file.startswith(absolute + os.sep):
            return str(include / os.path.relpath(file, absolute))
    return file if os.path.isabs(file) else str(path.parent / file)


def whole_escapes(match: "re.Match[str]") -> str:
    """A string whose numeric escapes have three digits, which stay the same where another string is joined to it."""
    if match.group().startswith("'"):
        return match.group()
    return ESCAPE.sub(whole_escape, match.group())


def whole_escape(match: "re.Match[str]") -> str:
    """A numeric escape in three octal digits; another as it is."""
    digits = match.group(1)
    if digits[0] == "x" and len(digits) > 1:
        return f"\\{int(digits[1:], 16) & 255:03o}"
    return f"\\{int(digits, 8) & 255:03o}" if digits[0] in "01234567" else match.group()


def list_origins(lines: Sequence[str]) -> List[Origin]:
    """The origin of each line, by the line markers before it."""
    origins = []
    file, number = "", 0
    for line in lines:
        marker = MARKER.match(line)
        origins.append(Origin(file, number))
        if marker:
            name = re.sub(r"\\(.)", lambda escape: "\n" if escape[1] == "n" else escape[1], marker.group(2))
            file, number = name, int(marker.group(1)) - 1
        number += 1
    return origins


def run_gcc(words: Sequence[str], folder: Path, text: Optional[bytes] = None) -> "subprocess.CompletedProcess[bytes]":
    """What gcc answers to these words in a folder."""
    environment = {**os.environ, "LC_ALL": "C", "SOURCE_DATE_EPOCH": "0"}
    try:
        return subprocess.run(["gcc", *words], cwd=folder, input=text, env=environment, stdout=subprocess.PIPE,
                              stderr=subprocess.PIPE, check=False)
    except OSError as error:
        raise ToolError(f"gcc: {error.strerror}") from error


def taken(name: Path, made: "subprocess.CompletedProcess[bytes]") -> bytes:
    """What gcc wrote, and on standard error what it says; a `ToolError` where it refuses."""
    say_bytes(made.stderr)
    if made.returncode:
        raise ToolError(f"{name}: gcc refuses it")
    return made.stdout


def expand(path: Path, words: Sequence[str], options: Options) -> bytes:
    """The text of a file after preprocessing; `HeadersMissing` where headers aren't there, with all that are named.

    Behind a header that isn't there the preprocessor reads on, as if that were empty, to find the next one.
    """
    missing: List[Tuple[Place, str]] = []
    with TemporaryDirectory() as empty:
        while True:
            made = run_gcc([*words, "-I", empty, preprocessed_name(path)], path.parent)
            found = MISSING.search(made.stderr.decode("utf-8", "surrogateescape")) if made.returncode else None
            if found is None:
                break
            name = told_name(path, options.include_directories, found[1])
            missing.append((Place(name, int(found[2]), int(found[3])), found[4]))
            header = Path(empty, found[4])
            if ".." in header.parts or Path(empty) not in header.parents or header.exists():
                break
            header.parent.mkdir(parents=True, exist_ok=True)
            header.touch()
    if missing:
        raise HeadersMissing(missing)
    return taken(path, made)


def standard() -> Preprocessed:
    """The headers of the system whose functions programs also declare by themselves."""
    text = "".join(f"#include <{name}.h>\n" for name in ("ctype", "stdio", "stdlib", "string", "strings"))
    made = run_gcc(["-E", "-undef", "-nostdinc", "-I", str(HEADERS), "-x", "c", "-"], HEADERS, text.encode("ascii"))
    return Preprocessed(HEADERS, taken(HEADERS, made).decode("ascii"), Options())


def preprocess(path: Path, options: Options) -> Preprocessed:
    """The file after preprocessing over the repository's own headers, if gcc takes it as C11.

    What is made depends on the contents of the files alone: no macro of the compiler's own is defined, and a file is
    named relative to its folder. Raises a `ToolError` where the file isn't there, or gcc refuses it, and
    `HeadersMissing` where a header isn't there.
    """
    if not path.is_file():
        raise ToolError(f"{path}: {'this is no file' if path.exists() else 'No such file or directory'}")
    folder = path.parent
    includes = [word for include in options.include_directories for word in ("-I", os.path.abspath(include))]
    maps = [f"-fmacro-prefix-map={os.path.abspath(include)}/=" for include in options.include_directories]
    defined = [f"-D{definition}" for definition in options.definitions]
    standard = ["-std=c11", "-undef", "-nostdinc", "-Wno-builtin-macro-redefined"]
    standard += [f'-D{name}="{name}"' for name in NOT_THE_SAME]
    headers = ["-I", str(HEADERS)]  # no headers of a system to gcc, which would break the lines that use their macros
    text = expand(path, ["-E", *standard, *maps, *includes, *headers, *defined], options)
    taken(path, run_gcc(["-x", "cpp-output", "-std=c11", "-w", "-fsyntax-only", "-"], folder, text))
    return Preprocessed(path, text.decode("utf-8", "surrogateescape"), options)
