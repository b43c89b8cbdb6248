"""Several files of C as one unit of the language."""
from __future__ import annotations

import sys
from dataclasses import dataclass
from pathlib import Path
from typing import Any, Dict, List, Sequence, Tuple

from pycparser import c_ast

from ..errors import ToolError
from .body import Body
from .constants import type_of
from .effects import Effects
from .file_pointers import FilePointers
from .flat import Flat
from .initialisers import Reader, is_null, length_of, take_texts
from .measure import check_limits
from .nulls import NullTests
from .offsets import Offsets
from .options import Options
from .output import Line
from .program import Program
from .symbols import Symbol
from .types import Array, Pointer, is_aggregate
from .unit import Unit, initial
from .write import Row, written


DEEPEST = 5000  # calls of Python's, of which what stands in something else takes several; the language has 256 levels


@dataclass(frozen=True)
class Adopted:
    """A unit, and where its statements come from."""

    unit: bytes
    map: Tuple[Row, ...]


def adopt(files: Sequence[Path], options: Options) -> Adopted:
    """The unit that several files of C are.

    Raises `ObstaclesFound` with all that the language has nothing for, and a `ToolError` where a file isn't there, gcc
    refuses it, its parts stand too deep in each other, or the unit passes a limit of the language.
    """
    sys.setrecursionlimit(max(sys.getrecursionlimit(), DEEPEST))
    try:
        return adopted(files, options)
    except RecursionError:
        named = ", ".join(map(str, files))
        raise ToolError(f"{named}: expressions or statements stand too deep in each other") from None


def adopted(files: Sequence[Path], options: Options) -> Adopted:
    """The same, as deep as Python goes."""
    program = Program(options)
    program.read(list(files))
    FilePointers(program)
    trees = read_objects(program)
    Flat(program)
    Offsets(program)
    program.null_tests = NullTests(program)
    effects = Effects(program)
    unit = Unit(program)
    objects = object_lines(program, unit, effects, trees)
    functions: List[Line] = []
    heads: List[str] = []
    for procedure in program.procedures:
        body = Body(program, unit, effects, procedure)
        body.check_result()
        body.write()
        head = unit.head(procedure, body)
        heads.append(f"{head};")
        functions.extend([Line(0, head, program.places.place(procedure.node)), Line(0, "{")])
        functions.extend([*body.output.lines, Line(0, "}"), Line(0, "")])
    program.obstacles.stop()
    lines = [*plain(before(options, unit, objects, heads)), *functions[:-1]]
    text, rows = written(lines)
    check_limits(text.decode("ascii"))
    return Adopted(text, tuple(rows))


def read_objects(program: Program) -> Dict[int, Any]:
    """The trees of the initialisers of all objects of file scope, by their symbols; lengths and texts are noted."""
    reader = Reader(program)
    trees: Dict[int, Any] = {}
    for symbol in program.objects:
        tree = trees[id(symbol)] = None if symbol.init is None else reader.read(symbol.type, symbol.init)
        if isinstance(symbol.type, Array) and symbol.type.length is None:
            symbol.type.length = length_of(tree) if tree is not None else 1
        if symbol.base is None and (tree is not None or is_aggregate(symbol.type)):
            take_texts(program, symbol.type, tree)
    for procedure in program.procedures:
        take_local_texts(program, reader, procedure.node.body)
    return trees


def take_local_texts(program: Program, reader: Reader, node: Any) -> None:
    """Notes the strings with which the arrays and structs of a function's body begin."""
    if isinstance(node, c_ast.Decl):
        symbol = program.symbols.get(id(node))
        if isinstance(symbol, Symbol) and not symbol.is_global and node.init is not None and is_aggregate(symbol.type):
            take_texts(program, symbol.type, reader.read(symbol.type, node.init))
    elif isinstance(node, c_ast.CompoundLiteral):
        kind = type_of(program, node)
        take_texts(program, kind, reader.read(kind, node.init))
    for _, child in node.children():
        take_local_texts(program, reader, child)


def object_lines(program: Program, unit: Unit, effects: Effects, trees: Dict[int, Any]) -> List[str]:
    """The definitions of the objects of file scope."""
    lines = []
    for symbol in program.objects:
        if not symbol.is_defined:
            continue
        body = Body(program, unit, effects, None)
        if symbol.base is not None:
            lines.append(f"int {symbol.base.offset.text} = {start_of(body, symbol)};")
            continue
        check_object(program, symbol)
        lines.append(initial(unit, body, symbol, trees[id(symbol)]))
    return lines


def start_of(body: Body, symbol: Symbol) -> int:
    """The index at which a pointer of file scope begins; -1 of NULL."""
    if symbol.init is None or is_null(symbol.init):
        return -1
    found = body.reference(symbol.init)
    if found.base != symbol.base.base or found.offset is not None and found.offset.constant is None:
        body.tell("pointer", symbol.node)
        return -1
    return found.offset.constant if found.offset is not None else 0


def check_object(program: Program, symbol: Symbol) -> None:
    """Tells of a pointer that doesn't begin with a string."""
    kind = symbol.type
    while isinstance(kind, Array):
        kind = kind.element
    if isinstance(kind, Pointer) and not kind.text:
        program.obstacles.tell("pointer", symbol.node)
        symbol.is_told = True


def before(options: Options, unit: Unit, objects: List[str], heads: List[str]) -> List[str]:
    """What stands before the functions of the files."""
    flags = "".join(f" {flag}" for flag in options.spelled())
    copy_heads, copies = unit.made_functions()
    made = unit.made_objects()
    parts = [
        [f"// adopted{flags}", "#include <stdio.h>", "#include <stdlib.h>"], unit.types(), objects, made,
        [*copy_heads, *heads], unit.library_text().rstrip("\n").split("\n"), copies[:-1],
    ]
    lines: List[str] = []
    for part in parts:
        if part and part != [""]:
            lines.extend([*part, ""])
    return lines


def plain(texts: List[str]) -> List[Line]:
    """Lines that come from no place."""
    return [Line(0, text) for text in texts]
