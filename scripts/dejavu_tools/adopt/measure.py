"""How large a unit is, against the limits of the language (docs/language.md#limits)."""
from __future__ import annotations

import re
from typing import Any, Dict, List, Optional, Tuple

from pycparser import c_ast, c_parser

from ..errors import ToolError
from ..limits import MOST_EDGES, MOST_SOURCE_BYTES

MOST_FUNCTIONS = 500
MOST_POINTS = 10_000
MOST_FRAME = 4_096  # cells
MOST_GLOBALS = 65_536  # cells
MOST_PARAMETERS = 16

BUILT_IN = {"getchar", "putchar", "printf", "exit"}
SKIPPED = re.compile(r'("(?:[^"\\]|\\.)*"|\'(?:[^\'\\]|\\.)*\')|/\*.*?\*/|//[^\n]*|^#[^\n]*', re.S | re.M)


class Measure:
    """Counts points, edges and cells of a unit that was parsed."""

    def __init__(self, tree: Any) -> None:
        self.structs: Dict[str, int] = {}
        self.gives: Dict[str, bool] = {}  # whether a function gives a value
        self.points, self.edges, self.cells = 3, 2, 0  # those of `#start`
        self.frames: List[Tuple[str, int]] = []
        self.parameters: List[Tuple[str, int]] = []
        for node in tree.ext:
            if isinstance(node, c_ast.FuncDef):
                self.function(node)
            elif isinstance(node.type, c_ast.FuncDecl):
                self.note(node)
            elif isinstance(node.type, c_ast.Struct):
                self.structs[node.type.name] = sum(self.cells_of(decl.type) for decl in node.type.decls)
            elif not isinstance(node.type, c_ast.Enum):
                self.cells += self.cells_of(node.type)

    def note(self, node: Any) -> None:
        """Notes whether a function gives a value."""
        kind = node.type.type.type
        self.gives[node.name] = not (isinstance(kind, c_ast.IdentifierType) and kind.names == ["void"])

    def cells_of(self, kind: Any) -> int:
        """The cells of an object of a type."""
        if isinstance(kind, c_ast.ArrayDecl):
            return int(kind.dim.value) * self.cells_of(kind.type)
        if isinstance(kind, c_ast.TypeDecl):
            return self.cells_of(kind.type)
        return self.structs[kind.name] if isinstance(kind, c_ast.Struct) else 1

    def function(self, node: Any) -> None:
        """Counts a function."""
        self.note(node.decl)
        listed = node.decl.type.args.params if node.decl.type.args else []
        count = sum(isinstance(parameter, c_ast.Decl) for parameter in listed)
        self.parameters.append((node.decl.name, count))
        self.points += 2
        self.edges += 1
        self.frame, self.most_temporaries = count, 0
        self.statement(node.body)
        self.frames.append((node.decl.name, self.frame + self.most_temporaries))

    def part(self, node: Any, ways: int = 1) -> None:
        """Counts a part: its calls, and its own point, with so many ways out."""
        calls = self.calls(node)
        giving = sum(self.gives.get(name, True) for name in calls)
        self.most_temporaries = max(self.most_temporaries, giving)
        is_void = isinstance(node, c_ast.FuncCall) and not self.gives.get(node.name.name, True)
        self.points += len(calls) + (not is_void)
        self.edges += len(calls) + (0 if is_void else ways)

    def calls(self, node: Any) -> List[str]:
        """The functions of the unit that an expression calls."""
        found = []
        if isinstance(node, c_ast.FuncCall) and node.name.name not in BUILT_IN:
            found.append(node.name.name)
        return found + [name for _, child in node.children() for name in self.calls(child)]

    def statement(self, node: Any) -> None:
        """Counts what a statement has."""
        handler = getattr(self, f"count_{type(node).__name__.lower()}", None)
        if handler is not None:
            handler(node)
        elif not isinstance(node, (c_ast.EmptyStatement, c_ast.Break, c_ast.Continue)):
            ways = 0 if isinstance(node, c_ast.FuncCall) and node.name.name == "exit" else 1
            self.part(node, ways)

    def count_compound(self, node: Any) -> None:
        """A block."""
        for item in node.block_items or ():
            self.statement(item)

    def count_decl(self, node: Any) -> None:
        """A declaration."""
        self.frame += self.cells_of(node.type)
        if node.init is not None:
            self.part(node.init)

    def count_decllist(self, node: Any) -> None:
        """Declarations of a `for`."""
        for decl in node.decls:
            self.statement(decl)

    def count_if(self, node: Any) -> None:
        """An `if`."""
        self.part(node.cond, 2)
        self.statement(node.iftrue)
        if node.iffalse is not None:
            self.statement(node.iffalse)

    def count_while(self, node: Any) -> None:
        """A loop with a test."""
        self.part(node.cond, 2)
        self.statement(node.stmt)

    count_dowhile = count_while

    def count_for(self, node: Any) -> None:
        """A `for`, which has a test also where none is written."""
        for part in (node.init, node.next):
            if part is not None:
                self.statement(part)
        if node.cond is not None:
            self.part(node.cond, 2)
        else:
            self.points, self.edges = self.points + 1, self.edges + 2
        self.statement(node.stmt)

    def count_switch(self, node: Any) -> None:
        """A `switch`: a way out for each case, and one for all other values."""
        items = list(node.stmt.block_items or ())
        cases = sum(isinstance(item, c_ast.Case) for item in items)
        self.part(node.cond, cases + 1)
        for item in items:
            self.statement(item)

    def count_case(self, node: Any) -> None:
        """What stands behind a case."""
        for item in node.stmts or ():
            self.statement(item)

    count_default = count_case

    def count_label(self, node: Any) -> None:
        """What stands behind a label."""
        self.statement(node.stmt)

    def count_goto(self, _: Any) -> None:
        """A jump."""
        self.points, self.edges = self.points + 1, self.edges + 1

    def count_return(self, node: Any) -> None:
        """A return."""
        if node.expr is None:
            self.points, self.edges = self.points + 1, self.edges + 1
        else:
            self.part(node.expr)


def measured(unit: str) -> Measure:
    """The counts of a unit."""
    plain = SKIPPED.sub(lambda match: match.group(1) or " ", unit)
    return Measure(c_parser.CParser().parse(plain, ""))


def check_limits(unit: str) -> None:
    """Raises a `ToolError` with the first limit of the language that a unit passes, and by how much."""
    if len(unit) > MOST_SOURCE_BYTES:
        passed("bytes", len(unit), MOST_SOURCE_BYTES)
    found = measured(unit)
    passed("functions", len(found.parameters), MOST_FUNCTIONS)
    passed("points", found.points, MOST_POINTS)
    passed("edges", found.edges, MOST_EDGES)
    for name, count in found.frames:
        passed("cells in a frame", count, MOST_FRAME, name)
    passed("cells of file scope", found.cells, MOST_GLOBALS)
    for name, count in found.parameters:
        passed("parameters", count, MOST_PARAMETERS, name)


def passed(what: str, count: int, most: int, function: Optional[str] = None) -> None:
    """Raises a `ToolError` where a count is above a limit."""
    if count > most:
        where = f" of `{function}`" if function else ""
        raise ToolError(f"the unit has {count:,} {what}{where}, {count - most:,} more than the language's {most:,}")
