"""Which arrays of arrays the unit has as one array of all their elements: those that an array parameter refers to.

An array parameter of the language has numbers or structs as its elements. So `int grid[][8]` is `int grid[]` there, and
`grid[i][j]` is `grid[i * 8 + j]`; the arrays that are handed to it are declared in the same way.
"""
from __future__ import annotations

from typing import Any, List

from pycparser import c_ast

from .constants import type_of
from .types import Array, Pointer, Type

COPIERS = {"memcpy", "memmove"}


class Flat:
    """Marks the types of arrays that are handed to parameters whose elements are arrays, or copied from or to such."""

    def __init__(self, program: Any) -> None:
        self.program = program
        self.pairs: List[Any] = []  # of types that have to be alike
        for procedure in program.procedures:
            self.look(procedure.node.body)
        self.is_new = True
        while self.is_new:
            self.is_new = False
            for left, right in self.pairs:
                if is_flat(left) or is_flat(right):
                    self.mark(left)
                    self.mark(right)

    def look(self, node: Any) -> None:
        """Notes the types of arguments and their parameters, and of what is copied."""
        if isinstance(node, c_ast.FuncCall) and node.args is not None:
            procedure = self.program.procedure_of(node.name)
            kinds = [type_of(self.program, argument) for argument in node.args.exprs]
            if procedure is not None and procedure.node is not None:
                self.pairs.extend(zip((parameter.type for parameter in procedure.parameters), kinds))
            elif getattr(node.name, "name", "") in COPIERS:
                self.pairs.append(kinds[:2])
        for _, child in node.children():
            self.look(child)

    def mark(self, kind: Type) -> None:
        """Marks an array of arrays, and those within it."""
        while isinstance(kind, Array) and isinstance(kind.element, Array):
            self.is_new = self.is_new or not kind.is_flat
            kind.is_flat = True
            kind = kind.element


def is_flat(kind: Type) -> bool:
    """Whether this is an array of arrays that is marked, or what a parameter with such elements is."""
    return isinstance(kind, Pointer) and isinstance(kind.target, Array) or isinstance(kind, Array) and kind.is_flat
