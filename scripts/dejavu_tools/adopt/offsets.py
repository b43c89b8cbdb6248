"""Which array parameters begin at an element that isn't the first of its array."""
from __future__ import annotations

from typing import Any, List

from pycparser import c_ast

from .constants import type_of, value_of
from .effects import STEPS
from .flat import is_flat
from .initialisers import is_null
from .symbols import Symbol
from .types import Array, Pointer, Struct


class Offsets:
    """Marks the parameters that have an offset: those that a body steps, and those that a call gives one."""

    def __init__(self, program: Any) -> None:
        self.program = program
        self.calls: List[Any] = []
        for procedure in program.procedures:
            self.look(procedure.node.body)
        self.is_new = True
        while self.is_new:
            self.is_new = False
            for call in self.calls:
                self.take(call)

    def look(self, node: Any) -> None:
        """Marks what a body steps or assigns, and notes its calls."""
        if isinstance(node, c_ast.FuncCall):
            self.calls.append(node)
        is_step = isinstance(node, c_ast.UnaryOp) and node.op in STEPS
        target = node.lvalue if isinstance(node, c_ast.Assignment) else node.expr if is_step else None
        symbol = self.program.symbols.get(id(target)) if isinstance(target, c_ast.ID) else None
        if isinstance(symbol, Symbol) and isinstance(symbol.type, Pointer):
            symbol.moves = True
        for _, child in node.children():
            self.look(child)

    def take(self, call: Any) -> None:
        """Marks the parameters to which a call gives an offset."""
        procedure = self.program.procedure_of(call.name)
        if procedure is None or procedure.node is None or call.args is None:
            return
        for parameter, argument in zip(procedure.parameters, call.args.exprs):
            if isinstance(parameter.type, (Pointer, Struct)) and not parameter.moves and self.has_offset(argument):
                parameter.moves = self.is_new = True

    def object_has_offset(self, symbol: Any) -> bool:
        """Whether a parameter, or a pointer that is an object, has an offset."""
        if not isinstance(symbol, Symbol) or symbol.moves:
            return isinstance(symbol, Symbol)
        origins = [] if symbol.is_parameter else self.program.pointed.get(id(symbol), [])
        return isinstance(symbol.type, Pointer) and any(self.has_offset(origin) for origin in origins)

    def has_offset(self, node: Any) -> bool:
        """Whether a pointer, or the place of a struct, lies behind the beginning of its array."""
        if isinstance(node, c_ast.Cast):
            return is_null(node) or self.has_offset(node.expr)
        if isinstance(node, c_ast.ID):
            return self.object_has_offset(self.program.symbols.get(id(node)))
        if isinstance(node, c_ast.ArrayRef):
            kind = type_of(self.program, node)
            if isinstance(kind, (Array, Pointer)) and not is_flat(type_of(self.program, node.name)):
                return False
            return value_of(self.program, node.subscript) != 0 or self.has_offset(node.name)
        if isinstance(node, c_ast.UnaryOp):
            return node.op in STEPS or self.has_offset(node.expr)
        if isinstance(node, c_ast.TernaryOp):
            return self.has_offset(node.iftrue) or self.has_offset(node.iffalse)
        return is_null(node) or isinstance(node, (c_ast.BinaryOp, c_ast.Assignment))
