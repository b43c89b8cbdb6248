"""Which parameters are compared with NULL, where a string of a table that stands for NULL must not be handed to one.

In the unit a string of a table is a char array, and an empty one is NULL where the table has no empty string. What is
handed on is an array, which has nothing to tell NULL by.
"""
from __future__ import annotations

from typing import Any, List, Set, Tuple

from pycparser import c_ast

from .symbols import Symbol
from .types import Pointer

TESTERS = (c_ast.If, c_ast.While, c_ast.DoWhile, c_ast.For, c_ast.TernaryOp)
COMPARING = {"==", "!=", "&&", "||"}


class NullTests:
    """The pointer parameters whose value may decide something: compared, tested, or copied into another pointer."""

    def __init__(self, program: Any) -> None:
        self.program = program
        self.tested: Set[Symbol] = set()
        self.handed: List[Tuple[Symbol, Any]] = []  # parameters, and what calls give them
        for procedure in program.procedures:
            self.look(procedure.node.body)
        count = -1
        while count != len(self.tested):
            count = len(self.tested)
            for parameter, argument in self.handed:
                if parameter in self.tested:
                    self.take(argument)

    def look(self, node: Any) -> None:
        """Takes the parameters that a body tests, and notes its calls."""
        if isinstance(node, TESTERS):
            self.take(node.cond)
        elif isinstance(node, c_ast.UnaryOp) and node.op == "!":
            self.take(node.expr)
        elif isinstance(node, c_ast.BinaryOp) and node.op in COMPARING:
            self.take(node.left)
            self.take(node.right)
        elif isinstance(node, c_ast.Assignment):
            self.take(node.rvalue)
        elif isinstance(node, c_ast.Decl):
            self.take(node.init)
        elif isinstance(node, c_ast.FuncCall) and node.args is not None:
            procedure = self.program.procedure_of(node.name)
            if procedure is not None and procedure.node is not None:
                self.handed.extend(zip(procedure.parameters, node.args.exprs))
        for _, child in node.children():
            self.look(child)

    def take(self, node: Any) -> None:
        """Takes the parameter that an expression is."""
        while isinstance(node, c_ast.Cast):
            node = node.expr
        symbol = self.program.symbols.get(id(node)) if isinstance(node, c_ast.ID) else None
        if isinstance(symbol, Symbol) and symbol.is_parameter and isinstance(symbol.type, Pointer):
            self.tested.add(symbol)
