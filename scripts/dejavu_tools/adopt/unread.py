"""What can't be read, and what else isn't known without it."""
from __future__ import annotations

from typing import Any, Dict, Iterable, Set

from pycparser import c_ast

from .items import TAGGED, Declared
from .symbols import Symbol

# An obstacle of these kinds may come from a declaration that is missing, of the name that is told or within its node.
BY_NAME = {"undefined", "undefined object", "outside"}
WITHIN = {"object", "pointer", "pointer value", "function pointer", "expression", "struct", "string", "null", "clear",
          "length", "constant", "alias"}


class Unread:
    """The names of declarations that can't be read, and of those that stand on them."""

    def __init__(self, symbols: Dict[int, Any]) -> None:
        self.symbols = symbols
        self.names: Set[str] = set()
        self.tags: Set[str] = set()
        self.is_any = False

    def take(self, left: Declared) -> None:
        """Takes what an item declares that can't be read."""
        self.is_any = True
        self.names |= left.names | left.constants
        self.tags |= left.tags

    def spread(self, nodes: Iterable[Any]) -> None:
        """Takes the types of a file's trees that stand on what is missing."""
        if not self.is_any:
            return
        for node in nodes:
            self.spread_structs(node)
            if isinstance(node, c_ast.Typedef) and self.mentions(node.type):
                self.names.add(node.name)

    def spread_structs(self, node: Any) -> None:
        """Takes the tags of structs within a node that have a member of a type that is missing."""
        for _, child in node.children():
            self.spread_structs(child)
        if isinstance(node, c_ast.Struct) and node.decls and node.name and self.mentions(node):
            self.tags.add(node.name)

    def explains(self, kind: str, node: Any, name: str) -> bool:
        """Whether an obstacle may only follow from a declaration that is missing."""
        if not self.is_any:
            return False
        return kind in BY_NAME and name in self.names or kind in WITHIN and self.mentions(node)

    def mentions(self, node: Any) -> bool:
        """Whether something in a node has a name that isn't known, or a type that isn't."""
        if isinstance(node, c_ast.ID):
            symbol = self.symbols.get(id(node))
            return node.name in self.names if symbol is None else self.is_unknown(symbol)
        if isinstance(node, c_ast.IdentifierType):
            return not self.names.isdisjoint(node.names)
        if type(node).__name__.lower() in TAGGED and node.name in self.tags:
            return True
        if isinstance(node, c_ast.StructRef):
            return self.mentions(node.name)
        return any(self.mentions(child) for _, child in node.children())

    def is_unknown(self, symbol: Any) -> bool:
        """Whether an object or a function is declared with a type that isn't known."""
        is_declared = self.is_any and isinstance(symbol, Symbol) and symbol.node is not None
        return is_declared and self.mentions(symbol.node.type)
