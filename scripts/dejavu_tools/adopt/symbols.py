"""What names mean: objects, parameters and functions of the program."""
from __future__ import annotations

from dataclasses import dataclass, field
from typing import Any, Dict, List, Optional, Set

from .types import Function, Type


@dataclass(eq=False)
class Symbol:
    """An object, a parameter or a function: its name in C, its type, and its name in the unit."""

    name: str
    type: Type
    unit: str = ""
    is_global: bool = False
    is_parameter: bool = False
    is_addressed: bool = False  # `&` stands before it: a number becomes an array of one element
    is_copied: bool = False  # an array that `memcpy` may copy before all of it was written
    node: Any = None  # its declaration
    init: Any = None  # of an object of file scope
    is_defined: bool = False
    moves: bool = False  # a parameter with an offset behind it
    base: Any = None  # what a pointer object points into
    is_told: bool = False  # whether an obstacle tells of its declaration, so that its uses needn't be told


@dataclass(eq=False)
class Procedure:
    """A function: its symbol, its tree, its parameters, and what its text says of objects."""

    symbol: Symbol
    node: Any = None  # a FuncDef, or None where it is only declared
    parameters: List[Symbol] = field(default_factory=list)
    names: Set[str] = field(default_factory=set)
    writes: Set[Any] = field(default_factory=set)  # objects of file scope, own parameters, and streams
    reads: Set[Any] = field(default_factory=set)

    @property
    def type(self) -> Function:
        """Its type."""
        return self.symbol.type


class Scope:
    """Names, and the scopes around them."""

    def __init__(self, outer: Optional["Scope"] = None) -> None:
        self.outer = outer
        self.names: Dict[str, Any] = {}
        self.tags: Dict[str, Any] = {}

    def find(self, name: str) -> Any:
        """What a name means: a type, a number (an enum constant) or a symbol; None where nothing declares it."""
        scope: Optional[Scope] = self
        while scope is not None:
            if name in scope.names:
                return scope.names[name]
            scope = scope.outer
        return None

    def find_tag(self, name: str) -> Any:
        """The struct or enum of a tag."""
        scope: Optional[Scope] = self
        while scope is not None:
            if name in scope.tags:
                return scope.tags[name]
            scope = scope.outer
        return None
