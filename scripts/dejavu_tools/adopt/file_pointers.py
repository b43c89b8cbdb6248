"""Pointers of file scope, and static ones of functions, that point into one array all their life."""
from __future__ import annotations

from typing import Any, List, Optional

from . import types
from .effects import roots
from .initialisers import is_null
from .symbols import Symbol
from .types import Array, Number, Pointer, Struct
from .values import PRIMARY, Reference, Value


class FilePointers:
    """Gives each such pointer its array and an offset, an object of file scope; the others stay obstacles."""

    def __init__(self, program: Any) -> None:
        self.program = program
        for symbol in program.objects:
            if isinstance(symbol.type, Pointer) and symbol.init is not None:
                program.pointed.setdefault(id(symbol), []).insert(0, symbol.init)
        for symbol in program.objects:
            array = self.array_of(symbol)
            if array is not None:
                offset = Value(program.names.free(f"{symbol.unit}_at"), PRIMARY, types.INT)
                symbol.base = Reference(array.unit, offset, symbol.type.target)
                symbol.moves = True

    def array_of(self, symbol: Symbol) -> Optional[Symbol]:
        """The array of file scope into which a pointer points, if it is no other and no other type of elements."""
        kind = symbol.type
        if not isinstance(kind, Pointer) or kind.text or symbol.is_addressed or not symbol.is_defined:
            return None
        if not isinstance(kind.target, (Number, Struct)):
            return None
        found = {root for origin in self.origins(symbol) for root in roots(self.program, origin) or {None}}
        array = found.pop() if len(found) == 1 else None
        if array is None or not array.is_global or not array.is_defined or not isinstance(array.type, Array):
            return None
        return array if types.are_alike(array.type.element, kind.target) else None

    def origins(self, symbol: Symbol) -> List[Any]:
        """What a pointer begins as and what is assigned to it, NULL apart."""
        return [origin for origin in self.program.pointed.get(id(symbol), []) if not is_null(origin)]
