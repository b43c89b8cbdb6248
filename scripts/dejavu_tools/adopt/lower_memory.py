"""`memset`, `memcpy` and `memmove`: on bytes, and on whole objects of other types; and copies of structs."""
from __future__ import annotations

from typing import Any, Callable, List, Optional

from pycparser import c_ast

from . import types
from .constants import size_of, type_of, value_of
from .types import Array, Pointer, Struct, Type
from .values import PRIMARY, Reference, Value, number


class MemoryLowering:
    """The part of a `Body` that copies and sets objects."""

    def copy(self, struct: Struct, to: Reference, start: Reference) -> None:
        """Copies a struct."""
        words = [*self.reference_words(to, True), *self.reference_words(start, True)]
        self.output.put(f"{self.unit.copier(struct)}({', '.join(words)});")

    def do_memset(self, node: Any) -> None:
        """Bytes set, or an object of any type set to 0 as a whole."""
        target, byte, size = self.arguments(node)
        found = self.bytes_or_elements(target)
        if getattr(found.element, "unit", "") == "char":
            self.output.put(f"{self.library_text('memset', [found, self.value(byte), self.value(size)])};")
            return
        count = self.element_count(size, found.element)
        if hasattr(found.element, "unit") and count is not None and value_of(self.program, byte) == 0:
            self.output.put(f"{self.library_text(f'fill_{found.element.unit}', [found, number(0), count])};")
            return
        whole = self.whole_object(target, size)
        is_of_bytes = getattr(types.innermost(whole), "unit", "") == "char"
        if whole is None or value_of(self.program, byte) != 0 and not is_of_bytes:
            self.tell("clear", node, "memset")
            return
        value = self.value(byte)
        if value.constant is None:
            name = self.temporary("byte")
            self.output.put(f"int {name} = {value.text};")
            value = Value(name, PRIMARY, types.INT)
        self.each_row(node, whole, [found], lambda kind, rows: self.set_row(kind, rows[0], value))

    def set_row(self, kind: Type, row: Reference, value: Value) -> None:
        """Sets an array of numbers or structs, or one struct."""
        count = kind.length or 1 if isinstance(kind, Array) else 1
        struct = types.root_struct(kind)
        if struct is not None:
            self.each_struct(kind, [row], lambda ones: self.output.put(
                f"{self.unit.clearer(struct)}({', '.join(self.reference_words(ones[0], True))});"))
        else:
            unit = types.innermost(kind).unit
            name = "memset" if unit == "char" else f"fill_{unit}"
            self.output.put(f"{self.library_text(name, [row, value, number(count)])};")

    def each_struct(self, kind: Type, rows: List[Reference], write: Callable[[List[Reference]], None]) -> None:
        """Writes something for the structs of each place in arrays of one length, or for single structs."""
        if not isinstance(kind, Array):
            write(rows)
            return
        at = self.temporary("at")
        with self.output.block(f"for (int {at} = 0; {at} < {kind.length}; {at}++) {{"):
            write([row.moved(Value(at, PRIMARY, types.INT)) for row in rows])

    def each_row(self, node: Any, kind: Type, objects: List[Reference], write: Callable[[Type, Any], None]) -> None:
        """Writes something for each innermost array of objects of one type, in loops over those around it."""
        if any(not found.is_simple for found in objects) and isinstance(kind, Array):
            self.tell("alias", node)
        if not isinstance(kind, Array) or not isinstance(kind.element, Array):
            write(kind, objects)
            return
        if any(found.offset is not None for found in objects):
            self.tell("clear", node, self.name_called(node))
        at = self.temporary("at")
        with self.output.block(f"for (int {at} = 0; {at} < {kind.length}; {at}++) {{"):
            below = types.as_unit(kind.element)
            inner = [Reference(f"{found.base}[{at}]", None, below.element) for found in objects]
            self.each_row(node, below, inner, write)

    def whole_object(self, target: Any, size: Any) -> Optional[Type]:
        """The type of the object at which a pointer points, where a size is that of the whole; else None."""
        is_address = isinstance(target, c_ast.UnaryOp) and target.op == "&"
        kind = type_of(self.program, target.expr if is_address else target)
        if isinstance(kind, Pointer):
            kind = kind.target
        given = value_of(self.program, size)
        return types.as_unit(kind) if given is not None and given == kind.size else None

    def bytes_or_elements(self, node: Any) -> Reference:
        """What a pointer refers to, a flat array of arrays by its innermost elements."""
        found = self.reference(node)
        return found.innermost() if found.is_flat else found

    def do_memcpy(self, node: Any) -> None:
        """Bytes copied, or a whole object of any type."""
        target, origin, size = self.arguments(node)
        to, start = self.bytes_or_elements(target), self.bytes_or_elements(origin)
        kind, name = getattr(to.element, "unit", ""), self.name_called(node)
        if kind == "char" and getattr(start.element, "unit", "") == "char":
            self.output.put(f"{self.library_text(name, [to, start, self.value(size)])};")
            return
        count = self.element_count(size, to.element)
        if kind and kind == getattr(start.element, "unit", "") and count is not None and name == "memcpy":
            self.output.put(f"{self.library_text(f'copy_{kind}', [to, start, count])};")
            return
        whole, other = self.whole_object(target, size), self.whole_object(origin, size)
        if whole is None or other is None or types.spelled(whole) != types.spelled(other):
            self.tell("clear", node, name)
        else:
            self.each_row(node, whole, [to, start], self.copy_row)

    do_memmove = do_memcpy

    def copy_row(self, kind: Type, rows: List[Reference]) -> None:
        """Copies an array of numbers or structs, or one struct."""
        to, start = rows
        struct = types.root_struct(kind)
        if struct is None:
            unit, count = types.innermost(kind).unit, kind.length or 1 if isinstance(kind, Array) else 1
            name = "memcpy" if unit == "char" else f"copy_{unit}"
            self.output.put(f"{self.library_text(name, [to, start, number(count)])};")
        else:
            self.each_struct(kind, rows, lambda ones: self.copy(struct, *ones))

    def element_count(self, size: Any, element: Any) -> Optional[Value]:
        """How many elements a size in bytes is: of a constant, or of a product with the size of one."""
        given = value_of(self.program, size)
        if given is not None:
            return number(given // element.size, types.SIZE) if given % element.size == 0 else None
        if isinstance(size, c_ast.BinaryOp) and size.op == "*":
            for one, other in ((size.left, size.right), (size.right, size.left)):
                if isinstance(one, c_ast.UnaryOp) and one.op == "sizeof" and size_of(self.program, one) == element.size:
                    return self.value(other)
        return None
