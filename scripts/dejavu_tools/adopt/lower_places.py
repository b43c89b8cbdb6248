"""Places and references of C as those of the unit.

A struct that is no element of an array is an array of one, and so is a number before which `&` stands: what a pointer
to it was is an array parameter then. A pointer that is a parameter, or an object that points into one array all its
life, is that array and, where it moves, an offset `NAME_at`.
"""
from __future__ import annotations

from typing import Any, Optional

from pycparser import c_ast

from . import types
from .constants import decayed, element_of, type_of, value_of
from .declarations import Constant
from .effects import STEPS
from .initialisers import is_null, is_string
from .library import FUNCTIONS
from .literals import string_bytes
from .symbols import Symbol
from .types import Array, Function, Number, Pointer, Struct
from .values import NULL_OFFSET, PRIMARY, Part, Reference, Value, ZERO, operation, unary

SEEKERS = {"strchr", "strrchr", "strstr", "strpbrk", "memchr"}
COPIERS = {"strcpy", "strncpy", "strcat", "strncat", "memset", "memcpy", "memmove"}
NOWHERE = Part("0", types.INT)


def is_pointer(kind: Any) -> bool:
    """Whether a value of this type points somewhere."""
    return isinstance(decayed(kind), Pointer)


class PlaceLowering:
    """The part of a `Body` that makes places and references."""

    def symbol(self, node: Any) -> Optional[Symbol]:
        """The object that a name means."""
        found = self.program.symbols.get(id(node)) if isinstance(node, c_ast.ID) else None
        return found if isinstance(found, Symbol) else None

    def place(self, node: Any) -> Part:
        """The place of a number, an array or a struct."""
        if isinstance(node, c_ast.ID):
            return self.object_place(node)
        if isinstance(node, c_ast.ArrayRef):
            return self.element(self.reference(node.name), self.value(node.subscript))
        if isinstance(node, c_ast.StructRef):
            return self.member_place(node)
        if isinstance(node, c_ast.UnaryOp) and node.op == "*":
            return self.element(self.reference(node.expr), ZERO)
        if isinstance(type_of(self.program, node), Struct):
            reference = self.reference(node)
            return Part(reference.at(), reference.element)
        self.tell("expression", node)
        return NOWHERE

    def element(self, reference: Reference, index: Value) -> Part:
        """An element by its index behind the beginning of a reference."""
        return Part(reference.at(index), reference.element)

    def object_place(self, node: Any) -> Part:
        """The place of an object."""
        symbol = self.symbol(node)
        if symbol is None:
            self.tell("outside", node, node.name)
            return NOWHERE
        if isinstance(symbol.type, Pointer) and not symbol.type.text:
            self.tell("pointer value", node)
            return NOWHERE
        self.check_defined(symbol, node)
        if isinstance(symbol.type, Struct):
            return Part(self.object_reference(symbol).at(), symbol.type)
        is_one = symbol.is_addressed and isinstance(symbol.type, Number)
        return Part(f"{symbol.unit}[0]" if is_one else symbol.unit, symbol.type)

    def check_defined(self, symbol: Symbol, node: Any) -> None:
        """Tells of an object that no file defines."""
        if symbol.is_global and not symbol.is_defined and not isinstance(symbol.type, Function):
            standard = self.program.places.is_standard(symbol.node)
            self.tell("outside" if standard else "undefined object", node, symbol.name)

    def offset_name(self, symbol: Symbol) -> str:
        """The name of the offset behind a parameter, or of the object that a pointer's offset is."""
        return self.program.names.free(f"{symbol.unit}_at")

    def member_place(self, node: Any) -> Part:
        """The place of a member."""
        if node.type == "->":
            outer = self.element(self.reference(node.name), ZERO)
        else:
            outer = self.place(node.name)
        member = outer.type.member(node.field.name) if isinstance(outer.type, Struct) else None
        if member is None:
            self.tell("expression", node)
            return NOWHERE
        one = "[0]" if member.is_one or isinstance(member.type, Struct) else ""
        return Part(f"{outer.text}.{member.name}{one}", member.type)

    def object_reference(self, symbol: Symbol) -> Reference:
        """What a parameter or an object refers to as a whole."""
        kind = symbol.type
        if symbol.base is not None:
            return symbol.base
        if isinstance(kind, Pointer) and not kind.text:
            offset = Value(self.offset_name(symbol), PRIMARY, types.INT) if symbol.moves else None
            return Reference(symbol.unit, offset, element_of(kind), isinstance(kind.target, Array))
        if isinstance(kind, Struct) and symbol.is_parameter and symbol.moves:
            return Reference(symbol.unit, Value(self.offset_name(symbol), PRIMARY, types.INT), kind)
        if isinstance(kind, Pointer):
            return Reference(symbol.unit, None, types.CHAR, text=kind)
        if isinstance(kind, Array):
            return Reference(symbol.unit, None, kind.element, kind.is_flat)
        return Reference(symbol.unit, None, kind)

    def reference(self, node: Any) -> Reference:
        """What an expression that is a pointer, an array or a struct refers to."""
        handler = getattr(self, f"refer_{type(node).__name__.lower()}", None)
        found = handler(node) if handler else None
        if found is None:
            kind = type_of(self.program, node)
            found = Reference("nothing", None, kind if isinstance(kind, Struct) else element_of(kind))
            if handler is None:
                self.tell("pointer", node)
        return found

    def refer_id(self, node: Any) -> Optional[Reference]:
        """Of an object or a parameter."""
        symbol = self.symbol(node)
        if symbol is None or isinstance(symbol.type, Function):
            self.tell("function pointer" if symbol else "expression", node)
            return None
        self.check_defined(symbol, node)
        is_local_pointer = isinstance(symbol.type, Pointer) and not symbol.is_parameter and not symbol.type.text
        if is_local_pointer and symbol.base is None:
            if not symbol.is_told:
                self.tell("pointer", node)
            return None
        if isinstance(symbol.type, Number) and not symbol.is_addressed:
            self.tell("pointer", node)
            return None
        return self.object_reference(symbol)

    def refer_arrayref(self, node: Any) -> Optional[Reference]:
        """Of an element that is an array, a string or a struct."""
        part_type = type_of(self.program, node)
        if isinstance(part_type, Struct):
            return self.moved(node)
        return self.within_element(node, self.reference(node.name), self.value(node.subscript))

    def within_element(self, node: Any, outer: Reference, index: Value) -> Optional[Reference]:
        """Of an element that is an array or a string."""
        return outer.row(index) if outer.is_flat else self.within(node, self.element(outer, index))

    def moved(self, node: Any) -> Reference:
        """Of an element by its index; at the index 0 an array has no offset."""
        outer = self.reference(node.name)
        return outer if value_of(self.program, node.subscript) == 0 else outer.moved(self.value(node.subscript))

    def refer_structref(self, node: Any) -> Optional[Reference]:
        """Of a member that is an array, a string or a struct."""
        return self.within(node, self.place(node))

    def within(self, node: Any, part: Part) -> Optional[Reference]:
        """Of a place that is an array, a string or a member that is a struct."""
        if isinstance(part.type, Array):
            return Reference(part.text, None, part.type.element, part.type.is_flat)
        if isinstance(part.type, Pointer) and part.type.text:
            return Reference(part.text, None, types.CHAR, text=part.type)
        if isinstance(part.type, Struct):
            return Reference(part.text[: -len("[0]")], None, part.type)
        self.tell("pointer", node)
        return None

    def refer_constant(self, node: Any) -> Optional[Reference]:
        """Of a string literal: of the object that holds it."""
        if is_string(node):
            return Reference(self.unit.text(string_bytes(node.value)), None, types.CHAR)
        if is_null(node):
            return Reference(self.unit.text([]), NULL_OFFSET, types.CHAR)
        self.tell("expression", node)
        return None

    def refer_cast(self, node: Any) -> Optional[Reference]:
        """Of a pointer that is cast to one of the same bytes."""
        kind = type_of(self.program, node)
        if is_null(node) and isinstance(kind, Pointer):
            return Reference(self.unit.text([]), NULL_OFFSET, types.CHAR)
        found = self.reference(node.expr)
        target = element_of(kind)
        if isinstance(kind, Pointer) and isinstance(kind.target, types.Void):
            return found
        if getattr(found.element, "unit", found.element) == getattr(target, "unit", target):
            return Reference(found.base, found.offset, target)
        self.tell("pointer", node)
        return None

    def refer_unaryop(self, node: Any) -> Optional[Reference]:
        """Of `&`, `*` and the steps of a pointer."""
        if node.op == "&":
            return self.address(node.expr)
        if node.op == "*":
            outer = self.reference(node.expr)
            is_struct = isinstance(type_of(self.program, node), Struct)
            return outer if is_struct else self.within_element(node, outer, ZERO)
        symbol = self.symbol(node.expr)
        if node.op in STEPS and symbol is not None and is_pointer(symbol.type):
            found = self.reference(node.expr)
            if found.offset is not None:
                return Reference(found.base, self.stepped(node, found.offset), found.element)
        if symbol is None or not symbol.is_told:
            self.tell("pointer", node)
        return None

    @staticmethod
    def stepped(node: Any, offset: Value) -> Value:
        """An offset that is stepped."""
        if node.op.startswith("p"):
            return Value(offset.at(14) + node.op[1:], 14, types.INT)
        return unary(node.op, offset, types.INT)

    def address(self, node: Any) -> Optional[Reference]:
        """Of a place behind `&`."""
        kind = type_of(self.program, node)
        if isinstance(kind, Array):
            return self.reference(node)
        if isinstance(node, c_ast.ArrayRef):
            return self.moved(node)
        symbol = self.symbol(node)
        if isinstance(kind, Struct) or symbol is not None and symbol.is_addressed and isinstance(kind, Number):
            return self.reference(node)
        if isinstance(node, c_ast.StructRef) and isinstance(kind, Number):
            part = self.place(node)
            return Reference(part.text[: -len("[0]")], None, kind)
        self.tell("pointer", node)
        return None

    def refer_binaryop(self, node: Any) -> Optional[Reference]:
        """Of a pointer and a number."""
        left, right = node.left, node.right
        if node.op == "+" and not is_pointer(type_of(self.program, left)):
            left, right = right, left
        if node.op not in "+-" or is_pointer(type_of(self.program, right)):
            self.tell("pointer", node)
            return None
        outer, by = self.reference(left), self.value(right)
        if outer.is_flat:
            self.tell("pointer", node)
            return None
        if node.op == "+":
            return outer.moved(by)
        start = outer.offset or ZERO
        return Reference(outer.base, operation("-", start, by, types.INT), outer.element)

    def refer_funccall(self, node: Any) -> Optional[Reference]:
        """Of the struct that a call gives."""
        kind = type_of(self.program, node)
        if isinstance(kind, Struct):
            result = self.result_of(node)
            name = self.temporary("result")
            self.output.put(f"{self.unit.declared(name, kind)};")
            self.copy(kind, Reference(name, None, kind), result)
            return Reference(name, None, kind)
        return self.found_reference(node)

    def result_of(self, node: Any) -> Reference:
        """Where a call leaves a struct, until the next call."""
        kind = type_of(self.program, node)
        self.output.put(f"{self.call_text(node)};")
        return Reference(self.unit.result(kind), None, kind)

    def source(self, node: Any) -> Reference:
        """What a struct is copied from at once."""
        is_result = isinstance(node, c_ast.FuncCall) and isinstance(type_of(self.program, node), Struct)
        return self.result_of(node) if is_result else self.reference(node)

    def found_reference(self, node: Any) -> Optional[Reference]:
        """Of what a function of the library finds in its first argument, or writes to it."""
        name = self.name_called(node)
        if name in COPIERS and self.called(node) is None:
            self.call_statement(node)
            return self.again(node)
        if name not in SEEKERS or self.called(node) is not None:
            if self.called(node) is not None or name in FUNCTIONS:
                self.tell("pointer value", node)
            else:
                self.tell_unknown(node)
            return None
        text = self.library_call(node, f"{name}_index")
        found = self.temporary("found")
        self.output.put(f"int {found} = {text};")
        outer = self.again(node)
        value = Value(found, PRIMARY, types.INT)
        if outer.offset is not None and outer.offset.constant != 0:
            value = Value(f"{found} < 0 ? -1 : {outer.moved(value).offset.at(2)}", 2, types.INT)
        return Reference(outer.base, value, outer.element)

    def again(self, node: Any) -> Reference:
        """What the first argument of a call refers to, once more."""
        with self.output.apart() as lines:
            found = self.reference(self.arguments(node)[0])
        if lines or not found.is_simple:
            self.tell("alias", node)
        return found

    def refer_compoundliteral(self, node: Any) -> Optional[Reference]:
        """Of the object that a compound literal is."""
        kind = type_of(self.program, node)
        name = self.temporary("literal")
        self.declare_object(name, kind, node.init, node)
        if isinstance(kind, Array):
            return Reference(name, None, kind.element, kind.is_flat)
        return Reference(name, None, kind)

    def refer_assignment(self, node: Any) -> Optional[Reference]:
        """Of what was assigned to."""
        self.assign(node, node.op, node.lvalue, node.rvalue)
        return self.reference(node.lvalue)

    def refer_exprlist(self, node: Any) -> Optional[Reference]:
        """Of the last of several expressions."""
        for part in node.exprs[:-1]:
            self.evaluate(part)
        return self.reference(node.exprs[-1])

    def refer_ternaryop(self, node: Any) -> Optional[Reference]:
        """Of one of two: the one whose turn it is, or both are in one array."""
        if id(node) in self.decided:
            return self.reference(self.decided[id(node)])
        if self.is_plain(node):
            test = self.truth(node.cond)
            left, right = self.reference(node.iftrue), self.reference(node.iffalse)
            if left.base == right.base:
                text = f"{test.at(3)} ? {(left.offset or ZERO).at(2)} : {(right.offset or ZERO).at(2)}"
                return Reference(left.base, Value(text, 2, types.INT), left.element)
        if isinstance(type_of(self.program, node), Struct):
            self.tell("struct", node)
            return None
        self.tell("string" if is_string(node.iftrue) or is_string(node.iffalse) else "pointer", node)
        return None

    def constant_of(self, node: Any) -> Optional[Constant]:
        """The enum constant that a name means."""
        found = self.program.symbols.get(id(node))
        return found if isinstance(found, Constant) else None
