"""The values of constant expressions, and the types of expressions."""
from __future__ import annotations

from typing import Any, Optional

from pycparser import c_ast

from . import types
from .literals import char_value, is_character, number_value, string_bytes
from .types import Array, Function, Member, Number, Pointer, Struct, Type

COMPARED = {"<", ">", "<=", ">=", "==", "!=", "&&", "||"}

OPERATIONS = {
    "+": lambda a, b: a + b, "-": lambda a, b: a - b, "*": lambda a, b: a * b,
    "<<": lambda a, b: a << (b & 63), ">>": lambda a, b: a >> (b & 63),
    "&": lambda a, b: a & b, "|": lambda a, b: a | b, "^": lambda a, b: a ^ b,
    "<": lambda a, b: int(a < b), ">": lambda a, b: int(a > b), "<=": lambda a, b: int(a <= b),
    ">=": lambda a, b: int(a >= b), "==": lambda a, b: int(a == b), "!=": lambda a, b: int(a != b),
    "&&": lambda a, b: int(bool(a and b)), "||": lambda a, b: int(bool(a or b)),
}


def value_of(program: Any, node: Any) -> Optional[int]:
    """The value of a constant expression of integers; None where it is none."""
    if isinstance(node, c_ast.Constant):
        return constant_value(node)
    if isinstance(node, c_ast.ID):
        return getattr(program.symbols.get(id(node)), "value", None)
    if isinstance(node, c_ast.UnaryOp):
        return unary_value(program, node)
    if isinstance(node, c_ast.Cast):
        value, kind = value_of(program, node.expr), program.types.get(id(node.to_type))
        return wrapped(value, kind) if value is not None and isinstance(kind, Number) else None
    if isinstance(node, c_ast.TernaryOp):
        test = value_of(program, node.cond)
        return None if test is None else value_of(program, node.iftrue if test else node.iffalse)
    if isinstance(node, c_ast.BinaryOp):
        return binary_value(program, node)
    return None


def constant_value(node: Any) -> Optional[int]:
    """The value of a number or a character; None of a string or a fraction."""
    if is_character(node):
        return char_value(node.value)
    value, kind = number_value(node.value) if "int" in node.type else (0, None)
    return None if kind is None else value


def unary_value(program: Any, node: Any) -> Optional[int]:
    """The value of a constant behind an operator."""
    if node.op == "sizeof":
        return size_of(program, node)
    value = value_of(program, node.expr)
    if value is None or node.op not in "+-~!":
        return None
    value = {"+": value, "-": -value, "~": ~value, "!": int(not value)}[node.op]
    return wrapped(value, type_of(program, node))


def binary_value(program: Any, node: Any) -> Optional[int]:
    """The value of an operator between two constants."""
    left, right = value_of(program, node.left), value_of(program, node.right)
    if left is None or right is None:
        return None
    if node.op in ("/", "%"):
        if right == 0:
            return None
        quotient = abs(left) // abs(right) * (1 if (left < 0) == (right < 0) else -1)
        return quotient if node.op == "/" else left - quotient * right
    return wrapped(OPERATIONS[node.op](left, right), type_of(program, node))


def wrapped(value: int, kind: Type) -> int:
    """A value as a type of numbers holds it."""
    if not isinstance(kind, Number):
        return value
    if kind.is_boolean:
        return int(value != 0)
    value &= (1 << 8 * kind.size) - 1
    return value - (1 << 8 * kind.size) if kind.is_signed and value >> (8 * kind.size - 1) else value


def size_of(program: Any, node: Any) -> int:
    """What a `sizeof` gives."""
    if isinstance(node.expr, c_ast.Typename):
        return program.types[id(node.expr)].size
    if isinstance(node.expr, c_ast.Constant) and node.expr.type == "string":
        return len(string_bytes(node.expr.value)) + 1
    return type_of(program, node.expr).size


def decayed(kind: Type) -> Type:
    """An array as the pointer that it becomes in an operation (6.3.2.1p3)."""
    return Pointer(kind.element) if isinstance(kind, Array) else kind


def element_of(kind: Type) -> Type:
    """What an array or a pointer has behind `[` or `*`."""
    if isinstance(kind, Array):
        return kind.element
    if isinstance(kind, Pointer):
        return types.CHAR if isinstance(kind.target, types.Void) else kind.target
    return kind if isinstance(kind, Function) else types.INT


def type_of(program: Any, node: Any) -> Type:
    """The type of an expression."""
    if isinstance(node, c_ast.Constant):
        if node.type == "string":
            return Array(types.CHAR, len(string_bytes(node.value)) + 1)
        kind = types.INT if is_character(node) else number_value(node.value)[1] if "int" in node.type else None
        return kind or types.FLOATING
    if isinstance(node, c_ast.ID):
        return getattr(program.symbols.get(id(node)), "type", types.INT)
    if isinstance(node, c_ast.ArrayRef):
        return element_of(type_of(program, node.name))
    if isinstance(node, c_ast.StructRef):
        return member_type(program, node)
    if isinstance(node, (c_ast.Cast, c_ast.CompoundLiteral)):
        return program.types.get(id(node.to_type if isinstance(node, c_ast.Cast) else node.type), types.INT)
    if isinstance(node, c_ast.FuncCall):
        called = type_of(program, node.name)
        return called.result if isinstance(called, Function) else types.INT
    if isinstance(node, c_ast.Assignment):
        return type_of(program, node.lvalue)
    if isinstance(node, c_ast.ExprList):
        return type_of(program, node.exprs[-1])
    return operation_type(program, node)


def member_of(program: Any, node: Any) -> Optional[Member]:
    """The member that an expression with `.` or `->` names."""
    kind = type_of(program, node.name)
    if node.type == "->":
        kind = element_of(kind)
    return kind.member(node.field.name) if isinstance(kind, Struct) else None


def member_type(program: Any, node: Any) -> Type:
    """The type of a member."""
    member = member_of(program, node)
    return member.type if member else types.INT


def operation_type(program: Any, node: Any) -> Type:
    """The type of what an operator gives."""
    if isinstance(node, c_ast.UnaryOp):
        if node.op == "sizeof":
            return types.SIZE
        kind = type_of(program, node.expr)
        if node.op == "*":
            return element_of(kind)
        if node.op == "&":
            return Pointer(kind)
        if node.op == "!":
            return types.INT
        return types.promoted(kind) if node.op in "+-~" and isinstance(kind, Number) else kind
    if isinstance(node, c_ast.TernaryOp):
        return joined(decayed(type_of(program, node.iftrue)), decayed(type_of(program, node.iffalse)))
    if isinstance(node, c_ast.BinaryOp):
        if node.op in COMPARED:
            return types.INT
        left, right = decayed(type_of(program, node.left)), decayed(type_of(program, node.right))
        if node.op in ("<<", ">>"):
            return types.promoted(left) if isinstance(left, Number) else left
        if isinstance(left, Pointer) and isinstance(right, Pointer):
            return types.LONG
        return joined(left, right)
    return types.INT


def joined(left: Type, right: Type) -> Type:
    """The type of an operation on two values, or of what is one of them."""
    if isinstance(left, Number) and isinstance(right, Number):
        return types.common(left, right)
    return right if isinstance(left, Number) else left
