"""Expressions of the unit: their text, how tightly it binds, and what is known of their value."""
from __future__ import annotations

import re
from dataclasses import dataclass, replace
from typing import Optional

from . import types
from .types import Number, Type

EFFECT = re.compile(r"\+\+|--|\w\(|<<=|>>=|(?<![=!<>])=(?!=)")

ASSIGNED, CHOSEN, UNARY, POSTFIX, PRIMARY = 1, 2, 13, 14, 15
LEVELS = {
    "||": 3, "&&": 4, "|": 5, "^": 6, "&": 7, "==": 8, "!=": 8, "<": 9, ">": 9, "<=": 9, ">=": 9, "<<": 10, ">>": 10,
    "+": 11, "-": 11, "*": 12, "/": 12, "%": 12,
}
# Operators whose operands get parentheses where they are operators of another level, as compilers like it.
CLEAR = {"&", "|", "^", "<<", ">>", "||"}


@dataclass(frozen=True)
class Value:
    """A number. `raw` has the same low bits, where a mask stands around them."""

    text: str
    level: int
    type: Number
    constant: Optional[int] = None
    is_boolean: bool = False
    raw: Optional["Value"] = None

    def at(self, level: int) -> str:
        """The text where something stands around it that binds so tightly."""
        return self.text if self.level >= level else f"({self.text})"

    def bare(self) -> "Value":
        """The value without its mask: the same low 8 bits, and 0 where the value is 0."""
        return self.raw or self


@dataclass(frozen=True)
class Part:
    """A place of the unit: an object, an element or a member."""

    text: str
    type: Type

    @property
    def is_simple(self) -> bool:
        """Whether finding it again finds the same and does nothing."""
        return is_pure(self.text)


@dataclass(frozen=True)
class Reference:
    """What an array parameter refers to: an array, and the number of the element at which it begins.

    Of a flat array of arrays `element` is one of these arrays, and the number is that of an innermost element.
    """

    base: str
    offset: Optional[Value]
    element: Type
    is_flat: bool = False
    text: Optional[types.Pointer] = None  # the type of a string that may stand for NULL

    @property
    def is_simple(self) -> bool:
        """Whether finding it again finds the same and does nothing."""
        return is_pure(self.base) and (self.offset is None or is_pure(self.offset.text))

    def moved(self, by: Value) -> "Reference":
        """The same, so many elements further on."""
        return replace(self, offset=by if self.offset is None else added(self.offset, by))

    def row(self, index: Value) -> "Reference":
        """The array at an index of a flat array of arrays."""
        size = types.cells(self.element)
        is_constant = index.constant is not None
        step = number(index.constant * size) if is_constant else operation("*", index, number(size), types.INT)
        inner = self.element.element
        return replace(self.moved(step), element=inner, is_flat=isinstance(inner, types.Array))

    def innermost(self) -> "Reference":
        """The same elements, one by one, where this is a flat array of arrays."""
        return replace(self, element=types.innermost(self.element), is_flat=False)

    def at(self, index: Optional[Value] = None) -> str:
        """The text of the element at an index behind the beginning."""
        whole = self if index is None else self.moved(index)
        return f"{self.base}[{whole.offset.text if whole.offset else 0}]"


def is_pure(text: str) -> bool:
    """Whether evaluating an expression again gives the same and does nothing."""
    return not EFFECT.search(text)


def number(value: int, kind: Number = types.INT) -> Value:
    """A constant."""
    text = str(value)
    if value == -2_147_483_648:
        text = "-2147483647 - 1"
    if not kind.is_signed and kind.unit == "unsigned":
        text += "u"
    level = PRIMARY if value >= 0 else UNARY if value != -2_147_483_648 else LEVELS["-"]
    return Value(text, level, kind, value, value in (0, 1))


ZERO = number(0)
NULL_OFFSET = number(-1)


def added(left: Value, right: Value) -> Value:
    """The sum of two offsets."""
    if left.constant == 0:
        return right
    if right.constant == 0:
        return left
    if right.constant is not None and right.constant < 0:
        return operation("-", left, number(-right.constant), left.type)
    return operation("+", left, right, types.common(left.type, right.type))


def operation(operator: str, left: Value, right: Value, kind: Number) -> Value:
    """An operator between two values."""
    level = LEVELS[operator]
    lefts, rights = left.at(level), right.at(level + 1)
    if operator in CLEAR:
        lefts, rights = cleared(left, lefts, level), cleared(right, rights, level)
    is_boolean = operator in ("&&", "||") or level in (8, 9)
    return Value(f"{lefts} {operator} {rights}", level, kind, is_boolean=is_boolean)


def cleared(value: Value, text: str, level: int) -> str:
    """The operand in parentheses, where people misread it without."""
    most = LEVELS["&&"] if level == LEVELS["||"] else UNARY - 1
    return f"({value.text})" if level < value.level <= most else text


def unary(operator: str, value: Value, kind: Number) -> Value:
    """An operator before a value."""
    text = value.at(UNARY)
    gap = " " if text[:1] == operator[-1:] and operator in "+-" else ""
    return Value(f"{operator}{gap}{text}", UNARY, kind, is_boolean=operator == "!")


def negated(value: Value) -> Value:
    """1 where a value is 0, and else 0."""
    return unary("!", value.bare(), types.INT)


def as_boolean(value: Value) -> Value:
    """1 where a value isn't 0, and else 0."""
    return value if value.is_boolean else operation("!=", value.bare(), ZERO, types.INT)


def masked(value: Value) -> Value:
    """What an `unsigned char` holds whose bits a `char` has."""
    return Value(f"{value.at(LEVELS['&'] + 1)} & 255", LEVELS["&"], types.UNSIGNED_CHAR, raw=value)


def cast(name: str, value: Value, kind: Number) -> Value:
    """A value as another type of the language."""
    return Value(f"({name}){value.at(UNARY)}", UNARY, kind)


def stored(value: Value, kind: Number) -> Value:
    """What has to be stored in an object of this type, so that it holds the value (C11 6.3.1.2 and 6.3.1.3)."""
    if kind.unit == "char":
        return value.bare() if value.type.size == 1 else value
    if kind.is_boolean:
        return as_boolean(value)
    if not types.is_narrow(kind) or types.fits(value.type, kind) or in_range(value, kind):
        return value
    if kind.is_signed:
        return narrowed(value)
    return operation("&", value, number(65535), types.INT)


def narrowed(value: Value) -> Value:
    """The low 16 bits of a value, with the upper one of them as its sign."""
    high = operation("<<", cast("unsigned", value, types.UNSIGNED), number(16), types.UNSIGNED)
    return operation(">>", cast("int", high, types.INT), number(16), types.INT)


def in_range(value: Value, kind: Number) -> bool:
    """Whether a constant is a value of a type."""
    if value.constant is None:
        return False
    least = -(1 << 8 * kind.size - 1) if kind.is_signed else 0
    return least <= value.constant < least + (1 << 8 * kind.size)
