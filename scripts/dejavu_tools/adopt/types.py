"""The types of C, with the sizes of LP64, and which type of the language stands for each."""
from __future__ import annotations

from dataclasses import dataclass
from typing import List, Optional, Tuple, Union

POINTER_SIZE = 8  # bytes


@dataclass(frozen=True)
class Number:
    """A type of numbers: its size in bytes, and the language's type that holds its values.

    An `unsigned char` is held by a `char`, and so read through a mask; a `short` and a `_Bool` by an `int`, so that
    what is stored is converted before.
    """

    name: str
    size: int
    is_signed: bool
    unit: str
    is_boolean: bool = False


BOOL = Number("_Bool", 1, False, "int", True)
CHAR = Number("char", 1, True, "char")
SIGNED_CHAR = Number("signed char", 1, True, "char")
UNSIGNED_CHAR = Number("unsigned char", 1, False, "char")
SHORT = Number("short", 2, True, "int")
UNSIGNED_SHORT = Number("unsigned short", 2, False, "int")
INT = Number("int", 4, True, "int")
UNSIGNED = Number("unsigned", 4, False, "unsigned")
LONG = Number("long", 8, True, "int")
UNSIGNED_LONG = Number("unsigned long", 8, False, "unsigned")
SIZE = Number("size_t", 8, False, "unsigned")
FLOATING = Number("double", 8, True, "int")


@dataclass(frozen=True)
class Void:
    """No value."""

    size: int = 1


VOID = Void()


@dataclass(eq=False)
class Array:
    """An array; `length` is None where it isn't known yet. One of arrays is flat where the unit has it as one array."""

    element: "Type"
    length: Optional[int]
    is_flat: bool = False

    @property
    def size(self) -> int:
        """In bytes."""
        return self.element.size * (self.length or 0)


@dataclass(eq=False)
class Pointer:
    """A pointer. One that holds nothing but string literals from its declaration on is a char array of `text` bytes."""

    target: "Type"
    text: int = 0  # bytes of the longest literal, its 0 among them
    has_empty: bool = False  # whether one of them is an empty string
    has_null: bool = False  # whether one of such pointers begins as NULL
    size: int = POINTER_SIZE


@dataclass(eq=False)
class Member:
    """A member of a struct; a number before which `&` stands becomes an array of one element."""

    name: str
    type: "Type"
    is_addressed: bool = False

    @property
    def is_one(self) -> bool:
        """Whether the unit has it as an array of one number."""
        return self.is_addressed and isinstance(self.type, Number)


@dataclass(eq=False)
class Struct:
    """A struct: its name in C, its tag in the unit, and its members once they are known."""

    name: str
    members: Optional[List[Member]] = None
    tag: str = ""

    def __post_init__(self) -> None:
        self.tag = self.tag or self.name

    @property
    def size(self) -> int:
        """In bytes, with what lies between the members."""
        at = 0
        for member in self.members or ():
            at = aligned(at, alignment(member.type)) + member.type.size
        return aligned(at, alignment(self))

    def member(self, name: str) -> Optional[Member]:
        """The member of this name."""
        return next((member for member in self.members or () if member.name == name), None)


@dataclass(eq=False)
class Function:
    """A function's type."""

    result: "Type"
    parameters: Tuple[Tuple[str, "Type"], ...]
    is_variadic: bool = False
    is_open: bool = False  # whether nothing is said of its parameters
    is_old: bool = False  # whether its definition is one in the old style, so that a call promotes its arguments
    size: int = 1


Type = Union[Number, Void, Array, Pointer, Struct, Function]


def aligned(at: int, step: int) -> int:
    """The first multiple of `step` from `at` on."""
    return (at + step - 1) // step * step


def alignment(kind: Type) -> int:
    """In bytes."""
    if isinstance(kind, Array):
        return alignment(kind.element)
    if isinstance(kind, Struct):
        return max((alignment(member.type) for member in kind.members or ()), default=1)
    return kind.size


def promoted(kind: Number) -> Number:
    """The type of a number in an operation (C11 6.3.1.1p2)."""
    return INT if kind.size < INT.size else kind


def passed(kind: Type) -> Type:
    """The type of a parameter as a call without its types passes it (6.5.2.2p6)."""
    return promoted(kind) if isinstance(kind, Number) else kind


def common(left: Number, right: Number) -> Number:
    """The type in which an operation on two numbers is done (6.3.1.8)."""
    left, right = promoted(left), promoted(right)
    if left.size != right.size:
        return left if left.size > right.size else right
    return right if left.is_signed else left


def fits(kind: Number, wider: Number) -> bool:
    """Whether each value of the first type is one of the second."""
    if wider.is_boolean or kind.is_boolean:
        return kind.is_boolean
    if kind.is_signed and not wider.is_signed:
        return False
    return kind.size < wider.size or kind.size == wider.size and kind.is_signed == wider.is_signed


def is_narrow(kind: Type) -> bool:
    """Whether an `int` holds this type, so that what is stored must be converted before."""
    return isinstance(kind, Number) and kind.size < INT.size and kind.unit == "int"


def is_aggregate(kind: Type) -> bool:
    """Whether an initialiser of it may have braces."""
    return isinstance(kind, (Array, Struct))


def has_text(kind: Type) -> bool:
    """Whether a string literal may initialise it whole: an array of chars."""
    return isinstance(kind, Array) and isinstance(kind.element, Number) and kind.element.size == 1


def root_struct(kind: Type) -> Optional[Struct]:
    """The struct of an object of structs, however many arrays stand around it."""
    while isinstance(kind, Array):
        kind = kind.element
    return kind if isinstance(kind, Struct) else None


def innermost(kind: Type) -> Type:
    """The type of the elements, however many arrays stand around them."""
    while isinstance(kind, Array):
        kind = kind.element
    return kind


def cells(kind: Type) -> int:
    """How many innermost elements an array has; 1 of what is none."""
    return (kind.length or 1) * cells(kind.element) if isinstance(kind, Array) else 1


def as_unit(kind: Type) -> Type:
    """A flat array as the one array that the unit has; any other type as it is."""
    return Array(innermost(kind), cells(kind)) if isinstance(kind, Array) and kind.is_flat else kind


def lengths(kind: Type) -> List[int]:
    """The lengths of an array in the unit, from the outermost on; none of what is no array."""
    found: List[int] = []
    while isinstance(as_unit(kind), Array):
        kind = as_unit(kind)
        found.append(kind.length or 1)
        kind = kind.element
    return found


def holds(kind: Type, part: Type) -> bool:
    """Whether an object of the first type has an object of the second in it, or is one."""
    kind = innermost(kind)
    if isinstance(kind, Number) and isinstance(part, Number):
        return kind.unit == part.unit
    if isinstance(kind, Struct) and isinstance(part, Struct) and kind.tag == part.tag:
        return True
    return isinstance(kind, Struct) and any(holds(member.type, part) for member in kind.members or ())


def are_alike(element: Type, target: Type) -> bool:
    """Whether an array parameter with such elements may refer to an array of these."""
    if isinstance(element, Array) and isinstance(target, Array):
        return cells(element) == cells(target) and are_alike(*map(innermost, (element, target)))
    if isinstance(element, Number) and isinstance(target, Number):
        return element.unit == target.unit and element.size == target.size
    if isinstance(element, Struct) and isinstance(target, Struct):
        return element.tag == target.tag
    return isinstance(target, Void)


def spelled(kind: Type, depth: int = 0) -> str:
    """A text that is the same for types that are the same."""
    if isinstance(kind, Struct):
        inner = "" if depth > 9 else ",".join(f"{m.name}:{spelled(m.type, depth + 1)}" for m in kind.members or ())
        return f"struct {kind.name}{{{inner}}}"
    if isinstance(kind, Array):
        return f"{spelled(kind.element, depth + 1)}[{kind.length}]"
    if isinstance(kind, Pointer):
        return f"{spelled(kind.target, depth + 1)}*"
    return getattr(kind, "name", type(kind).__name__)
