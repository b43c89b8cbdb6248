"""Declarations as types and symbols."""
from __future__ import annotations

from typing import Any, List, NamedTuple, Optional, Tuple

from pycparser import c_ast

from . import types
from .constants import value_of
from .old_style import OldParameters
from .symbols import Scope, Symbol
from .types import Array, Function, Member, Number, Pointer, Struct, Type

NUMBERS = {
    "_Bool": types.BOOL, "char": types.CHAR, "char signed": types.SIGNED_CHAR, "char unsigned": types.UNSIGNED_CHAR,
    "short": types.SHORT, "short unsigned": types.UNSIGNED_SHORT, "": types.INT, "signed": types.INT,
    "unsigned": types.UNSIGNED, "long": types.LONG, "long unsigned": types.UNSIGNED_LONG, "long long": types.LONG,
    "long long unsigned": types.UNSIGNED_LONG, "float": types.FLOATING, "double": types.FLOATING,
    "double long": types.FLOATING,
}


class Constant(NamedTuple):
    """An enum constant."""

    name: str
    value: int


class Declarer:
    """Makes types of the trees of one file; what it can't make is an obstacle, and an `int` in its place."""

    def __init__(self, program: Any, stem: str) -> None:
        self.program = program
        self.stem = stem  # of the file's name
        self.obstacles = program.obstacles
        self.printed: Optional[Number] = None  # the type of a number that is printed, while a cast of it is read

    def type(self, node: Any, scope: Scope, hint: str) -> Type:
        """The type of a type's tree. `hint` names a struct that has no tag."""
        made = self.made_type(node, scope, hint)
        self.program.types[id(node)] = made
        return made

    def made_type(self, node: Any, scope: Scope, hint: str) -> Type:
        """The type of a type's tree, which isn't kept."""
        if isinstance(node, (c_ast.TypeDecl, c_ast.Typename)):
            return self.type(node.type, scope, hint)
        if isinstance(node, c_ast.IdentifierType):
            return self.named(node, scope)
        if isinstance(node, c_ast.PtrDecl):
            return self.pointer(node, scope, hint)
        if isinstance(node, c_ast.ArrayDecl):
            element = self.type(node.type, scope, hint)
            self.resolve(node.dim, scope)
            return Array(element, value_of(self.program, node.dim) if node.dim is not None else None)
        if isinstance(node, c_ast.FuncDecl):
            return self.function(node, scope, hint)
        if isinstance(node, c_ast.Struct):
            return self.struct(node, scope, hint)
        if isinstance(node, c_ast.Enum):
            return self.enum(node, scope)
        self.obstacles.tell("union" if isinstance(node, c_ast.Union) else "object", node)
        return types.INT

    def resolve(self, node: Any, scope: Scope) -> None:
        """Finds what the names of an expression mean."""
        if node is not None:
            self.program.resolve(node, scope, self)

    def named(self, node: Any, scope: Scope) -> Type:
        """The type that words such as `unsigned char`, or a typedef's name, stand for."""
        if len(node.names) == 1:
            if node.names[0] == "size_t":
                return types.SIZE
            if node.names[0] == "void":
                return types.VOID
            found = scope.find(node.names[0])
            if isinstance(found, (Number, types.Void, Array, Pointer, Struct, Function)):
                if node.names[0] in self.program.standard_types and isinstance(found, Number):
                    self.check_number(found, node, node.names[0])
                return Pointer(found.target) if isinstance(found, Pointer) else found
        words = sorted(word for word in node.names if word != "int")
        if "signed" in words and words != ["char", "signed"]:
            words.remove("signed")
        kind = NUMBERS.get(" ".join(words))
        if kind is None:
            self.obstacles.tell("object", node)
            return types.INT
        self.check_number(kind, node, " ".join(node.names))
        return kind

    def check_number(self, kind: Number, node: Any, name: str) -> None:
        """Tells of a type of numbers for which the language has none. Headers may name it."""
        if self.program.places.is_standard(node) or self.printed is not None and types.fits(self.printed, kind):
            return
        if kind is types.FLOATING:
            self.obstacles.tell("floating", node)
        elif kind is types.UNSIGNED_LONG:
            self.obstacles.tell("unsigned long", node, name)
        elif kind is types.LONG and not self.program.options.long_as_int:
            self.obstacles.tell("long", node, name)

    def pointer(self, node: Any, scope: Scope, hint: str) -> Type:
        """The type of a pointer."""
        target = self.type(node.type, scope, hint)
        if isinstance(target, Function) and not self.program.places.is_standard(node):
            self.obstacles.tell("function pointer", node)
            return types.INT
        return Pointer(target)

    def function(self, node: Any, scope: Scope, hint: str) -> Function:
        """The type of a function. An array as a parameter is a pointer to its elements (6.7.6.3p7)."""
        result = self.type(node.type, scope, hint)
        inner = Scope(scope)
        parameters: List[Tuple[str, Type]] = []
        is_variadic = False
        for parameter in node.args.params if node.args else ():
            if isinstance(parameter, c_ast.EllipsisParam):
                is_variadic = True
                continue
            if not hasattr(parameter, "type"):  # a name alone, whose type stands behind the brackets
                self.obstacles.tell("object", parameter)
                continue
            kind = self.type(parameter.type, inner, parameter.name or "")
            if isinstance(kind, Array):
                kind = Pointer(kind.element)
            if isinstance(kind, Function):  # which is a pointer to it (6.7.6.3p8)
                self.obstacles.tell("function pointer", parameter)
                kind = types.INT
            if not isinstance(kind, types.Void):
                parameters.append((parameter.name or "", kind))
        return Function(result, tuple(parameters), is_variadic, node.args is None, isinstance(node.args, OldParameters))

    def struct(self, node: Any, scope: Scope, hint: str) -> Struct:
        """The struct of a tag, or a new one."""
        found = scope.find_tag(node.name) if node.name else None
        if node.decls is None:
            if found is None:
                found = scope.tags[node.name] = Struct(node.name)
            return found
        if not isinstance(found, Struct) or found.members is not None:
            found = Struct(node.name or hint)
        if node.name:
            scope.tags[node.name] = found
        members = [self.member(decl, scope, node.name or hint) for decl in node.decls]
        found.members = [member for member in members if member is not None]
        self.program.take_struct(found, self.stem)
        return found

    def member(self, node: Any, scope: Scope, hint: str) -> Optional[Member]:
        """A member of a struct."""
        if not isinstance(node, c_ast.Decl) or node.name is None:
            self.obstacles.tell("object", node)
            return None
        if node.bitsize is not None:
            self.obstacles.tell("bit-field", node)
        kind = self.type(node.type, scope, f"{hint}_{node.name}")
        if isinstance(kind, Array) and not kind.length:
            self.obstacles.tell("object", node)
        return Member(node.name, kind)

    def enum(self, node: Any, scope: Scope) -> Number:
        """The type of an enum: that of gcc, which has a sign where a constant is below 0."""
        if node.values is None:
            return scope.find_tag(node.name) or types.UNSIGNED
        value = -1
        constants = []
        for enumerator in node.values.enumerators:
            self.resolve(enumerator.value, scope)
            found = value_of(self.program, enumerator.value) if enumerator.value is not None else value + 1
            value = found if found is not None else 0
            scope.names[enumerator.name] = constant = Constant(enumerator.name, value)
            constants.append(constant)
        kind = types.INT if any(constant.value < 0 for constant in constants) else types.UNSIGNED
        if node.name:
            scope.tags[node.name] = kind
        self.program.take_enum(constants, scope.outer is None)
        return kind

    def typedef(self, node: Any, scope: Scope) -> None:
        """Takes the name of a type."""
        if self.program.places.is_standard(node):
            self.program.standard_types.add(node.name)
        scope.names[node.name] = self.type(node.type, scope, node.name)

    def symbol(self, node: Any, scope: Scope, **more: Any) -> Symbol:
        """A new symbol of a declaration, in scope from now on."""
        kind = self.type(node.type, scope, node.name)
        found = scope.names[node.name] = Symbol(node.name, kind, node=node, unit=node.name, **more)
        self.program.symbols[id(node)] = found
        return found
