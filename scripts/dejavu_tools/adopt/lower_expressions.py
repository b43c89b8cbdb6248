"""Expressions of C as values of the unit, and what has to be done before them as statements of their own."""
from __future__ import annotations

from typing import Any, List

from pycparser import c_ast

from . import types
from .constants import size_of, type_of, value_of
from .effects import STEPS
from .initialisers import is_null
from .literals import MOST_INT, MOST_UNSIGNED, char_value, is_character, number_value, spelled_number
from .lower_places import is_pointer
from .types import Number, Pointer, Struct, is_narrow
from .values import (
    ASSIGNED, CHOSEN, PRIMARY, UNARY, ZERO, Part, Value, as_boolean, cast, masked, negated, number, operation, stored,
    unary,
)

PLAIN_CALLS = {"getchar", "putchar"}
COMPARISONS = {"<", ">", "<=", ">=", "==", "!="}
# What has the same low 8 bits whether its left operand has a sign or not.
SAME_LOW_BITS = {"+=", "-=", "*=", "&=", "|=", "^="}
UNSAFE_SIZES = {"*", "<<"}


class ExpressionLowering:
    """The part of a `Body` that makes values."""

    def value(self, node: Any) -> Value:
        """The value of an expression that is a number."""
        handler = getattr(self, f"value_{type(node).__name__.lower()}", None)
        if handler is None:
            self.tell("expression", node)
            return ZERO
        return handler(node)

    def value_constant(self, node: Any) -> Value:
        """A number or a character."""
        if is_character(node):
            value = char_value(node.value)
            plain = len(node.value) == 3 or node.value[1:-1] in ("\\n", "\\t", "\\r", "\\a", "\\b", "\\f", "\\v",
                                                                 "\\\\", "\\'", '\\"', "\\?", "\\0")
            return Value(node.value, PRIMARY, types.INT, value) if plain and value < 128 else number(value)
        if node.type == "string":
            self.tell("string", node)
            return ZERO
        value, kind = number_value(node.value) if "int" in node.type else (0, None)
        if kind is None:
            self.tell("floating", node)
            return ZERO
        if value > (MOST_UNSIGNED if kind is types.UNSIGNED else MOST_INT):
            self.tell("number", node, node.value)
        return Value(spelled_number(node.value), PRIMARY, kind, value, value in (0, 1))

    def value_id(self, node: Any) -> Value:
        """An object, or an enum constant."""
        constant = self.constant_of(node)
        if constant is None:
            return self.read(node, self.place(node))
        if constant.name in self.program.named_constants:
            return Value(constant.name, PRIMARY, types.INT, constant.value, constant.value in (0, 1))
        return number(constant.value)

    def value_arrayref(self, node: Any) -> Value:
        """An element."""
        return self.read(node, self.place(node))

    def value_structref(self, node: Any) -> Value:
        """A member."""
        return self.read(node, self.place(node))

    def read(self, node: Any, part: Part) -> Value:
        """The value that a place has."""
        if isinstance(part.type, Number):
            value = Value(part.text, PRIMARY, part.type, is_boolean=part.type.is_boolean)
            return masked(value) if part.type is types.UNSIGNED_CHAR else value
        self.tell("struct" if isinstance(part.type, Struct) else "pointer value", node)
        return ZERO

    def value_unaryop(self, node: Any) -> Value:
        """An operator before or behind an expression."""
        if node.op == "sizeof":
            return number(size_of(self.program, node), types.SIZE)
        if node.op == "*":
            return self.read(node, self.place(node))
        if node.op == "!":
            return negated(self.truth(node.expr))
        if node.op in STEPS:
            return self.step(node)
        if node.op == "&":
            self.tell("pointer value", node)
            return ZERO
        value = self.value(node.expr)
        kind = types.promoted(value.type)
        if kind is types.SIZE and node.op in "-~":
            self.tell("size", node, node.op)
        return unary(node.op, value, kind)

    def step(self, node: Any) -> Value:
        """`++` and `--`. An `int` that holds a narrower type is stored anew."""
        part = self.place(node.expr)
        kind = part.type
        if isinstance(kind, Pointer):
            self.tell("pointer", node)
            return ZERO
        if isinstance(kind, Number) and is_narrow(kind):
            return self.narrow_step(node, part)
        kind = kind if isinstance(kind, Number) else types.INT
        text = part.text + node.op[1:] if node.op.startswith("p") else node.op + part.text
        value = Value(text, UNARY, kind)
        return masked(value) if kind is types.UNSIGNED_CHAR else value

    def narrow_step(self, node: Any, part: Part, is_used: bool = True) -> Value:
        """A step of a `short` or a `_Bool`: the new value is stored; the old one, if it is used, calculated from it."""
        if not part.is_simple:
            self.tell("alias", node)
        sign = "-" if "--" in node.op else "+"
        old = Value(part.text, PRIMARY, part.type)
        new = stored(operation(sign, old, number(1), types.INT), part.type)
        done = Value(f"{part.text} = {new.text}", ASSIGNED, part.type)
        if not is_used or not node.op.startswith("p"):
            return done
        if part.type.is_boolean:
            self.tell("expression", node)
        back = operation("-" if sign == "+" else "+", done, number(1), types.INT)
        return stored(back, part.type)

    def value_binaryop(self, node: Any) -> Value:
        """An operator between two expressions."""
        if node.op in ("&&", "||"):
            return self.logical(node)
        left_type, right_type = type_of(self.program, node.left), type_of(self.program, node.right)
        if is_pointer(left_type) or is_pointer(right_type):
            return self.pointer_operation(node)
        left, right = self.value(node.left), self.value(node.right)
        if types.SIZE in (left.type, right.type) and value_of(self.program, node) is not None:
            return number(value_of(self.program, node), types.common(left.type, right.type))
        if node.op in ("==", "!=") and right.constant == 0 and left.is_boolean and left.constant is None:
            return left if node.op == "!=" else negated(left)
        if node.op in ("<<", ">>"):
            kind = types.promoted(left.type)
        else:
            kind = types.common(left.type, right.type)
            left, right = self.agreed(node, left, right, kind)
        self.check_size(node, left, right, kind)
        return operation(node.op, left, right, types.INT if node.op in COMPARISONS else kind)

    def agreed(self, node: Any, left: Value, right: Value, kind: Number) -> List[Value]:
        """The operands of an operation on a `long` and others: an `unsigned` would make it unsigned."""
        agreed = []
        for value in (left, right):
            if kind is types.LONG and types.promoted(value.type) is types.UNSIGNED:
                if value.constant is None or value.constant > MOST_INT:
                    self.tell("mixed", node)
                value = number(value.constant or 0)
            agreed.append(value)
        return agreed

    def check_size(self, node: Any, left: Value, right: Value, kind: Number) -> None:
        """Tells of what may differ between a `size_t` of 64 bits and one of 32."""
        if kind is not types.SIZE or left.constant is not None and right.constant is not None:
            return
        operator = node.op.rstrip("=") if node.op not in COMPARISONS else node.op
        is_shrinking = operator in ("/", "%", ">>") and " - " in left.text
        if operator in UNSAFE_SIZES or is_shrinking:
            self.tell("size", node, operator)

    def pointer_operation(self, node: Any) -> Value:
        """A comparison or a difference of two pointers into one array, or a comparison with NULL."""
        for one, other in ((node.left, node.right), (node.right, node.left)):
            if node.op in ("==", "!=") and is_null(other):
                found = self.pointer_truth(one)
                return found if node.op == "!=" else negated(found)
        if node.op in COMPARISONS or node.op == "-":
            left, right = self.reference(node.left), self.reference(node.right)
            if left.base == right.base:
                return operation(node.op, left.offset or ZERO, right.offset or ZERO, types.INT)
        self.tell("pointer value", node)
        return ZERO

    def logical(self, node: Any) -> Value:
        """`&&` and `||`. A call in a later operand is made in a statement of its own, where its turn comes."""
        left, right = node.left, node.right
        if self.is_plain(right):
            return operation(node.op, self.truth(left), self.truth(right), types.INT)
        value = self.truth(left)
        name = self.temporary("temp")
        self.output.put(f"int {name} = {as_boolean(value).text};")
        with self.output.block(f"if ({name if node.op == '&&' else '!' + name}) {{"):
            self.output.put(f"{name} = {as_boolean(self.truth(right)).text};")
        return Value(name, PRIMARY, types.INT, is_boolean=True)

    def value_ternaryop(self, node: Any) -> Value:
        """`?:`, by an `if` where it makes calls."""
        test = self.truth(node.cond)
        if self.is_plain(node.iftrue) and self.is_plain(node.iffalse):
            yes, no = self.value(node.iftrue), self.value(node.iffalse)
            kind = types.common(yes.type, no.type)
            yes, no = self.agreed(node, yes, no, kind)
            text = f"{test.at(CHOSEN + 1)} ? {yes.at(CHOSEN)} : {no.at(CHOSEN)}"
            return Value(text, CHOSEN, kind, is_boolean=yes.is_boolean and no.is_boolean)
        return self.chosen(node, test)

    def chosen(self, node: Any, test: Value) -> Value:
        """The value of a `?:` in an object, into which an `if` puts one or the other."""
        kind = type_of(self.program, node)
        kind = kind if isinstance(kind, Number) else types.INT
        name = self.temporary("temp")
        self.output.put(f"{kind.unit} {name};")
        with self.output.block(f"if ({test.text}) {{", "} else {"):
            self.output.put(f"{name} = {self.value(node.iftrue).text};")
        with self.output.indented():
            self.output.put(f"{name} = {self.value(node.iffalse).text};")
        self.output.mark("}")
        return Value(name, PRIMARY, kind)

    def value_exprlist(self, node: Any) -> Value:
        """The last of several expressions."""
        for part in node.exprs[:-1]:
            self.evaluate(part)
        return self.value(node.exprs[-1])

    def value_cast(self, node: Any) -> Value:
        """An expression as another type."""
        kind = type_of(self.program, node)
        if not isinstance(kind, Number):
            self.tell("pointer value", node)
            return ZERO
        if is_pointer(type_of(self.program, node.expr)):
            self.tell("pointer value", node)
            return ZERO
        return self.converted(node, self.value(node.expr), kind)

    def converted(self, node: Any, value: Value, kind: Number) -> Value:
        """A value as a value of another type."""
        if kind is types.LONG and types.promoted(value.type) is types.UNSIGNED:
            if value.constant is None or value.constant > MOST_INT:
                self.tell("mixed", node)
        if kind is types.UNSIGNED_CHAR:
            return value if value.type is kind else masked(value)
        if kind.unit == "char":
            return value if value.type.unit == "char" and value.raw is None else cast("char", value.bare(), kind)
        if is_narrow(kind):
            made = stored(value, kind)
            return Value(made.text, made.level, kind, made.constant, made.is_boolean)
        if (kind.unit == "unsigned") == (types.promoted(value.type).unit == "unsigned"):
            return Value(value.text, value.level, kind, value.constant, value.is_boolean, value.raw)
        return cast(kind.unit, value, kind)

    def value_assignment(self, node: Any) -> Value:
        """An assignment, whose value is what is stored."""
        target = type_of(self.program, node.lvalue)
        if not isinstance(target, Number):
            self.tell("pointer" if isinstance(target, Pointer) else "struct", node)
            return ZERO
        done = self.assigned(node, self.place(node.lvalue), node.op, self.value(node.rvalue))
        return masked(done) if target is types.UNSIGNED_CHAR else done

    def assigned(self, node: Any, part: Part, operator: str, value: Value) -> Value:
        """A number assigned to a place, by `=` or another assignment."""
        kind = part.type if isinstance(part.type, Number) else types.INT
        if operator != "=":
            is_kept = not is_narrow(kind) and (kind is not types.UNSIGNED_CHAR or operator in SAME_LOW_BITS)
            mixed = types.common(kind, value.type)
            value = self.agreed(node, number(0, kind), value, mixed)[1]
            self.check_size(node, Value(part.text, PRIMARY, kind), value, mixed)
            if is_kept:
                return Value(f"{part.text} {operator} {value.at(ASSIGNED)}", ASSIGNED, kind)
            if not part.is_simple:
                self.tell("alias", node)
            value = operation(operator[:-1], self.read(node, part), value, mixed)
        if kind is types.LONG:
            value = self.converted(node, value, kind)
        made = stored(value, kind)
        return Value(f"{part.text} = {made.at(ASSIGNED)}", ASSIGNED, kind, is_boolean=kind.is_boolean)

    def truth(self, node: Any) -> Value:
        """An expression as a test: 0 exactly where it is 0 or NULL."""
        if is_pointer(type_of(self.program, node)):
            return self.pointer_truth(node)
        return self.value(node).bare()

    def pointer_truth(self, node: Any) -> Value:
        """1 where a pointer isn't NULL."""
        if isinstance(node, c_ast.FuncCall):
            return self.found_or_not(node)
        kind, reference = type_of(self.program, node), self.reference(node)
        if isinstance(kind, types.Array):
            return number(1)
        tests = [] if reference.offset is None else [operation(">=", reference.offset, ZERO, types.INT)]
        if reference.text is not None:
            if reference.text.has_empty:
                self.tell("null", node)
            tests.append(operation("!=", Value(f"{reference.base}[0]", PRIMARY, types.CHAR), ZERO, types.INT))
        return operation("&&", *tests, types.INT) if len(tests) == 2 else tests[0] if tests else number(1)

    def is_plain(self, node: Any) -> bool:
        """Whether an expression makes no call of a function of the unit, and has nothing done before it."""
        if isinstance(node, c_ast.UnaryOp) and node.op == "sizeof":
            return True
        if isinstance(node, c_ast.FuncCall):
            if getattr(node.name, "name", "") not in PLAIN_CALLS:
                return False
            return all(self.is_plain(argument) for argument in (node.args.exprs if node.args else ()))
        if isinstance(node, (c_ast.ExprList, c_ast.CompoundLiteral)):
            return False
        if isinstance(node, c_ast.Assignment) and not isinstance(type_of(self.program, node), Number):
            return False
        return all(self.is_plain(child) for _, child in node.children())
