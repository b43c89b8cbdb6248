"""What an expression, and each function that it calls, reads and writes."""
from __future__ import annotations

from dataclasses import dataclass, field
from typing import Any, FrozenSet, Iterable, List, Set

from pycparser import c_ast

from .constants import type_of
from .symbols import Procedure, Symbol
from .types import Array, Function, Number, Pointer, Struct, holds, innermost

OFFSET = "offset"
INPUT, OUTPUT = "stdin", "stdout"
READERS = {"getchar", "getc", "fgetc", "fgets", "scanf"}
WRITERS = {"putchar", "putc", "fputc", "puts", "fputs", "printf", "fprintf"}
FILLERS = {"strcpy", "strncpy", "strcat", "strncat", "memset", "memcpy", "memmove", "fgets", "sprintf",
           "snprintf"}
# What gives a pointer into its first argument.
GIVES_FIRST = {"strchr", "strrchr", "strstr", "strpbrk", "memchr", "strcpy", "strncpy", "strcat", "strncat", "memset",
               "memcpy", "memmove"}
STEPS = {"++", "--", "p++", "p--"}


@dataclass
class Found:
    """The objects that an expression reads and writes; those of its calls also apart."""

    reads: Set[Any] = field(default_factory=set)
    writes: Set[Any] = field(default_factory=set)
    call_reads: Set[Any] = field(default_factory=set)
    call_writes: Set[Any] = field(default_factory=set)


def roots(program: Any, node: Any, through: FrozenSet[Symbol] = frozenset()) -> Set[Any]:
    """The objects of which a place may be a part, or into which a pointer may point: an array, or a parameter."""
    while not isinstance(node, c_ast.ID):
        if isinstance(node, (c_ast.ArrayRef, c_ast.StructRef)):
            node = node.name
        elif isinstance(node, (c_ast.UnaryOp, c_ast.Cast)):
            node = node.expr
        elif isinstance(node, c_ast.BinaryOp):
            node = node.left
        elif isinstance(node, c_ast.Assignment):
            node = node.lvalue
        elif isinstance(node, c_ast.TernaryOp):
            return roots(program, node.iftrue, through) | roots(program, node.iffalse, through)
        elif isinstance(node, c_ast.FuncCall) and node.args and getattr(node.name, "name", "") in GIVES_FIRST:
            node = node.args.exprs[0]
        else:
            return set()
    symbol = program.symbols.get(id(node))
    if not isinstance(symbol, Symbol):
        return set()
    origins = program.pointed.get(id(symbol), [])
    if symbol.is_parameter or not isinstance(symbol.type, Pointer) or symbol in through:
        return {symbol}
    found = {root for origin in origins for root in roots(program, origin, through | {symbol})}
    return found - {symbol} or {symbol}


class Effects:
    """What the functions of a program do, found by going over them until nothing is added."""

    def __init__(self, program: Any) -> None:
        self.program = program
        self.is_new = True
        while self.is_new:
            self.is_new = False
            for procedure in program.procedures:
                self.take(procedure)

    def take(self, procedure: Procedure) -> None:
        """Adds what a function's body does to what others see."""
        found = self.of(procedure.node.body)
        for mine, seen in ((procedure.reads, found.reads), (procedure.writes, found.writes)):
            new = {symbol for symbol in seen if self.is_seen(symbol)} - mine
            mine |= new
            self.is_new = self.is_new or bool(new)

    @staticmethod
    def is_seen(symbol: Any) -> bool:
        """Whether whoever calls a function sees what it does to this."""
        if isinstance(symbol, tuple):
            return symbol[1].is_global
        return not isinstance(symbol, Symbol) or symbol.is_global or isinstance(symbol.type, Pointer)

    def of(self, node: Any) -> Found:
        """What a statement or an expression does."""
        found = Found()
        self.visit(node, found)
        return found

    def visit(self, node: Any, found: Found) -> None:
        """Adds what evaluating a node does. The value of an array is its address, which reads no element."""
        if isinstance(node, c_ast.ID):
            self.visit_name(node, found)
        elif isinstance(node, c_ast.Assignment):
            self.visit_write(node.lvalue, found, node.op != "=")
            self.visit(node.rvalue, found)
        elif isinstance(node, c_ast.UnaryOp) and node.op in STEPS:
            self.visit_write(node.expr, found, True)
        elif isinstance(node, c_ast.UnaryOp) and node.op == "&":
            self.visit_place(node.expr, found)
        elif isinstance(node, c_ast.FuncCall):
            self.visit_call(node, found)
        elif isinstance(node, (c_ast.ArrayRef, c_ast.StructRef)) or isinstance(node, c_ast.UnaryOp) and node.op == "*":
            if not isinstance(type_of(self.program, node), Array):
                found.reads |= roots(self.program, node)
            self.visit_place(node, found)
        elif not (isinstance(node, c_ast.Typename) or isinstance(node, c_ast.UnaryOp) and node.op == "sizeof"):
            for _, child in node.children():
                self.visit(child, found)

    def visit_name(self, node: Any, found: Found) -> None:
        """Adds what evaluating a name reads: an object, or where a pointer points."""
        symbol = self.program.symbols.get(id(node))
        if isinstance(symbol, Symbol) and not isinstance(symbol.type, (Function, Array)):
            found.reads.add((OFFSET, symbol) if isinstance(symbol.type, Pointer) else symbol)

    def visit_write(self, node: Any, found: Found, is_read: bool) -> None:
        """Adds that a place is written; of a pointer that is moved, that it is, and not into what it points."""
        targets = roots(self.program, node)
        if isinstance(node, c_ast.ID) and isinstance(type_of(self.program, node), Pointer):
            targets = {(OFFSET, self.program.symbols.get(id(node)))}
        found.writes |= targets
        if is_read:
            found.reads |= targets
        self.visit_place(node, found)

    def visit_place(self, node: Any, found: Found) -> None:
        """Adds what finding a place reads: its indices, and the pointers on the way."""
        if isinstance(node, c_ast.ID):
            if isinstance(getattr(self.program.symbols.get(id(node)), "type", None), Pointer):
                self.visit_name(node, found)
        elif isinstance(node, c_ast.ArrayRef):
            self.visit_place(node.name, found)
            self.visit(node.subscript, found)
        elif isinstance(node, c_ast.StructRef):
            self.visit_place(node.name, found)
        elif isinstance(node, c_ast.UnaryOp) and node.op == "*":
            self.visit_place(node.expr, found)
        else:
            self.visit(node, found)

    def visit_call(self, node: Any, found: Found) -> None:
        """Adds what the arguments and the called function do."""
        arguments = node.args.exprs if node.args else []
        for argument in arguments:
            self.visit(argument, found)
        calls = Found()
        procedure = self.program.procedure_of(node.name)
        name = getattr(node.name, "name", "")
        if procedure is not None and procedure.node is not None:
            calls.reads = self.mapped(procedure, procedure.reads, arguments)
            calls.writes = self.mapped(procedure, procedure.writes, arguments)
        else:
            self.visit_standard(name, arguments, calls)
        found.call_reads |= calls.reads
        found.call_writes |= calls.writes
        found.reads |= calls.reads
        found.writes |= calls.writes

    def visit_standard(self, name: str, arguments: List[Any], calls: Found) -> None:
        """Adds what a function of the C library does."""
        if name in READERS:
            calls.reads.add(INPUT)
            calls.writes.add(INPUT)
        if name in WRITERS:
            calls.writes.add(OUTPUT)
        targets = arguments[1:] if name == "scanf" else arguments[:1] if name in FILLERS else ()
        for target in targets:
            calls.writes |= roots(self.program, target)
        for argument in arguments:
            if not isinstance(type_of(self.program, argument), Number):
                calls.reads |= roots(self.program, argument)

    def mapped(self, procedure: Procedure, symbols: Iterable[Any], arguments: List[Any]) -> Set[Any]:
        """What a function does, with the objects that its pointers point into in place of its parameters."""
        found = set()
        for symbol in symbols:
            if isinstance(symbol, Symbol) and symbol.is_parameter:
                if symbol in procedure.parameters and procedure.parameters.index(symbol) < len(arguments):
                    found |= roots(self.program, arguments[procedure.parameters.index(symbol)])
            elif not isinstance(symbol, Symbol) or symbol.is_global:
                found.add(symbol)
        return found

    def check_order(self, node: Any) -> None:
        """Tells where a call and what stands beside it depend on their order, which C leaves open."""
        if isinstance(node, c_ast.Typename) or isinstance(node, c_ast.UnaryOp) and node.op == "sizeof":
            return
        parts = [self.of(child) for child in unordered(node)]
        if any(clash(left, right) for k, left in enumerate(parts) for right in parts[k + 1:]):
            self.program.obstacles.tell("order", node)
        for _, child in node.children():
            self.check_order(child)

    def may_change(self, procedure: Procedure, parameter: Symbol) -> bool:
        """Whether the argument of a struct parameter may change while the function runs, so that it needs a copy."""
        written = self.of(procedure.node.body).writes
        return any(other is parameter or self.may_be(other, parameter) for other in written)

    @staticmethod
    def may_be(other: Any, parameter: Symbol) -> bool:
        """Whether writing an object may write the struct to which a parameter refers."""
        if not isinstance(other, Symbol) or not (other.is_global or isinstance(other.type, Pointer)):
            return False
        kind = other.type.target if isinstance(other.type, Pointer) else other.type
        return holds(kind, parameter.type) or isinstance(other.type, Pointer) and holds(parameter.type, kind)


def unordered(node: Any) -> List[Any]:
    """The parts of an expression that C evaluates in any order."""
    if isinstance(node, c_ast.BinaryOp) and node.op not in ("&&", "||"):
        return [node.left, node.right]
    if isinstance(node, c_ast.Assignment):
        return [*(indices(node.lvalue) if node.op == "=" else [node.lvalue]), node.rvalue]
    if isinstance(node, c_ast.ArrayRef):
        return [node.name, node.subscript]
    if isinstance(node, c_ast.FuncCall):
        return list(node.args.exprs) if node.args else []
    return [] if not isinstance(node, c_ast.InitList) else list(node.exprs)


def indices(node: Any) -> List[Any]:
    """The expressions that say which part of an object a place is."""
    found = []
    while isinstance(node, (c_ast.ArrayRef, c_ast.StructRef, c_ast.UnaryOp)):
        if isinstance(node, c_ast.ArrayRef):
            found.append(node.subscript)
        node = node.expr if isinstance(node, c_ast.UnaryOp) else node.name
    return found


def clash(left: Found, right: Found) -> bool:
    """Whether the order of two parts shows, because of a call in one of them."""
    return (
        meet(left.call_writes, right.reads | right.writes) or meet(right.call_writes, left.reads | left.writes)
        or meet(left.call_reads, right.writes) or meet(right.call_reads, left.writes)
    )


def meet(written: Set[Any], touched: Set[Any]) -> bool:
    """Whether something written may be something touched: the same object, or one behind a pointer."""
    return any(one is other or one == other or points_to(one, other) or points_to(other, one)
               for one in written for other in touched)


def points_to(pointer: Any, other: Any) -> bool:
    """Whether a pointer may point into an object, or to where another pointer does."""
    if not isinstance(pointer, Symbol) or not isinstance(pointer.type, Pointer) or pointer is other:
        return False
    if not isinstance(other, Symbol):
        return False
    if not isinstance(other.type, Pointer) and not (other.is_global or other.is_addressed):
        return False
    kind = other.type.target if isinstance(other.type, Pointer) else other.type
    return holds(kind, innermost(pointer.type.target)) or isinstance(pointer.type.target, Struct) and holds(
        pointer.type.target, innermost(kind))
