"""Statements of C as those of the unit."""
from __future__ import annotations

import hashlib
import re
from contextlib import nullcontext
from dataclasses import replace
from typing import Any, Dict, List, Optional, Sequence, Tuple

from pycparser import c_ast

from . import types
from .constants import element_of, type_of
from .effects import STEPS
from .initialisers import is_null, length_of
from .lower_places import is_pointer
from .output import Line
from .symbols import Symbol
from .types import Array, Number, Pointer, Struct
from .values import ASSIGNED, PRIMARY, Reference, Value, ZERO, as_boolean, is_pure, negated, operation

HOLDS = "holds_?"  # an object that has no name yet
DECLARING = re.compile(r"(?:int|unsigned|char|struct) ")
VARIABLE_INDEX = re.compile(r"\[(?!\d+u?\])")
SIMPLE_LINE = re.compile(r"[^{}]*;")


class Loop:
    """A loop that is being written: what a `continue` has to do before."""

    def __init__(self, last: Optional[List[Line]] = None, is_checked: bool = False) -> None:
        self.last = last or []
        self.is_checked = is_checked  # whether a `continue` would pass by the test


class StatementLowering:
    """The part of a `Body` that writes statements."""

    def statement(self, node: Any) -> None:
        """Writes a statement."""
        outer = self.output.place
        self.output.place = self.program.places.place(node)
        handler = getattr(self, f"write_{type(node).__name__.lower()}", None)
        if handler is not None:
            handler(node)
        else:
            self.check_order(node)
            self.evaluate(node)
        self.output.place = outer

    def statements(self, node: Any) -> None:
        """Writes the lines of a block, or a statement alone, without braces."""
        if node is None:
            return
        for item in (node.block_items or ()) if isinstance(node, c_ast.Compound) else (node,):
            self.statement(item)

    def check_order(self, node: Any) -> None:
        """Tells of what depends on an order that C leaves open."""
        if node is not None:
            self.effects.check_order(node)

    def write_compound(self, node: Any) -> None:
        """A block."""
        self.output.mark("{")
        with self.output.indented():
            self.statements(node)
        self.output.mark("}")

    def write_emptystatement(self, _: Any) -> None:
        """Nothing."""

    def write_pragma(self, _: Any) -> None:
        """Nothing."""

    write_typedef = write_staticassert = write_pragma

    def write_decl(self, node: Any) -> None:
        """A declaration within a function."""
        symbol = self.program.symbols.get(id(node))
        if not isinstance(symbol, Symbol) or symbol.is_global or node.name is None:
            return
        self.check_order(node.init)
        self.declare(symbol, node)

    def declare(self, symbol: Symbol, node: Any) -> None:
        """Declares a local object."""
        kind = symbol.type
        if isinstance(kind, Pointer):
            self.declare_pointer(symbol, node)
        elif isinstance(kind, Number) and not symbol.is_addressed:
            if node.init is None:
                self.output.put(f"{kind.unit} {symbol.unit};")
                return
            value = self.stored_value(self.initialisers.read(kind, node.init), kind)
            self.output.put(f"{kind.unit} {symbol.unit} = {value.text};")
        else:
            self.declare_object(symbol.unit, kind, node.init, node, symbol.is_copied)

    def declare_object(self, name: str, kind: Any, init: Any, node: Any, is_copied: bool = False) -> None:
        """Declares a local array or struct, or a number as an array of one.

        What may be copied before all of it was written begins with 0: a read of what wasn't written traps.
        """
        if isinstance(kind, Struct) and init is not None and not isinstance(init, c_ast.InitList):
            found = self.source(init)
            self.output.put(f"{self.unit.declared(name, kind)};")
            self.copy(kind, Reference(name, None, kind), found)
            return
        tree = self.initialisers.read(kind, init) if init is not None else None
        if isinstance(kind, Array) and kind.length is None:
            if tree is None:
                self.tell("length", node)
            kind.length = length_of(tree) if tree is not None else 1
        text = self.unit.declared(name, kind, is_object=isinstance(kind, Number))
        if tree is not None:
            self.output.put(f"{text} = {self.unit.whole(self, kind, tree, isinstance(kind, Number))};")
        elif isinstance(kind, Struct):
            self.output.put(f"{text} = {{{self.unit.zero(kind)}}};")
        elif is_copied or isinstance(types.innermost(kind), Struct):
            self.output.put(f"{text} = {self.unit.zero(kind)};")
        else:
            self.output.put(f"{text};")

    def declare_pointer(self, symbol: Symbol, node: Any) -> None:
        """A pointer that points into one array all its life is that array, and an offset."""
        assigned = self.program.pointed.get(id(symbol), [])
        origins = [origin for origin in assigned if not is_null(origin) and not self.names(origin, symbol)]
        if not origins:
            self.tell_pointer(symbol, node)
            self.look_at(assigned)
            return
        is_single = len(assigned) == 1 and node.init is not None
        with self.output.apart() as lines:
            found = self.reference(origins[0])
            found = self.fixed(found) if is_single else found
        if found.is_flat or not is_single and VARIABLE_INDEX.search(found.base):
            self.tell_pointer(symbol, node)
            return
        self.output.add(lines if is_single else [])
        name = self.offset_name(symbol)
        has_offset = symbol.moves or found.offset is not None
        offset = Value(name, PRIMARY, types.INT) if has_offset else None
        symbol.base = Reference(found.base, offset, element_of(symbol.type), text=found.text)
        if has_offset:
            start = "" if node.init is None else f" = {self.start_of(node, found, is_single)}"
            self.output.put(f"int {name}{start};")

    def tell_pointer(self, symbol: Symbol, node: Any) -> None:
        """Tells of the declaration of a pointer that isn't an array and an index."""
        self.tell("pointer", node)
        symbol.is_told = True

    def names(self, node: Any, symbol: Symbol) -> bool:
        """Whether the value of an expression depends on an object."""
        if isinstance(node, c_ast.UnaryOp) and node.op == "sizeof":
            return False
        return self.symbol(node) is symbol or any(self.names(child, symbol) for _, child in node.children())

    def start_of(self, node: Any, found: Reference, is_single: bool) -> str:
        """The offset at which a pointer begins."""
        own = found if is_single else self.reference(node.init)
        if own.base != found.base and not is_null(node.init):
            self.tell("pointer", node)
        return (own.offset or ZERO).text

    def fixed(self, reference: Reference) -> Reference:
        """A reference whose indices no longer change: each that isn't constant gets an object of its own."""
        base = reference.base
        at = 0
        while True:
            match = re.compile(r"\[((?:[^\[\]]|\[[^\[\]]*\])*)\]").search(base, at)
            if match is None:
                return replace(reference, base=base)
            text = match.group(1)
            if not text.rstrip("u").isdigit():
                name = self.temporary("index")
                self.output.put(f"int {name} = {text};")
                base = f"{base[:match.start()]}[{name}]{base[match.end():]}"
                at = match.start() + len(name) + 2
            else:
                at = match.end()

    # ---- expressions as statements

    def evaluate(self, node: Any) -> None:
        """Writes what an expression does; its value isn't used."""
        if isinstance(node, c_ast.FuncCall):
            self.call_statement(node)
        elif isinstance(node, c_ast.Assignment):
            self.assign(node, node.op, node.lvalue, node.rvalue)
        elif isinstance(node, c_ast.ExprList):
            for part in node.exprs:
                self.evaluate(part)
        elif isinstance(node, c_ast.Cast):
            self.evaluate(node.expr)
        elif isinstance(node, c_ast.TernaryOp):
            self.choose(self.truth(node.cond), node.iftrue, node.iffalse, self.evaluate)
        elif isinstance(node, c_ast.BinaryOp) and node.op in ("&&", "||"):
            test = self.truth(node.left)
            self.choose(test if node.op == "&&" else negated(test), node.right, None, self.evaluate)
        elif isinstance(node, c_ast.UnaryOp) and node.op in STEPS:
            self.output.put(f"{self.step_text(node)};")
        elif self.does_something(node):
            self.output.put(f"{self.value(node).text};")
        else:
            self.look_at([node])

    def look_at(self, nodes: Sequence[Any]) -> None:
        """Finds the obstacles in expressions that aren't wanted, and writes nothing."""
        with self.output.apart():
            for node in nodes:
                if isinstance(type_of(self.program, node), Number):
                    self.value(node)
                elif not is_null(node):
                    self.reference(node)

    def does_something(self, node: Any) -> bool:
        """Whether evaluating an expression does more than give a value."""
        if isinstance(node, c_ast.FuncCall):
            return True
        return bool(self.effects.of(node).writes) or any(self.does_something(child) for _, child in node.children())

    def is_constant(self, node: Any) -> bool:
        """Whether an expression has one value, whenever it is evaluated: it reads no object and does nothing."""
        return not self.effects.of(node).reads and not self.does_something(node)

    def step_text(self, node: Any) -> str:
        """`++` or `--` of a number, or of a pointer's offset."""
        if is_pointer(type_of(self.program, node.expr)):
            found = self.refer_unaryop(node)
            return "0" if found is None or found.offset is None else found.offset.text
        part = self.place(node.expr)
        if isinstance(part.type, Number) and types.is_narrow(part.type):
            return self.narrow_step(node, part, False).text
        return self.step(node).bare().text

    def assign(self, node: Any, operator: str, left: Any, right: Any) -> None:
        """Writes an assignment of a number, a struct or a pointer."""
        kind = type_of(self.program, left)
        if self.program.unread.explains("struct", left, ""):
            self.look_at([left, right])
        elif isinstance(kind, Struct):
            self.assign_struct(kind, left, right)
        elif isinstance(kind, Pointer) and not kind.text:
            self.assign_pointer(node, operator, left, right)
        elif not isinstance(kind, Number):
            self.tell("pointer", node)
        elif isinstance(right, c_ast.TernaryOp) and not self.is_plain(right):
            self.choose(self.truth(right.cond), right.iftrue, right.iffalse,
                        lambda chosen: self.assign(node, operator, left, chosen))
        elif isinstance(right, c_ast.Assignment) and not isinstance(type_of(self.program, right), Number):
            self.tell("struct", node)
        else:
            value = self.value(right)
            self.output.put(f"{self.assigned(node, self.place(left), operator, value).text};")

    def assign_struct(self, kind: Struct, left: Any, right: Any) -> None:
        """Writes the copy of a struct."""
        if isinstance(right, c_ast.TernaryOp):
            self.choose(self.truth(right.cond), right.iftrue, right.iffalse,
                        lambda chosen: self.assign_struct(kind, left, chosen))
            return
        found = self.source(right) if self.is_plain(left) else self.reference(right)
        self.copy(kind, self.reference(left), found)

    def assign_pointer(self, node: Any, operator: str, left: Any, right: Any) -> None:
        """Moves a pointer within its array."""
        mine = self.reference(left)
        if getattr(self.symbol(left), "is_told", False):
            self.look_at([right])
        elif mine.offset is None:
            self.tell("pointer", node)
        elif operator == "=":
            other = self.reference(right)
            if other.base != mine.base and not is_null(right):
                self.tell("pointer", node)
            self.output.put(f"{mine.offset.text} = {(other.offset or ZERO).at(ASSIGNED)};")
        else:
            self.output.put(f"{mine.offset.text} {operator} {self.value(right).at(ASSIGNED)};")

    # ---- choices

    def choose(self, test: Value, yes: Any, no: Any, write: Any) -> None:
        """Writes one of two by a test; `write` writes each, and None stands for nothing."""
        branches: List[List[Line]] = []
        for chosen in (yes, no):
            with self.output.apart() as lines, self.output.indented():
                if chosen is not None:
                    write(chosen)
            branches.append(lines)
        self.put_choice(test, *branches)

    def put_choice(self, test: Value, yes: List[Line], no: List[Line]) -> None:
        """Writes an `if` of lines that were written apart, one deeper."""
        if not yes and not no:
            if not is_pure(test.text):
                self.output.put(f"{test.text};")
            return
        if not yes:
            test, yes, no = negated(test), no, yes
        self.output.put(f"if ({test.text}) {{")
        self.output.add(yes)
        if no:
            self.output.mark("} else {")
            self.output.add(no)
        self.output.mark("}")

    def write_if(self, node: Any) -> None:
        """An `if`; `&&` with a call behind it becomes an `if` within, where nothing stands behind `else`."""
        self.check_order(node.cond)
        tests = self.conjuncts(node.cond) if node.iffalse is None else [node.cond]
        depth = 0
        while tests:
            test = self.joined_test(tests)
            self.output.put(f"if ({test.text}) {{")
            self.output.depth += 1
            depth += 1
        self.statements(node.iftrue)
        self.output.depth -= 1
        if node.iffalse is not None:
            self.write_else(node.iffalse)
        self.output.mark("}")
        for _ in range(depth - 1):
            self.output.depth -= 1
            self.output.mark("}")

    def write_else(self, node: Any) -> None:
        """What stands behind `else`, an `else if` where it is an `if` with nothing before it."""
        with self.output.apart() as lines, self.output.indented():
            self.statements(node)
        if isinstance(node, c_ast.If) and lines and lines[0].text.startswith("if ("):
            body = [Line(line.depth - 1, line.text, line.place) for line in lines]
            if self.is_one_statement(body):
                self.output.lines.append(Line(body[0].depth, "} else " + body[0].text))
                self.output.add(body[1:-1])
                return
        self.output.mark("} else {")
        self.output.add(lines)

    @staticmethod
    def is_one_statement(lines: List[Line]) -> bool:
        """Whether the first line opens what the last one closes."""
        depth = lines[0].depth
        ends = [k for k, line in enumerate(lines) if line.depth == depth and line.text == "}"]
        return ends[:1] == [len(lines) - 1]

    def conjuncts(self, node: Any) -> List[Any]:
        """The operands of a chain of `&&`."""
        if isinstance(node, c_ast.BinaryOp) and node.op == "&&":
            return [*self.conjuncts(node.left), *self.conjuncts(node.right)]
        return [node]

    def joined_test(self, tests: List[Any]) -> Value:
        """The first test of a chain and those behind it that make no calls; they are taken from the chain."""
        test = self.truth(tests.pop(0))
        while tests and self.is_plain(tests[0]):
            test = operation("&&", test, self.truth(tests.pop(0)), types.INT)
        return test

    def write_switch(self, node: Any) -> None:
        """A `switch`."""
        self.check_order(node.cond)
        value = self.value(node.cond)
        self.output.put(f"switch ({value.text}) {{")
        deep: Dict[str, str] = {}
        self.switches.append(deep)
        items = node.stmt.block_items or () if isinstance(node.stmt, c_ast.Compound) else (node.stmt,)
        for item in items:
            self.switch_line(item)
        if deep:
            with self.output.indented():
                self.output.mark("break;")
            for label, name in deep.items():
                self.output.mark(label)
                with self.output.indented():
                    self.output.put(f"goto {name};")
        self.switches.pop()
        self.output.mark("}")

    def switch_line(self, item: Any) -> None:
        """A line of a `switch`: a case with what stands behind it, or a statement."""
        if isinstance(item, (c_ast.Case, c_ast.Default)):
            self.output.mark(self.case_label(item))
            for inner in item.stmts or ():
                self.switch_line(inner)
        else:
            with self.output.indented():
                self.statement(item)

    def case_label(self, node: Any) -> str:
        """The label of a case."""
        return f"case {self.value(node.expr).text}:" if isinstance(node, c_ast.Case) else "default:"

    def write_case(self, node: Any) -> None:
        """A case that stands deeper than in its `switch`: a label, to which a case of the `switch` leads."""
        name = self.temporary("case")
        self.switches[-1][self.case_label(node)] = name
        self.output.put(f"{name}: ;")
        for inner in node.stmts or ():
            self.statement(inner)

    write_default = write_case

    # ---- loops

    def write_while(self, node: Any) -> None:
        """A `while` loop."""
        self.check_order(node.cond)
        self.loop("while (", ")", node, Loop())

    def loop(self, before: str, behind: str, node: Any, loop: Loop) -> None:
        """A loop with its test before its body; a test that is no single expression stands at the body's beginning."""
        test = self.single_test(node.cond)
        if test is not None:
            with self.output.block(f"{before}{test}{behind} {{"):
                self.loop_body(node.stmt, loop)
            return
        name, lines = self.split_test(node.cond)
        self.output.put(f"int {name} = 1;")
        with self.output.block(f"{before}{name}{behind} {{"):
            self.output.add(lines)
            with self.output.block(f"if (!{name}) {{"):
                self.output.put("break;")
            self.loop_body(node.stmt, loop)

    def single_test(self, node: Any) -> Optional[str]:
        """The text of a test that is a single expression, "" where there is none; None of another."""
        if node is None:
            return ""
        counts = dict(self.counts)
        tests = self.conjuncts(node)
        with self.output.apart() as lines:
            test = self.joined_test(tests)
        if not lines and not tests:
            return test.text
        self.counts = counts
        return None

    def split_test(self, node: Any) -> Tuple[str, List[Line]]:
        """An object that gets the value of a test, and the lines that evaluate it, one deeper.

        Its name is that of the whole test, so that the heads of two loops are the same statement only where their tests
        are: a walk would pair loops otherwise that have nothing but the beginning of their tests in common.
        """
        tests = self.conjuncts(node)
        with self.output.apart() as lines, self.output.indented():
            self.output.put(f"{HOLDS} = {as_boolean(self.joined_test(tests)).text};")
            while tests:
                with self.output.block(f"if ({HOLDS}) {{"):
                    self.output.put(f"{HOLDS} = {as_boolean(self.joined_test(tests)).text};")
        content = "".join(f"{line.text}\n" for line in lines)
        name = self.content_name(f"holds_{hashlib.sha256(content.encode()).hexdigest()[:6]}")
        return name, [Line(line.depth, line.text.replace(HOLDS, name), line.place) for line in lines]

    def loop_body(self, body: Any, loop: Loop) -> None:
        """The body of a loop, and what is done at its end."""
        self.loops.append(loop)
        self.statements(body)
        self.loops.pop()
        is_block = any(DECLARING.match(line.text) for line in loop.last)
        with self.output.block("{") if is_block else nullcontext():
            self.output.add(loop.last, int(is_block))

    def write_for(self, node: Any) -> None:
        """A `for` loop; what of its first and third part is no single expression stands before it and in its body."""
        self.check_order(node.next)
        self.check_order(node.cond)
        with self.output.apart() as first:
            for part in node.init.decls if isinstance(node.init, c_ast.DeclList) else (node.init,):
                if part is not None:
                    self.statement(part)
        is_block = isinstance(node.init, c_ast.DeclList) and not (
            len(first) == 1 and SIMPLE_LINE.fullmatch(first[0].text))
        if is_block:
            self.output.mark("{")
            self.output.depth += 1
            first = [Line(line.depth + 1, line.text, line.place) for line in first]
        start = first.pop().text if first and SIMPLE_LINE.fullmatch(first[-1].text) else ";"
        self.output.add(first)
        last = self.third_part(node)
        step = last.pop().text[:-1] if len(last) == 1 and SIMPLE_LINE.fullmatch(last[0].text) else ""
        self.loop(f"for ({start} ", f"; {step})" if step else ";)", node, Loop(last))
        if is_block:
            self.output.depth -= 1
            self.output.mark("}")

    def third_part(self, node: Any) -> List[Line]:
        """What a `for` does at the end of each round, as lines of its body."""
        with self.output.apart() as lines, self.output.indented():
            if node.next is not None:
                self.evaluate(node.next)
        return lines

    def write_dowhile(self, node: Any) -> None:
        """A `do` loop; one whose test is no single expression evaluates it at the end of its body."""
        self.check_order(node.cond)
        test = self.single_test(node.cond)
        if test is not None:
            with self.output.block("do {", f"}} while ({test});"):
                self.loop_body(node.stmt, Loop())
            return
        name, lines = self.split_test(node.cond)
        self.output.put(f"int {name} = 1;")
        with self.output.block(f"while ({name}) {{"):
            self.loop_body(node.stmt, Loop(is_checked=True))
            self.output.add(lines)

    def write_break(self, _: Any) -> None:
        """A `break`."""
        self.output.put("break;")

    def write_continue(self, node: Any) -> None:
        """A `continue`, after what its loop does at the end of each round."""
        loop = self.loops[-1] if self.loops else Loop()
        if loop.is_checked:
            self.tell("continue", node)
        is_block = any(DECLARING.match(line.text) for line in loop.last)
        with self.output.block("{") if is_block else nullcontext():
            for line in loop.last:
                depth = self.output.depth + line.depth - loop.last[0].depth
                self.output.lines.append(Line(depth, line.text, line.place))
        self.output.put("continue;")

    # ---- jumps

    def write_goto(self, node: Any) -> None:
        """A `goto`."""
        self.output.put(f"goto {node.name};")

    def write_label(self, node: Any) -> None:
        """A labelled statement."""
        self.output.put(f"{node.name}: ;")
        self.statement(node.stmt)

    def write_return(self, node: Any) -> None:
        """A `return`."""
        self.check_order(node.expr)
        self.give_back(node.expr)

    def give_back(self, node: Any) -> None:
        """Writes the return of an expression."""
        kind = self.procedure.type.result
        if node is None:
            self.output.put("return;")
        elif isinstance(node, c_ast.TernaryOp) and (isinstance(kind, Struct) or not self.is_plain(node)):
            self.choose(self.truth(node.cond), node.iftrue, node.iffalse, self.give_back)
        elif isinstance(kind, Struct):
            found = self.source(node)
            result = self.unit.result(kind)
            if found.base != result:
                self.copy(kind, Reference(result, None, kind), found)
            self.output.put("return;")
        elif isinstance(kind, Number):
            self.output.put(f"return {self.stored_value(node, kind).text};")
        else:
            self.evaluate(node)
            self.output.put("return;")
