"""A function of the files as one of the unit."""
from __future__ import annotations

from typing import Any, Dict, List, Optional

from . import types
from .effects import Effects
from .endings import may_end
from .initialisers import Reader
from .lower_calls import CallLowering
from .lower_expressions import ExpressionLowering
from .lower_memory import MemoryLowering
from .lower_places import PlaceLowering
from .lower_printing import PrintLowering
from .lower_statements import Loop, StatementLowering
from .output import Output
from .symbols import Procedure, Symbol
from .types import Array, Number, Pointer, Struct
from .unit import Unit
from .values import PRIMARY, Reference, Value


class Body(
    PlaceLowering, ExpressionLowering, CallLowering, MemoryLowering, PrintLowering, StatementLowering,
):
    """Writes the body of one function, or, without a function, the initial values of file scope."""

    def __init__(self, program: Any, unit: Unit, effects: Effects, procedure: Optional[Procedure]) -> None:
        self.program = program
        self.unit = unit
        self.effects = effects
        self.procedure = procedure
        self.output = Output()
        self.initialisers = Reader(program)
        self.loops: List[Loop] = []
        self.switches: List[Dict[str, str]] = []
        self.counts: Dict[str, int] = {}
        self.kept_tests: Dict[int, Value] = {}  # of each `?:` between strings whose test was evaluated before
        self.decided: Dict[int, Any] = {}  # of each `?:` between arrays that is decided, the one whose turn it is

    def tell(self, kind: str, node: Any, name: str = "") -> None:
        """Tells of an obstacle."""
        self.program.obstacles.tell(kind, node, name)

    def temporary(self, stem: str) -> str:
        """A name for an object of this function, with the next number behind it."""
        while True:
            self.counts[stem] = self.counts.get(stem, 0) + 1
            name = f"{stem}_{self.counts[stem]}"
            if name not in self.program.names.used:
                return name

    def content_name(self, name: str) -> str:
        """A name for an object of this function by what it is for; a second one of the name has a number behind it."""
        self.counts[name] = self.counts.get(name, 0) + 1
        return self.program.names.free(name if self.counts[name] == 1 else f"{name}_{self.counts[name]}")

    def given_name(self, symbol: Symbol) -> str:
        """The name of a parameter in the function's head: another where the body has an object of its own for it."""
        is_apart = self.is_apart(symbol)
        return self.program.names.free(f"{symbol.unit}_given") if is_apart else symbol.unit

    def is_apart(self, symbol: Symbol) -> bool:
        """Whether the body needs an object of its own for a parameter: a struct that may change, or a number at `&`."""
        if isinstance(symbol.type, Struct):
            return self.effects.may_change(self.procedure, symbol)
        return isinstance(symbol.type, Number) and symbol.is_addressed

    def write(self) -> None:
        """Writes the function's body."""
        with self.output.indented():
            for symbol in self.procedure.parameters:
                self.check_parameter(symbol)
                if self.is_apart(symbol):
                    self.take_apart(symbol)
            self.statements(self.procedure.node.body)
            if isinstance(self.procedure.type.result, Number) and self.procedure.symbol.name != "main":
                if may_end(self.procedure.node.body):
                    self.output.mark("return 0;")  # whose value nobody uses (C11 6.9.1p12)

    def check_parameter(self, symbol: Symbol) -> None:
        """Tells of a parameter that is no number, array of numbers or structs, or struct."""
        kind = symbol.type
        if not isinstance(kind, Pointer) or self.procedure.symbol.name == "main":
            return
        if isinstance(kind.target, Struct) and kind.target.members is None:
            self.tell("file" if kind.target.name == "__file" else "pointer", symbol.node, symbol.name)
        elif not isinstance(types.innermost(kind.target), (Number, Struct)):
            self.tell("pointer", symbol.node)

    def take_apart(self, symbol: Symbol) -> None:
        """Begins the body with an object of its own for a parameter."""
        self.output.place = self.program.places.place(self.procedure.node)
        given, kind = self.given_name(symbol), symbol.type
        if isinstance(kind, Number):
            self.output.put(f"{kind.unit} {symbol.unit}[1] = {{{given}}};")
            return
        offset = Value(self.offset_name(symbol), PRIMARY, types.INT) if symbol.moves else None
        symbol.base = Reference(symbol.unit, None, kind)
        self.output.put(f"{self.unit.declared(symbol.unit, kind)};")
        self.copy(kind, symbol.base, Reference(given, offset, kind))

    def check_result(self) -> None:
        """Tells of a result that is a pointer, and of the parameters of `main` and of `...`."""
        kind = self.procedure.type
        if isinstance(kind.result, (Pointer, Array)):
            self.tell("pointer result", self.procedure.node)
        if kind.is_variadic:
            self.tell("variadic", self.procedure.node)
        if self.procedure.symbol.name == "main" and {s.name for s in self.procedure.parameters} & self.procedure.names:
            self.tell("main", self.procedure.node)
