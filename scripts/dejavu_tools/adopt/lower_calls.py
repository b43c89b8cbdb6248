"""Calls of C as calls of the unit: of its functions, and of those of the C library."""
from __future__ import annotations

from typing import Any, Callable, List, Optional, Sequence, Union

from pycparser import c_ast

from . import types
from .constants import decayed, type_of
from .initialisers import is_null, is_string
from .library import DECLARED, FUNCTIONS
from .literals import string_bytes
from .symbols import Procedure, Symbol
from .types import Array, Number, Pointer, Struct
from .values import ASSIGNED, NULL_OFFSET, PRIMARY, Reference, Value, ZERO, masked, number, stored

ABORTED = 134  # the status that a shell tells of a program that `abort` ended

HEAP = {"malloc", "calloc", "realloc", "free", "strdup"}
FILES = {"fopen", "fclose", "fread", "fwrite", "fseek", "ftell", "rewind", "remove", "rename", "feof", "ferror",
         "fscanf", "setbuf", "setvbuf"}
FOUND = {"strchr": "strchr_found", "strrchr": "strchr_found", "strstr": "strstr_found", "strpbrk": "strpbrk_found",
         "memchr": "memchr_found"}
PRINTERS = {"printf", "fprintf", "puts", "fputs"}
STREAMS = ("stdin", "stdout", "stderr")


class CallLowering:
    """The part of a `Body` that makes calls."""

    @staticmethod
    def arguments(node: Any) -> List[Any]:
        """The arguments of a call."""
        return list(node.args.exprs) if node.args else []

    def called(self, node: Any) -> Optional[Procedure]:
        """The function of the program that a call names; None for one of the library."""
        procedure = self.program.procedure_of(node.name)
        return procedure if procedure is not None and procedure.node is not None else None

    def name_called(self, node: Any) -> str:
        """The name that a call has before its brackets."""
        return node.name.name if isinstance(node.name, c_ast.ID) else ""

    def is_library(self, node: Any) -> bool:
        """Whether a call of what no file defines is one of a function of the C library."""
        name = self.name_called(node)
        return name in DECLARED and name not in self.program.unread.names

    def call_text(self, node: Any) -> str:
        """A call of a function of the program."""
        procedure = self.called(node)
        if procedure is None:
            self.tell_unknown(node)
            return "nothing()"
        if procedure.type.is_variadic:
            return f"{procedure.symbol.unit}()"
        if len(self.arguments(node)) != len(procedure.parameters):
            self.tell("arguments", node, procedure.symbol.name)
        parts: List[str] = []
        for parameter, argument in zip(procedure.parameters, self.arguments(node)):
            if isinstance(parameter.type, Number):
                parts.append(self.stored_value(argument, parameter.type).at(ASSIGNED))
            else:
                parts.extend(self.array_words(parameter, argument))
        return f"{procedure.symbol.unit}({', '.join(parts)})"

    def array_words(self, parameter: Symbol, argument: Any) -> List[str]:
        """The arguments for an array parameter; NULL is an offset of -1 in an array that nothing uses."""
        if is_null(argument) and isinstance(parameter.type, Pointer):
            nowhere = self.unit.nowhere(types.innermost(parameter.type.target))
            is_flat = isinstance(parameter.type.target, Array)
            found = Reference(nowhere, NULL_OFFSET, parameter.type.target, is_flat)
        else:
            found = self.reference(argument)
        target = parameter.type.target if isinstance(parameter.type, Pointer) else parameter.type
        has_lost_offset = found.offset is not None and found.offset.constant != 0 and not parameter.moves
        if has_lost_offset or found.is_flat != isinstance(target, Array) or not types.are_alike(found.element, target):
            self.tell("pointer", argument)
        if found.text is not None and found.text.has_null and parameter in self.program.null_tests.tested:
            self.tell("null", argument)
        return self.reference_words(found, parameter.moves)

    def stored_value(self, node: Any, kind: Number) -> Value:
        """What is stored in an object of this type that gets the value of an expression."""
        return stored(self.converted(node, self.value(node), kind) if kind is types.LONG else self.value(node), kind)

    @staticmethod
    def reference_words(reference: Reference, has_offset: bool) -> List[str]:
        """The arguments for an array parameter: an array, and the offset where the parameter has one."""
        offset = (reference.offset or ZERO).at(ASSIGNED)
        return [reference.base, offset] if has_offset else [reference.base]

    def value_funccall(self, node: Any) -> Value:
        """What a call gives."""
        procedure = self.called(node)
        name = self.name_called(node)
        if procedure is None:
            if not self.is_library(node):
                self.tell_unknown(node)
                return ZERO
            handler = getattr(self, f"give_{name}", None)
            if handler is not None:
                return handler(node)
            if name in PRINTERS or name == "exit":
                self.tell("printed", node, name)
                return ZERO
            return self.library_value(node)
        kind = procedure.type.result
        if isinstance(kind, Struct):
            self.tell("struct", node)
            return ZERO
        if not isinstance(kind, Number):
            self.tell("expression" if isinstance(kind, types.Void) else "pointer result", node)
            return ZERO
        value = Value(self.call_text(node), PRIMARY, kind, is_boolean=kind.is_boolean)
        return masked(value) if kind is types.UNSIGNED_CHAR else value

    def library_value(self, node: Any) -> Value:
        """What a function of the library gives."""
        text = self.library_call(node, self.name_called(node))
        kind = type_of(self.program, node)
        if not isinstance(kind, Number):
            self.tell("pointer value", node)
            return ZERO
        return Value(text, PRIMARY, kind, is_boolean=self.name_called(node).startswith("is"))

    def library_call(self, node: Any, name: str) -> str:
        """A call of a function of the library, by its name among those of the language."""
        if name not in FUNCTIONS:
            self.tell_unknown(node)
            return "0"
        declared = type_of(self.program, node.name).parameters
        parts = []
        for argument, (_, kind) in zip(self.arguments(node), declared):
            is_pointer = isinstance(kind, Pointer)
            called = self.name_called(node)
            parts.append(self.bytes_of(argument, called) if is_pointer else self.stored_value(argument, kind))
        return self.library_text(name, parts)

    def library_text(self, name: str, parts: Sequence[Union[Reference, Value]]) -> str:
        """A call of a function of the library with these arguments; of the one with offsets where there are some."""
        has_offset = any(isinstance(part, Reference) and part.offset is not None for part in parts)
        words: List[str] = []
        for part in parts:
            words.extend(self.reference_words(part, has_offset) if isinstance(part, Reference) else [part.at(ASSIGNED)])
        return f"{self.unit.library(name + ('_at' if has_offset else ''))}({', '.join(words)})"

    def bytes_of(self, node: Any, called: str) -> Reference:
        """An argument that is an array of bytes, of a call of this name."""
        found = self.reference(node)
        if getattr(found.element, "unit", "") != "char":
            self.tell("clear", node, called)
        return found

    def tell_unknown(self, node: Any) -> None:
        """Tells of a call of what isn't there, and of what stands in its brackets."""
        self.look_at([argument for argument in self.arguments(node)
                      if isinstance(type_of(self.program, argument), Number) or isinstance(argument, c_ast.FuncCall)])
        name = self.name_called(node)
        symbol = self.program.symbols.get(id(node.name))
        if not name or isinstance(getattr(symbol, "type", None), (Pointer, Number)):
            self.tell("function pointer", node)
        elif name in HEAP:
            self.tell("heap", node, name)
        elif name in FILES:
            self.tell("file", node, name)
        elif symbol is not None and self.program.places.is_standard(symbol.node):
            self.tell("outside", node, name)
        else:
            self.tell("undefined", node, name)

    def stream(self, node: Any, argument: Any) -> str:
        """The stream that an argument names, or "" where that isn't one of the standard ones."""
        name = argument.name if isinstance(argument, c_ast.ID) else ""
        if name not in STREAMS:
            self.tell("file", node, self.name_called(node))
            return ""
        if name == "stderr" and not self.program.options.drop_stderr:
            self.tell("stderr", node)
        return name

    # ---- what is read

    def give_getchar(self, _: Any) -> Value:
        """The next byte of the input."""
        return Value(f"{self.unit.getchar()}()", PRIMARY, types.INT)

    def give_getc(self, node: Any) -> Value:
        """The next byte of the input."""
        if self.stream(node, self.arguments(node)[0]) != "stdin":
            self.tell("file", node, self.name_called(node))
        return self.give_getchar(node)

    give_fgetc = give_getc

    def give_ungetc(self, node: Any) -> Value:
        """A byte pushed back."""
        pushed, stream = self.arguments(node)
        if self.stream(node, stream) != "stdin":
            self.tell("file", node, "ungetc")
        return Value(f"{self.unit.library('ungetc')}({self.value(pushed).at(ASSIGNED)})", PRIMARY, types.INT)

    def give_scanf(self, node: Any) -> Value:
        """How many numbers were read: the format has nothing but `%d` and blanks."""
        form, *targets = self.arguments(node)
        words = "".join(map(chr, string_bytes(form.value))).split() if is_string(form) else []
        if not words or "".join(words).replace("%d", ""):
            self.tell("format", form, "of `scanf`")
            return ZERO
        name = self.temporary("read")
        self.output.put(f"int {name} = {self.unit.library('scan_int')}();")
        self.scan(name, targets, 1)
        return Value(name, PRIMARY, types.INT)

    def scan(self, name: str, targets: List[Any], count: int) -> None:
        """Puts the number that was read into the first target, and reads the next ones, as long as there are any."""
        if not targets:
            return
        got = name if count == 1 else self.temporary("read")
        if count > 1:
            self.output.put(f"int {got} = {self.unit.library('scan_int')}();")
        with self.output.block(f"if ({got} == 1) {{"):
            if count > 1:
                self.output.put(f"{name} = {count};")
            target = targets[0]
            is_object = isinstance(target, c_ast.UnaryOp) and target.op == "&"
            place = self.place(target.expr).text if is_object else self.reference(target).at()
            self.output.put(f"{place} = {self.unit.library('scanned')};")
            self.scan(name, targets[1:], count + 1)

    def found_or_not(self, node: Any) -> Value:
        """Whether a call gives a pointer other than NULL."""
        name = self.name_called(node)
        if self.called(node) is None and name == "fgets":
            return self.read_line(node)
        if self.called(node) is None and name in FOUND:
            return Value(self.library_call(node, FOUND[name]), PRIMARY, types.INT, is_boolean=True)
        if self.called(node) is None:
            self.tell_unknown(node) if name not in FUNCTIONS else self.tell("pointer value", node)
        return ZERO

    def read_line(self, node: Any) -> Value:
        """`fgets` from the input: 1 where it gives a line, and 0 where it gives NULL."""
        line, size, stream = self.arguments(node)
        if self.stream(node, stream) != "stdin":
            self.tell("file", node, "fgets")
        found = self.bytes_of(line, "fgets")
        words = self.reference_words(found, found.offset is not None)
        name = self.unit.library("fgets" if found.offset is None else "fgets_at")
        text = f"{name}({', '.join(words)}, {self.value(size).at(ASSIGNED)})"
        return Value(text, PRIMARY, types.INT, is_boolean=True)

    # ---- what is written, byte by byte

    def give_putchar(self, node: Any) -> Value:
        """A byte written."""
        return Value(f"putchar({self.value(self.arguments(node)[0]).bare().at(ASSIGNED)})", PRIMARY, types.INT)

    def give_putc(self, node: Any) -> Value:
        """A byte written to a stream."""
        if self.stream(node, self.arguments(node)[1]) == "stderr":
            return self.value(self.arguments(node)[0])
        return self.give_putchar(node)

    give_fputc = give_putc

    # ---- whole statements

    def call_statement(self, node: Any) -> None:
        """A call whose value isn't used."""
        procedure = self.called(node)
        name = self.name_called(node)
        if procedure is None:
            if not self.is_library(node):
                self.tell_unknown(node)
                return
            handler = getattr(self, f"do_{name.strip('_')}", None)
            if handler is not None:
                handler(node)
                return
            if hasattr(self, f"give_{name}"):
                text = self.value(node).text
                if not text.isidentifier():
                    self.output.put(f"{text};")
                return
            if name in FUNCTIONS:
                self.put_call(node, lambda: self.library_call(node, name))
                return
            self.tell_unknown(node)
            return
        self.put_call(node, lambda: self.call_text(node))

    def put_call(self, node: Any, text: Callable[[], str]) -> None:
        """A call as a statement; an `if` where an argument is one of two arrays, strings or structs."""
        choice = next(filter(None, map(self.open_choice, self.arguments(node))), None)
        if choice is None:
            self.output.put(f"{text()};")
        else:
            self.choose(self.truth(choice.cond), choice.iftrue, choice.iffalse,
                        lambda chosen: self.put_chosen(node, text, choice, chosen))

    def put_chosen(self, node: Any, text: Callable[[], str], choice: Any, chosen: Any) -> None:
        """The same call, with one of the two in the place of a choice."""
        self.decided[id(choice)] = chosen
        self.put_call(node, text)
        del self.decided[id(choice)]

    def open_choice(self, node: Any) -> Optional[Any]:
        """The `?:` that an argument is, if it chooses between arrays, strings or structs and isn't decided yet."""
        while id(node) in self.decided:
            node = self.decided[id(node)]
        kind = decayed(type_of(self.program, node))
        return node if isinstance(node, c_ast.TernaryOp) and isinstance(kind, (Pointer, Struct)) else None

    def do_exit(self, node: Any) -> None:
        """The end of the run."""
        self.output.put(f"exit({self.value(self.arguments(node)[0]).text});")

    def do_abort(self, _: Any) -> None:
        """The end of the run by a signal, as a shell tells of it."""
        self.output.put(f"exit({ABORTED});")

    def do_assert(self, node: Any) -> None:
        """A condition that ends the run as `abort` does where it doesn't hold."""
        test = self.truth(self.arguments(node)[0])
        with self.output.block(f"if (!{test.at(PRIMARY)}) {{"):
            self.output.put(f"exit({ABORTED});")

    def do_fflush(self, node: Any) -> None:
        """Nothing: what is written is out at once."""
        if self.stream(node, self.arguments(node)[0]) == "stdin":
            self.tell("file", node, "fflush")

    def give_fflush(self, node: Any) -> Value:
        """Whether it fails, which no run shows."""
        self.do_fflush(node)
        return ZERO

    def do_fgets(self, node: Any) -> None:
        """A line read, or none."""
        self.output.put(f"{self.read_line(node).text};")

    def give_ferror(self, node: Any) -> Value:
        """Whether reading or writing has failed, which no run shows."""
        if self.stream(node, self.arguments(node)[0]) == "stderr":
            self.tell("file", node, "ferror")
        return ZERO

    def do_err(self, node: Any) -> None:
        """A message on stderr, and the end of the run."""
        self.do_warn(node, self.arguments(node)[1:])
        self.do_exit(node)

    do_errx = do_err

    def do_warn(self, node: Any, arguments: Optional[List[Any]] = None) -> None:
        """A message on stderr."""
        if not self.program.options.drop_stderr:
            self.tell("stderr", node)
        for argument in (self.arguments(node) if arguments is None else arguments)[1:]:
            self.evaluate(argument)

    do_warnx = do_warn

    def do_putc(self, node: Any) -> None:
        """A byte written to a stream."""
        character, stream = self.arguments(node)
        if self.stream(node, stream) == "stderr":
            self.evaluate(character)
        else:
            self.output.put(f"{self.give_putchar(node).text};")

    do_fputc = do_putc
