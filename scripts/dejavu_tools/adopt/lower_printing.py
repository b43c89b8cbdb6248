"""`printf` and its kin, as the language's `printf` of `%d`, `%u` and `%c` and functions for what else a format says."""
from __future__ import annotations

import re
from dataclasses import dataclass, replace
from typing import Any, Dict, List, Optional, Union

from pycparser import c_ast

from . import types
from .constants import type_of
from .effects import meet, roots
from .initialisers import is_string
from .literals import MOST_UNSIGNED, spelled_char, spelled_format, string_bytes
from .types import LONG, Number
from .values import ASSIGNED, PRIMARY, Reference, Value, cast, masked, narrowed, number, operation

CONVERSION = re.compile(rb"%([-+ #0]*)(\*|\d*)(?:\.(\*|\d*))?(hh|h|ll|l|z|j|t)?(.)", re.S)
MOST_VALUES = 8  # of one printf of the language
NO_LIMIT = number(MOST_UNSIGNED, types.UNSIGNED)  # bytes that `sprintf` has room for
BASES = {"u": 10, "x": 16, "X": 16, "o": 8}


@dataclass(frozen=True)
class Conversion:
    """A conversion of a format; `width` and `most` (a precision) are numbers, values or None."""

    flags: str
    width: Union[int, Any, None]
    most: Union[int, Any, None]
    length: str
    letter: str
    argument: Any


class PrintLowering:
    """The part of a `Body` that prints."""

    def do_printf(self, node: Any) -> None:
        """Output by a format."""
        form, *arguments = self.arguments(node)
        self.print_formatted(node, form, arguments)

    def do_fprintf(self, node: Any) -> None:
        """Output by a format to a stream."""
        stream, form, *arguments = self.arguments(node)
        if self.stream(node, stream) == "stderr":
            for argument in arguments:
                self.evaluate(argument)
        else:
            self.print_formatted(node, form, arguments)

    def do_puts(self, node: Any) -> None:
        """A string and a newline."""
        printer = Printer(self)
        printer.text(self.arguments(node)[0], None)
        printer.literal([10])
        printer.flush()

    def do_fputs(self, node: Any) -> None:
        """A string."""
        text, stream = self.arguments(node)
        if self.stream(node, stream) != "stderr":
            printer = Printer(self)
            printer.text(text, None)
            printer.flush()

    def do_perror(self, node: Any) -> None:
        """A message on stderr."""
        if not self.program.options.drop_stderr:
            self.tell("stderr", node)

    def do_sprintf(self, node: Any) -> None:
        """Output into a char array."""
        target, form, *arguments = self.arguments(node)
        self.write_formatted(node, target, None, form, arguments)

    def do_snprintf(self, node: Any) -> None:
        """Output into a char array that has room for so many bytes."""
        target, size, form, *arguments = self.arguments(node)
        self.write_formatted(node, target, size, form, arguments)

    def give_sprintf(self, node: Any) -> Value:
        """How many bytes there were to write into a char array."""
        self.call_statement(node)
        name = self.temporary("written")
        self.output.put(f"int {name} = {self.unit.library('written')};")
        return Value(name, PRIMARY, types.INT)

    give_snprintf = give_sprintf

    def write_formatted(self, node: Any, target: Any, size: Any, form: Any, arguments: List[Any]) -> None:
        """Output into a char array by a format that is a literal, after all arguments have their values."""
        if not is_string(form):
            self.tell("format value", form)
            return
        parts = split_format(string_bytes(form.value), arguments)
        kept: Dict[int, Value] = {}
        for argument in [*given(parts), *([] if size is None else [size])]:
            if not self.is_settled(argument):
                self.keep(argument, kept)
                if id(argument) not in kept and meet(roots(self.program, target), self.effects.of(argument).reads):
                    self.tell("order", node)
        room = NO_LIMIT if size is None else kept.get(id(size)) or self.value(size)
        writer = Writer(self, self.kept_place(target, self.name_called(node)))
        self.output.put(f"{self.unit.library('written')} = 0;")
        self.output.put(f"{self.unit.library('room')} = {room.at(ASSIGNED)};")
        writer.parts(node, parts, kept)
        writer.call("write_end")

    def is_settled(self, argument: Any) -> bool:
        """Whether no write to a char array changes an argument: a constant, or a number that no pointer points to."""
        symbol = self.symbol(argument)
        is_number = symbol is not None and isinstance(symbol.type, Number) and not symbol.is_addressed
        return is_number or isinstance(argument, c_ast.Constant)

    def kept_place(self, target: Any, called: str) -> Reference:
        """Where a char array begins; indices and an offset that may change have objects of their own."""
        found = self.fixed(self.bytes_of(target, called))
        if found.offset is None or found.offset.constant is not None:
            return found
        name = self.temporary("start")
        self.output.put(f"int {name} = {found.offset.text};")
        return replace(found, offset=Value(name, PRIMARY, types.INT))

    def print_formatted(self, node: Any, form: Any, arguments: List[Any]) -> None:
        """Output by a format that is a literal, or one of two."""
        if isinstance(form, c_ast.TernaryOp):
            test = self.truth(form.cond)
            self.output.put(f"if ({test.text}) {{")
            with self.output.indented():
                self.print_formatted(node, form.iftrue, arguments)
            self.output.mark("} else {")
            with self.output.indented():
                self.print_formatted(node, form.iffalse, arguments)
            self.output.mark("}")
        elif is_string(form):
            self.print_parts(node, split_format(string_bytes(form.value), arguments))
        else:
            self.tell("format value", form)

    def print_parts(self, node: Any, parts: List[Union[List[int], Conversion]]) -> None:
        """Output of literal text and conversions, after all calls that their arguments make."""
        conversions = [part for part in parts if isinstance(part, Conversion)]
        is_split = any(not is_simple(part) for part in conversions) or len(conversions) > MOST_VALUES
        kept: Dict[int, Value] = {}
        for argument in given(parts) if is_split else ():
            if not self.is_plain(argument) or self.effects.of(argument).writes:
                self.keep(argument, kept)
        Printer(self).parts(node, parts, kept)

    def keep(self, argument: Any, kept: Dict[int, Value]) -> None:
        """Evaluates an argument that is a number, or the test of one that is one of two strings, before its turn."""
        if isinstance(type_of(self.program, argument), Number):
            value = self.value(argument)
            kind = types.promoted(value.type)
            name = self.temporary("value")
            self.output.put(f"{kind.unit} {name} = {value.text};")
            kept[id(argument)] = Value(name, PRIMARY, kind)
        elif isinstance(argument, c_ast.TernaryOp) and not self.is_plain(argument.cond):
            value = self.truth(argument.cond)
            name = self.temporary("value")
            self.output.put(f"int {name} = {value.text};")
            self.kept_tests[id(argument)] = Value(name, PRIMARY, types.INT)


class Printer:
    """Collects what one statement of the unit prints, until something else has to print."""

    def __init__(self, body: Any) -> None:
        self.body = body
        self.format = ""
        self.values: List[str] = []

    def another(self) -> "Printer":
        """One that prints to the same place."""
        return Printer(self.body)

    def parts(self, node: Any, parts: List[Union[List[int], Conversion]], kept: Dict[int, Value]) -> None:
        """Prints all pieces of a format."""
        for part in parts:
            if isinstance(part, Conversion):
                self.conversion(node, part, kept)
            else:
                self.literal(part)
        self.flush()

    def literal(self, data: List[int]) -> None:
        """Text that stands for itself."""
        for k, part in enumerate(spelled_format(data)):
            if k % 2:
                self.flush()
                self.body.output.put(f"putchar({part});")
            else:
                self.format += part.replace("%", "%%")

    def flush(self) -> None:
        """Prints what was collected."""
        if self.format:
            words = [f'"{self.format}"', *self.values]
            self.body.output.put(f"printf({', '.join(words)});")
        self.format, self.values = "", []

    def plain(self, letter: str, value: Value) -> None:
        """A conversion that the language has."""
        if len(self.values) == MOST_VALUES:
            self.flush()
        self.format += f"%{letter}"
        self.values.append(value.at(ASSIGNED))

    def call(self, name: str, *words: str) -> None:
        """A call of a function that prints."""
        self.flush()
        self.body.output.put(f"{self.body.unit.library(name)}({', '.join(words)});")

    def conversion(self, node: Any, part: Conversion, kept: Dict[int, Value]) -> None:
        """What a conversion prints."""
        if part.letter == "s":
            self.string(node, part, kept)
        elif part.letter in "dicuxXo":
            value = kept.get(id(part.argument)) or self.body.value(part.argument)
            self.numeric(node, part, self.sized(node, part, value), kept)
        else:
            self.body.tell("floating" if part.letter in "eEfFgGaA" else "format", node, f"`%{part.letter}`")

    def sized(self, node: Any, part: Conversion, value: Value) -> Value:
        """A value as the type that the length of a conversion says."""
        if part.length == "hh":
            return masked(value) if part.letter in BASES else cast("char", value.bare(), types.CHAR)
        if part.length == "h":
            return operation("&", value, number(65535), types.INT) if part.letter in BASES else narrowed(value)
        if value.type is LONG and part.letter in BASES:
            self.body.tell("mixed", node)
        return value

    def numeric(self, node: Any, part: Conversion, value: Value, kept: Dict[int, Value]) -> None:
        """What a conversion of a number prints."""
        letter = "d" if part.letter == "i" else part.letter
        if "#" in part.flags or part.most is not None:
            self.body.tell("format", node, "with `#` or a precision of a number")
        if letter == "c":
            self.character(part, value, kept)
            return
        if is_simple(part):
            self.plain(letter, value)
            return
        width, fill = self.width(part, kept)
        if letter == "d":
            plus = "'+'" if "+" in part.flags else "' '" if " " in part.flags else "0"
            self.call("print_int", value.at(ASSIGNED), plus, width, fill)
        else:
            ten = "'A'" if letter == "X" else "'a'"
            self.call("print_number", value.at(ASSIGNED), "0", str(BASES[letter]), ten, width, fill)

    def width(self, part: Conversion, kept: Dict[int, Value]) -> List[str]:
        """The width of a conversion, and what it is filled with."""
        fill = "'-'" if "-" in part.flags else "'0'" if "0" in part.flags else "' '"
        if not isinstance(part.width, c_ast.Node):
            return [str(part.width or 0), fill]
        name = self.named_width(part.width, kept)
        return [absolute(name), fill if fill == "'-'" else f"{name} < 0 ? '-' : {fill}"]

    def named_width(self, node: Any, kept: Dict[int, Value]) -> str:
        """The name of an object that has a width."""
        value = kept.get(id(node)) or self.body.value(node)
        if not value.text.isidentifier():
            self.flush()
            name = self.body.temporary("width")
            self.body.output.put(f"int {name} = {value.text};")
            return name
        return value.text

    def character(self, part: Conversion, value: Value, kept: Dict[int, Value]) -> None:
        """What `%c` prints."""
        if not part.width:
            self.plain("c", value.bare())
            return
        width = self.width(part, kept)[0]
        missing = str(int(width) - 1) if width.isdigit() else f"{width} - 1"
        if "-" not in part.flags:
            self.call("pad", missing, "' '")
        self.plain("c", value.bare())
        if "-" in part.flags:
            self.call("pad", missing, "' '")

    def string(self, node: Any, part: Conversion, kept: Dict[int, Value]) -> None:
        """What `%s` prints."""
        if part.width is None and part.most is None:
            self.text(part.argument, kept)
            return
        if is_string(part.argument) and not any(isinstance(x, c_ast.Node) for x in (part.width, part.most)):
            data = string_bytes(part.argument.value)[: part.most]
            gap = [32] * ((part.width or 0) - len(data))
            self.literal(data + gap if "-" in part.flags else gap + data)
            return
        if isinstance(part.argument, c_ast.TernaryOp):
            self.choice(part.argument, lambda printer, chosen: printer.string(
                node, Conversion(part.flags, part.width, part.most, "", "s", chosen), kept))
            return
        words = self.body.reference_words(self.reference(part.argument), True)
        most = "-1" if part.most is None else str(part.most)
        if isinstance(part.most, c_ast.Node):
            most = (kept.get(id(part.most)) or self.body.value(part.most)).at(ASSIGNED)
        width, left = str(part.width or 0), str(int("-" in part.flags))
        if isinstance(part.width, c_ast.Node):
            name = self.named_width(part.width, kept)
            width, left = absolute(name), left if left == "1" else f"{name} < 0"
        if words[1] == "0":
            self.call("print_padded_text", words[0], most, width, left)
        else:
            self.call("print_padded_text_at", *words, most, width, left)

    def reference(self, node: Any) -> Reference:
        """The bytes that an argument refers to."""
        return self.body.bytes_of(node, "%s")

    def text(self, node: Any, kept: Optional[Dict[int, Value]]) -> None:
        """A string as it is."""
        if isinstance(node, c_ast.TernaryOp):
            self.choice(node, lambda printer, chosen: printer.text(chosen, kept))
        elif is_string(node):
            data = string_bytes(node.value)
            self.literal(data[: data.index(0)] if 0 in data else data)
        else:
            words = self.body.reference_words(self.reference(node), True)
            if words[1] == "0":
                self.call("print_text", words[0])
            else:
                self.call("print_text_at", *words)

    def choice(self, node: Any, show: Any) -> None:
        """One of two strings."""
        self.flush()
        test = self.body.kept_tests.get(id(node)) or self.body.truth(node.cond)
        branches = []
        for chosen in (node.iftrue, node.iffalse):
            with self.body.output.apart() as lines, self.body.output.indented():
                printer = self.another()
                show(printer, chosen)
                printer.flush()
            branches.append(lines)
        self.body.put_choice(test, *branches)


class Writer(Printer):
    """Writes to a char array what a format says, each piece at once."""

    def __init__(self, body: Any, target: Reference) -> None:
        super().__init__(body)
        self.target = target

    def another(self) -> "Writer":
        return Writer(self.body, self.target)

    def literal(self, data: List[int]) -> None:
        if len(data) == 1:
            self.call("write_byte", spelled_char(data[0]))
        elif data:
            self.call("print_text", self.body.unit.text(data))

    def flush(self) -> None:
        """Nothing waits."""

    def plain(self, letter: str, value: Value) -> None:
        if letter == "c":
            self.call("write_byte", value.at(ASSIGNED))
        elif letter == "d":
            self.call("print_int", value.at(ASSIGNED), "0", "0", "' '")
        else:
            self.call("print_number", value.at(ASSIGNED), "0", "10", "'a'", "0", "' '")

    def call(self, name: str, *words: str) -> None:
        """A call of the function that writes what one prints."""
        if name in ("print_text", "print_padded_text"):
            name, words = f"{name}_at", (words[0], "0", *words[1:])
        name = re.sub(r"^(?:print_|(?=pad$))", "write_", name)
        words = (*self.body.reference_words(self.target, True), *words)
        self.body.output.put(f"{self.body.unit.library(name)}({', '.join(words)});")


def absolute(name: str) -> str:
    """The text of an absolute value."""
    return f"{name} < 0 ? -{name} : {name}"


def is_simple(part: Conversion) -> bool:
    """Whether the language's `printf` has a conversion."""
    return part.letter in "diuc" and not part.width and part.most is None and not part.flags.strip("-")


def split_format(data: List[int], arguments: List[Any]) -> List[Union[List[int], Conversion]]:
    """The pieces of a format, up to its first byte 0: bytes that stand for themselves, and conversions."""
    form = bytes(data).split(b"\0")[0]
    parts: List[Union[List[int], Conversion]] = []
    waiting = list(arguments)
    at = 0
    for match in CONVERSION.finditer(form):
        if match.start() < at:
            continue
        parts.append(list(form[at:match.start()]))
        at = match.end()
        if match.group(5) == b"%":
            parts.append([ord("%")])
            continue
        width = taken(match.group(2), waiting)
        most = None if match.group(3) is None else taken(match.group(3) or b"0", waiting)
        letter, flags = match.group(5).decode("latin-1"), match.group(1).decode()
        argument = waiting.pop(0) if waiting else None
        parts.append(Conversion(flags, width, most, (match.group(4) or b"").decode(), letter, argument))
    parts.append(list(form[at:]))
    return parts


def given(parts: List[Union[List[int], Conversion]]) -> List[Any]:
    """The arguments that the conversions of a format take, in order."""
    conversions = [part for part in parts if isinstance(part, Conversion)]
    wanted = [argument for part in conversions for argument in (part.width, part.most, part.argument)]
    return [argument for argument in wanted if isinstance(argument, c_ast.Node)]


def taken(text: bytes, waiting: List[Any]) -> Union[int, Any, None]:
    """A width or a precision: a number, or the next argument."""
    if text == b"*":
        return waiting.pop(0) if waiting else None
    return int(text) if text else None
