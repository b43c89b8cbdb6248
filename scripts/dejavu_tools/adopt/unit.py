"""The unit as it grows: its types and objects, and the functions that no file defines."""
from __future__ import annotations

from typing import Any, Dict, List, Optional, Set, Tuple

from . import types
from .initialisers import flattened, is_string
from .library import definitions
from .literals import spelled_char, string_bytes, text_name
from .symbols import Procedure, Symbol
from .types import Array, Member, Number, Pointer, Struct, Type
from .values import ASSIGNED


class Unit:
    """What the functions of a unit stand on."""

    def __init__(self, program: Any) -> None:
        self.program = program
        self.texts: Dict[str, List[int]] = {}
        self.results: Dict[str, Struct] = {}
        self.copied: Dict[str, Struct] = {}
        self.cleared: Dict[str, Struct] = {}
        self.nowheres: Dict[str, Type] = {}
        self.called: Set[str] = set()
        self.reads_ahead = bool({"scanf", "ungetc"} & program.names.used)

    # ---- what is made where it is wanted

    def text(self, data: List[int]) -> str:
        """The object that holds a string literal."""
        name = self.program.names.free(text_name(data))
        self.texts[name] = data
        return name

    def result(self, struct: Struct) -> str:
        """The object in which a function leaves a struct as its result."""
        self.results[struct.tag] = struct
        return self.program.names.free(f"result_{struct.tag}")

    def nowhere(self, kind: Type) -> str:
        """The array of such elements that stands for NULL."""
        element = kind.tag if isinstance(kind, Struct) else getattr(kind, "unit", "char")
        name = self.program.names.free(f"nowhere_{element}")
        self.nowheres[name] = kind
        return name

    def copier(self, struct: Struct) -> str:
        """The function that copies a struct."""
        self.note(self.copied, struct)
        return self.program.names.free(f"copy_{struct.tag}")

    def clearer(self, struct: Struct) -> str:
        """The function that sets a struct to 0."""
        self.note(self.cleared, struct)
        return self.program.names.free(f"clear_{struct.tag}")

    def note(self, noted: Dict[str, Struct], struct: Struct) -> None:
        """Notes a struct, and those within it."""
        if struct.tag not in noted:
            noted[struct.tag] = struct
            for member in struct.members or ():
                kind = member.type
                while isinstance(kind, Array):
                    kind = kind.element
                if isinstance(kind, Struct):
                    self.note(noted, kind)

    def library(self, name: str) -> str:
        """A function, or an object, of the library."""
        self.called.add(name)
        return f"std_{name}"

    def getchar(self) -> str:
        """What reads a byte."""
        return self.library("getchar") if self.reads_ahead else "getchar"

    # ---- how it is spelled

    def declared(self, name: str, kind: Type, is_object: bool = False) -> str:
        """The declaration of an object; `is_object` makes a number an array of one."""
        lengths, kind = types.lengths(kind), types.innermost(kind)
        if isinstance(kind, Pointer):
            lengths.append(max(kind.text, 1))
        if isinstance(kind, Struct):
            return f"struct {kind.tag} {name}" + "".join(f"[{n}]" for n in lengths or [1])
        base = kind.unit if isinstance(kind, Number) else "char"
        return f"{base} {name}" + "".join(f"[{n}]" for n in lengths or ([1] if is_object else []))

    def zero(self, kind: Type) -> str:
        """An initialiser of nothing but 0."""
        if isinstance(kind, Number):
            return "0"
        kind = types.as_unit(kind)
        if isinstance(kind, Struct):
            first = kind.members[0] if kind.members else None
            inner = self.zero(first.type) if first is not None else "0"
            return f"{{{{{inner}}}}}" if first is not None and stands_in_braces(first) else f"{{{inner}}}"
        return f"{{{self.zero(kind.element) if isinstance(kind, Array) else 0}}}"

    def whole(self, body: Any, kind: Type, tree: Any, is_object: bool = False) -> str:
        """The initialiser of a whole object: a struct, or a number as an array of one, stands in braces once more."""
        text = self.initialiser(body, kind, tree)
        return f"{{{text}}}" if isinstance(kind, Struct) or is_object else text

    def initialiser(self, body: Any, kind: Type, tree: Any) -> str:
        """The initialiser of an object, an element or a member."""
        if tree is None:
            return self.zero(kind)
        if isinstance(kind, Number) and not isinstance(tree, dict):
            if body.procedure is None and not body.is_constant(tree):
                body.tell("constant", tree)
                return "0"
            return body.stored_value(tree, kind).at(ASSIGNED)
        if not isinstance(tree, dict) and is_string(tree):
            length = kind.length if isinstance(kind, Array) else kind.text
            data = string_bytes(tree.value)[:length]
            return "{" + ", ".join(map(spelled_char, data)) + "}" if data else "{0}"
        if not isinstance(tree, dict):
            if isinstance(kind, Struct):
                body.tell("struct", tree)
            return self.zero(kind)
        return self.list(body, kind, tree)

    def list(self, body: Any, kind: Type, tree: Dict[int, Any]) -> str:
        """The initialiser of an array or a struct by its parts."""
        if not tree or isinstance(kind, Pointer):
            return self.zero(kind)
        if isinstance(kind, Array) and kind.is_flat:
            return self.list(body, types.as_unit(kind), flattened(kind, tree))
        parts = []
        for k in range(max(tree) + 1):
            inner = kind.element if isinstance(kind, Array) else kind.members[k].type
            text = self.initialiser(body, inner, tree.get(k))
            is_single = isinstance(kind, Struct) and stands_in_braces(kind.members[k])
            parts.append(f"{{{text}}}" if is_single else text)
        return "{" + ", ".join(parts) + "}"

    def head(self, procedure: Procedure, body: Any) -> str:
        """The head of a function, up to its closing bracket."""
        kind = procedure.type
        result = kind.result.unit if isinstance(kind.result, Number) else "void"
        parts: List[str] = []
        for symbol in procedure.parameters:
            name = body.given_name(symbol)
            if isinstance(symbol.type, Number):
                parts.append(f"{symbol.type.unit} {name}")
                continue
            target = types.innermost(symbol.type.target) if isinstance(symbol.type, Pointer) else symbol.type
            base = f"struct {target.tag}" if isinstance(target, Struct) else getattr(target, "unit", "char")
            parts.append(f"{base} {name}[]")
            if symbol.moves:
                parts.append(f"int {body.offset_name(symbol)}")
        if procedure.symbol.name == "main":
            parts = []
        return f"{result} {procedure.symbol.unit}({', '.join(parts) or 'void'})"

    # ---- what stands before the functions of the files

    def types(self) -> List[str]:
        """The enums and structs."""
        lines = []
        for constants in self.program.enums:
            shown = [constant for constant in constants if constant.name in self.program.named_constants]
            if shown:
                lines.append("enum { " + ", ".join(f"{c.name} = {c.value}" for c in shown) + " };")
        for struct in self.program.structs:
            lines.append(f"struct {struct.tag} {{")
            for member in struct.members or ():
                lines.append(f"    {self.declared(member.name, member.type, member.is_addressed)};")
            lines.append("};")
        return lines

    def made_objects(self) -> List[str]:
        """The objects that hold strings and results."""
        lines = []
        for name, data in sorted(self.texts.items()):
            values = ", ".join(map(spelled_char, data)) if data else "0"
            lines.append(f"char {name}[{len(data) + 1}] = {{{values}}};")
        lines.extend(f"{self.declared(self.result(struct), struct)};" for _, struct in sorted(self.results.items()))
        lines.extend(f"{self.declared(name, kind, True)};" for name, kind in sorted(self.nowheres.items()))
        return lines

    def made_functions(self) -> Tuple[List[str], List[str]]:
        """The prototypes and the definitions of the functions that copy structs and set them to 0."""
        heads, lines = [], []
        for struct in [struct for _, struct in sorted(self.copied.items())]:
            offsets = f"struct {struct.tag} to[], int to_at, struct {struct.tag} from[], int from_at"
            heads.append(f"void {self.copier(struct)}({offsets});")
            lines.extend(self.defined(heads[-1], self.copy_lines(struct)))
        for struct in [struct for _, struct in sorted(self.cleared.items())]:
            heads.append(f"void {self.clearer(struct)}(struct {struct.tag} to[], int to_at);")
            lines.extend(self.defined(heads[-1], self.clear_lines(struct)))
        return heads, lines

    @staticmethod
    def defined(head: str, lines: List[str]) -> List[str]:
        """A definition by its prototype and its lines."""
        return [head[:-1], "{", *(f"    {line}" for line in lines), "}", ""]

    def copy_lines(self, struct: Struct) -> List[str]:
        """What copies each member."""
        return self.each_member(struct, lambda kind, path, at: (
            f"{self.copier(kind)}(to[to_at]{path}, {at}, from[from_at]{path}, {at});" if isinstance(kind, Struct)
            else f"to[to_at]{path} = from[from_at]{path};"))

    def clear_lines(self, struct: Struct) -> List[str]:
        """What sets each member to 0."""
        return self.each_member(struct, lambda kind, path, at: (
            f"{self.clearer(kind)}(to[to_at]{path}, {at});" if isinstance(kind, Struct) else f"to[to_at]{path} = 0;"))

    def each_member(self, struct: Struct, line: Any) -> List[str]:
        """A line for each member, in loops over the elements of arrays; `line` gets a type, a path and an index."""
        lines: List[str] = []
        for member in struct.members or ():
            lengths, kind = types.lengths(member.type) or [1] * member.is_one, types.innermost(member.type)
            if isinstance(kind, Pointer):
                lengths.append(max(kind.text, 1))
            names = "ijklmn"[: len(lengths)]
            for depth, (name, length) in enumerate(zip(names, lengths)):
                lines.append("    " * depth + f"for (int {name} = 0; {name} < {length}; {name}++) {{")
            inner = names[:-1] if isinstance(kind, Struct) else names
            path = f".{member.name}" + "".join(f"[{name}]" for name in inner)
            at = names[-1] if names and isinstance(kind, Struct) else "0"
            lines.append("    " * len(lengths) + line(kind, path, at))
            lines.extend("    " * depth + "}" for depth in reversed(range(len(lengths))))
        return lines

    def library_text(self) -> str:
        """The functions of the library that are called."""
        return definitions(self.called)


def stands_in_braces(member: Member) -> bool:
    """Whether the initialiser of a member stands in braces once more, since the unit has it as an array of one."""
    return member.is_one or isinstance(member.type, Struct)


def initial(unit: Unit, body: Any, symbol: Symbol, tree: Optional[Any]) -> str:
    """The definition of an object of file scope."""
    is_one = isinstance(symbol.type, Number) and symbol.is_addressed
    text = unit.declared(symbol.unit, symbol.type, is_one)
    return f"{text};" if tree is None else f"{text} = {unit.whole(body, symbol.type, tree, is_one)};"
