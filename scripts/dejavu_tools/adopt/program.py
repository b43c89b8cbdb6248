"""All files of a program together: their types, objects and functions, and what each name in them means."""
from __future__ import annotations

import re
from pathlib import Path
from typing import Any, Dict, List, Optional, Set, Tuple

from pycparser import c_ast

from ..errors import ToolError
from . import types
from .constants import member_of, type_of, value_of
from .declarations import Constant, Declarer
from .effects import roots
from .library import DECLARED
from .literals import has_prefix
from .names import Names
from .obstacles import Collector
from .options import Options
from .parse import Places, parse
from .preprocess import NOT_THE_SAME, HeadersMissing, Preprocessed, preprocess, standard
from .symbols import Procedure, Scope, Symbol
from .types import Array, Function, Number, Pointer, Struct, Type
from .unread import Unread

PRINTERS = {"printf", "fprintf", "sprintf", "snprintf"}
RESERVED = {"getchar", "putchar", "printf", "exit", "EOF"}


class Program:
    """What the files say, found by the nodes of their trees."""

    def __init__(self, options: Options) -> None:
        self.options = options
        self.places = Places()
        self.symbols: Dict[int, Any] = {}  # of names and declarations: a `Symbol` or a `Constant`
        self.unread = Unread(self.symbols)
        self.obstacles = Collector(self.places.place, self.unread)
        self.types: Dict[int, Type] = {}  # of the trees of types
        self.structs: List[Struct] = []
        self.enums: List[Tuple[Constant, ...]] = []
        self.objects: List[Symbol] = []  # of file scope, those within functions among them
        self.procedures: List[Procedure] = []  # that the files define, in order
        self.externals: Dict[str, Symbol] = {}
        self.of_symbol: Dict[int, Procedure] = {}
        self.files: List[Tuple[str, Any]] = []
        self.names = Names()
        self.stems: Dict[int, str] = {}  # of static symbols
        self.hoisted: List[Tuple[Procedure, Symbol]] = []
        self.current: Optional[Procedure] = None
        self.standard_types: Set[str] = set()  # the names that headers of the system give to types
        self.named_constants: Set[str] = set()
        self.null_tests: Any = None  # the parameters that are compared with NULL, once they are known
        self.defined: Set[str] = set()  # the names of the functions that files define
        self.of_headers: Dict[str, Tuple[Any, Type]] = {}  # declarations of functions of the library, once one is wanted
        self.pointed: Dict[int, List[Any]] = {}  # what is assigned to each pointer that is a local object

    def read(self, files: List[Path]) -> None:
        """Reads all files; what can't be read of them is left out."""
        for path, source in self.preprocessed(files):
            tree = parse(source, self.obstacles, self.unread)
            self.places.add(tree, source)
            self.files.append((re.sub(r"\W", "_", path.stem), tree))
            for node in tree.ext:
                if not self.places.is_standard(node):
                    self.names.take(node)
                if isinstance(node, c_ast.FuncDef):
                    self.defined.add(node.decl.name)
        for stem, tree in self.files:
            self.gather(stem, tree)
        if not any(procedure.symbol.name == "main" for procedure in self.procedures):
            self.refuse(f"{', '.join(map(str, files))}: there is no `main`")
        self.name_all()

    def preprocessed(self, files: List[Path]) -> List[Tuple[Path, Preprocessed]]:
        """The files after preprocessing. Where headers aren't there, these alone are told."""
        found = []
        for path in files:
            try:
                found.append((path, preprocess(path, self.options)))
            except HeadersMissing as error:
                for place, header in error.headers:
                    self.obstacles.tell_at("header", place, header)
        self.obstacles.stop()
        return found

    def gather(self, stem: str, tree: Any) -> None:
        """Takes the declarations and definitions of a file, in order."""
        scope = Scope()
        declarer = Declarer(self, stem)
        for node in tree.ext:
            if isinstance(node, c_ast.Typedef):
                declarer.typedef(node, scope)
            elif isinstance(node, c_ast.FuncDef):
                self.define(node, scope, declarer)
            elif isinstance(node, c_ast.Decl) and node.name is None:
                declarer.type(node.type, scope, "")
            elif isinstance(node, c_ast.Decl):
                self.declare(node, scope, declarer)

    def refuse(self, why: str) -> None:
        """Raises a `ToolError`, unless declarations are missing that can't be read: it may follow from that."""
        if not self.unread.is_any:
            raise ToolError(why)

    def declare(self, node: Any, scope: Scope, declarer: Declarer) -> Symbol:
        """Takes a declaration at file scope, or an `extern` one within a function."""
        kind = declarer.type(node.type, scope, node.name)
        node, kind = self.of_header(node, kind)
        symbol = self.file_symbol(node, kind, scope, declarer.stem)
        if node.init is not None:
            declarer.resolve(node.init, scope)
            if symbol.init is not None:
                self.check_once(symbol, node)
            symbol.init = self.known_init(symbol, node)
        if not isinstance(kind, Function) and "extern" not in node.storage:
            symbol.is_defined = True
        return symbol

    def of_header(self, node: Any, kind: Type) -> Tuple[Any, Type]:
        """A declaration and its type; those of a header for a function of the library that a file declares by itself."""
        if not isinstance(kind, Function) or node.name not in DECLARED or node.name in self.defined:
            return node, kind
        if self.places.is_standard(node):
            return node, kind
        if not self.of_headers:
            self.read_headers()
        found = self.of_headers.get(node.name)
        return found if found is not None and (kind.is_open or agree(kind, found[1])) else (node, kind)

    def read_headers(self) -> None:
        """Reads the declarations of the functions of the library."""
        source = standard()
        tree = parse(source, self.obstacles, self.unread)
        self.places.add(tree, source)
        scope, declarer = Scope(), Declarer(self, "")
        for node in tree.ext:
            if isinstance(node, c_ast.Typedef):
                declarer.typedef(node, scope)
            elif isinstance(node.type, c_ast.FuncDecl):
                self.of_headers[node.name] = node, declarer.type(node.type, scope, node.name)

    def known_init(self, symbol: Symbol, node: Any) -> Any:
        """The initialiser of a declaration; None in place of the list of an object whose type isn't known."""
        return None if isinstance(node.init, c_ast.InitList) and self.unread.is_unknown(symbol) else node.init

    def file_symbol(self, node: Any, kind: Type, scope: Scope, stem: str) -> Symbol:
        """The symbol of file scope that a declaration names, which others may have named before."""
        found = scope.find(node.name)
        is_static = "static" in node.storage
        if not isinstance(found, Symbol) or not found.is_global:
            found = None if is_static else self.externals.get(node.name)
        if found is None:
            found = Symbol(node.name, kind, unit=node.name, is_global=True, node=node)
            self.take_symbol(found, node, stem if is_static else None)
        else:
            self.join(found, node, kind)
        scope.names[node.name] = found
        self.symbols[id(node)] = found
        return found

    def join(self, symbol: Symbol, node: Any, kind: Type) -> None:
        """Takes another declaration of an object or a function; a `ToolError` where the two disagree."""
        if self.places.is_standard(symbol.node):
            if isinstance(kind, Function):
                symbol.node = node  # the program's own
        elif not agree(symbol.type, kind):
            place, other = self.places.place(node), self.places.place(symbol.node)
            self.refuse(f"{place}: `{symbol.name}` is declared otherwise than at {other}")
        elif isinstance(symbol.type, Array) and symbol.type.length is None:
            symbol.type = kind

    def take_symbol(self, symbol: Symbol, node: Any, stem: Optional[str]) -> None:
        """Takes a new symbol of file scope; `stem` is that of the file where it is static."""
        if stem is None:
            self.externals[symbol.name] = symbol
        else:
            self.stems[id(symbol)] = stem
        if isinstance(symbol.type, Function):
            self.of_symbol[id(symbol)] = Procedure(symbol)
        elif not self.places.is_standard(node):
            self.objects.append(symbol)
        self.check_name(node)

    def check_name(self, node: Any) -> None:
        """Tells of a name that the language, or a function of the library in the unit, has."""
        if (node.name in RESERVED or node.name.startswith("std_")) and not self.places.is_standard(node):
            self.obstacles.tell("reserved", node, node.name)

    def check_once(self, symbol: Symbol, node: Any) -> None:
        """Raises a `ToolError` where a function or an object has a definition already."""
        if symbol.is_defined:
            place, other = self.places.place(node), self.places.place(symbol.node)
            raise ToolError(f"{place}: `{symbol.name}` is defined at {other} too")

    def define(self, node: Any, scope: Scope, declarer: Declarer) -> None:
        """Takes a function's definition: its parameters, and what the names in its body mean."""
        kind = declarer.type(node.decl.type, scope, node.decl.name)
        symbol = self.file_symbol(node.decl, kind, scope, declarer.stem)
        procedure = self.of_symbol[id(symbol)]
        self.check_once(symbol, node.decl)
        symbol.is_defined = True
        symbol.type = kind
        symbol.node = node.decl
        procedure.node = node
        self.procedures.append(procedure)
        self.current = procedure
        inner = Scope(scope)
        listed = node.decl.type.args.params if node.decl.type.args else ()
        named = [decl for decl in listed if isinstance(decl, c_ast.Decl) and decl.name]
        for decl, (_, parameter_type) in zip(named, kind.parameters):
            parameter = Symbol(decl.name, parameter_type, unit=decl.name, is_parameter=True, node=decl)
            inner.names[decl.name] = self.symbols[id(decl)] = parameter
            procedure.parameters.append(parameter)
        for item in node.body.block_items or ():
            self.resolve(item, inner, declarer)
        self.current = None

    def resolve(self, node: Any, scope: Scope, declarer: Declarer) -> None:
        """Finds what the names of a statement or an expression mean, and takes its declarations."""
        if isinstance(node, c_ast.Decl):
            self.resolve_declaration(node, scope, declarer)
        elif isinstance(node, c_ast.Typedef):
            declarer.typedef(node, scope)
        elif isinstance(node, (c_ast.Compound, c_ast.For)):
            inner = Scope(scope)
            for _, child in node.children():
                self.resolve(child, inner, declarer)
        elif isinstance(node, c_ast.ID):
            found = scope.find(node.name)
            if found is not None:
                self.symbols[id(node)] = found
                if self.current is not None:
                    self.current.names.add(node.name)
        elif isinstance(node, c_ast.StructRef):
            self.resolve(node.name, scope, declarer)
        elif isinstance(node, c_ast.Typename):
            self.types[id(node)] = declarer.type(node.type, scope, self.hint())
        elif isinstance(node, c_ast.FuncCall) and getattr(node.name, "name", "") in PRINTERS:
            for child in (node.name, *(node.args.exprs if node.args else ())):
                self.resolve_printed(child, scope, declarer)
        else:
            for _, child in node.children():
                self.resolve(child, scope, declarer)
            self.mark(node)

    def resolve_printed(self, node: Any, scope: Scope, declarer: Declarer) -> None:
        """Finds what the names in an argument of `printf` mean; one may be cast to a `long` only to be printed."""
        if not isinstance(node, c_ast.Cast):
            self.resolve(node, scope, declarer)
            return
        self.resolve(node.expr, scope, declarer)
        kind = type_of(self, node.expr)
        declarer.printed = kind if isinstance(kind, Number) else None
        self.resolve(node.to_type, scope, declarer)
        declarer.printed = None

    def mark(self, node: Any) -> None:
        """Notes what an operator or a call says of an object, and tells of what differs from run to run."""
        if isinstance(node, c_ast.Constant) and node.value.strip('"') in NOT_THE_SAME:
            self.obstacles.tell("time", node, node.value.strip('"'))
        if isinstance(node, c_ast.Constant) and has_prefix(node):
            self.obstacles.tell("prefix", node)
        if isinstance(node, c_ast.FuncCall) and getattr(node.name, "name", "") in ("memcpy", "memmove"):
            for symbol in roots(self, node.args.exprs[1]):
                symbol.is_copied = True
        if isinstance(node, c_ast.UnaryOp) and node.op == "&" and isinstance(node.expr, c_ast.ID):
            symbol = self.symbols.get(id(node.expr))
            if isinstance(symbol, Symbol):
                symbol.is_addressed = True
        if isinstance(node, c_ast.UnaryOp) and node.op == "&" and isinstance(node.expr, c_ast.StructRef):
            member = member_of(self, node.expr)
            if member is not None:
                member.is_addressed = True
        if isinstance(node, c_ast.Assignment) and node.op == "=" and isinstance(node.lvalue, c_ast.ID):
            symbol = self.symbols.get(id(node.lvalue))
            if isinstance(symbol, Symbol) and isinstance(symbol.type, Pointer):
                self.pointed.setdefault(id(symbol), []).append(node.rvalue)

    def hint(self) -> str:
        """The name of a struct without a tag that stands within the current function."""
        return f"{self.current.symbol.name}_struct" if self.current else "unnamed"

    def resolve_declaration(self, node: Any, scope: Scope, declarer: Declarer) -> None:
        """Takes a declaration within a function."""
        if node.name is None:
            declarer.type(node.type, scope, self.hint())
        elif "extern" in node.storage or isinstance(node.type, c_ast.FuncDecl):
            scope.names[node.name] = self.declare(node, file_scope(scope), declarer)
        else:
            is_static = "static" in node.storage
            symbol = declarer.symbol(node, scope, is_global=is_static)
            if node.init is not None:
                self.resolve(node.init, scope, declarer)
                symbol.init = node.init = self.known_init(symbol, node)
            if is_static:
                symbol.is_defined = True
                self.objects.append(symbol)
                self.hoisted.append((self.current, symbol))
            elif isinstance(symbol.type, Pointer) and node.init is not None:
                self.pointed.setdefault(id(symbol), []).insert(0, node.init)
            self.check_name(node)

    def take_struct(self, struct: Struct, stem: str) -> None:
        """Takes a struct whose members are known; one that stands in another file too becomes the same."""
        for other in self.structs:
            if other.name == struct.name and types.spelled(other) == types.spelled(struct):
                struct.members, struct.tag = other.members, other.tag
                return
        taken = {other.tag for other in self.structs}
        if struct.tag in taken:
            struct.tag = self.names.free(f"{struct.name}_{stem}", taken)
        self.structs.append(struct)

    def take_enum(self, constants: List[Constant], is_whole: bool) -> None:
        """Takes the constants of an enum; those of file scope keep their names in the unit."""
        if is_whole and tuple(constants) not in self.enums:
            self.enums.append(tuple(constants))

    def name_all(self) -> None:
        """Gives each object and function of file scope its name in the unit."""
        used: Dict[str, List[Any]] = {}
        whole = [symbol for symbol in self.objects if id(symbol) not in {id(s) for _, s in self.hoisted}]
        for symbol in [*whole, *(procedure.symbol for procedure in self.procedures)]:
            used.setdefault(symbol.name, []).append(symbol)
        for name, symbols in used.items():
            for symbol in symbols:
                if len(symbols) > 1 and id(symbol) in self.stems:
                    symbol.unit = self.names.fresh(f"{name}_{self.stems[id(symbol)]}")
        for procedure, symbol in self.hoisted:
            symbol.unit = self.names.fresh(f"{procedure.symbol.unit}_{symbol.name}")
        counts: Dict[str, Set[int]] = {}
        for constants in self.enums:
            for k, constant in enumerate(constants):
                counts.setdefault(constant.name, set()).add(constant.value)
        self.named_constants = {
            name for name, values in counts.items() if len(values) == 1 and name not in used
        }

    def procedure_of(self, node: Any) -> Optional[Procedure]:
        """The function that a call's name means."""
        symbol = self.symbols.get(id(node))
        return self.of_symbol.get(id(symbol)) if isinstance(symbol, Symbol) else None


def agree(left: Type, right: Type) -> bool:
    """Whether two declarations of one object or function may stand in one program (C11 6.2.7)."""
    if isinstance(left, Function) and isinstance(right, Function):
        if left.is_open or right.is_open:
            return types.spelled(left.result) == types.spelled(right.result)
        taken = types.passed if left.is_old or right.is_old else lambda kind: kind
        kinds = [[types.spelled(taken(kind)) for _, kind in function.parameters] for function in (left, right)]
        return types.spelled(left.result) == types.spelled(right.result) and kinds[0] == kinds[1]
    if isinstance(left, Array) and isinstance(right, Array) and None in (left.length, right.length):
        return agree(left.element, right.element)
    return types.spelled(left) == types.spelled(right)


def file_scope(scope: Scope) -> Scope:
    """The outermost scope around this one."""
    while scope.outer is not None:
        scope = scope.outer
    return scope
