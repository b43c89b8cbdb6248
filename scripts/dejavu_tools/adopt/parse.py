"""Preprocessed text as the trees of pycparser."""
from __future__ import annotations

import re
from bisect import bisect_right
from typing import Any, List, NoReturn, Optional, Tuple

from pycparser import c_ast, c_parser

from .extensions import without_extensions
from .items import Item, declared, split
from .obstacles import Collector
from .old_style import with_types
from .places import Place
from .preprocess import Preprocessed
from .unread import Unread

FAULT = re.compile(r"^:?(\d+):(\d+): (.*)", re.S)
MOST_FAULTS = 100  # of a file; what stands behind the last one isn't read


class Parser(c_parser.CParser):
    """The parser, which tells where each fault is: version 3.0 of the library tells some without a place.

    It reads old definitions without a result's type too, such as `main(argc, argv) char **argv; {`.
    """

    def _parse_external_declaration(self) -> List[c_ast.Node]:
        token = self._peek()
        if token is None or token.type != "ID" or self._starts_declaration(token):
            return super()._parse_external_declaration()
        decl = self._parse_id_declarator()
        listed = self._parse_declaration_list() if self._starts_declaration() else None
        if self._peek_type() != "LBRACE":
            self._parse_error("Invalid function definition", decl.coord)
        spec = {"qual": [], "alignment": [], "storage": [], "function": [],
                "type": [c_ast.IdentifierType(["int"], coord=decl.coord)]}
        return [self._build_function_definition(spec, decl, listed, self._parse_compound_statement())]

    def _parse_error(self, msg: str, coord: Any) -> NoReturn:
        if getattr(coord, "line", None) is None:
            token = self._peek()
            coord = coord if token is None else self._tok_coord(token)
        super()._parse_error(msg, coord)


def parse(source: Preprocessed, obstacles: Collector, unread: Unread) -> c_ast.FileAST:
    """The tree of a file, whose coordinates are lines and columns of the preprocessed text.

    Line markers are blanked out, so that a coordinate leads to the line of the text and from there to its origin. Each
    external declaration that can't be read is told and left out; of a function whose head can be read the body alone.
    """
    text = without_extensions("\n".join("" if line.startswith("#") else line for line in source.lines))
    try:
        tree = Parser().parse(text, "")
    except c_parser.ParseError:
        reader = Reader(text, source, obstacles, unread)
        reader.read(0, len(reader.items))
        unread.spread(reader.nodes)
        tree = c_ast.FileAST(reader.nodes)
    with_types(tree.ext)
    return tree


class Reader:
    """Reads a text that has faults: each part between two of them once more than a text without any."""

    def __init__(self, text: str, source: Preprocessed, obstacles: Collector, unread: Unread) -> None:
        self.text = text
        self.source = source
        self.obstacles = obstacles
        self.unread = unread
        self.items: List[Item] = split(text)
        self.starts = [item.start for item in self.items]
        self.lines = [0, *(match.end() for match in re.finditer("\n", text))]  # where each begins
        self.nodes: List[c_ast.Node] = []
        self.types: List[str] = []  # the names of types at file scope, without which the parser can't go on
        self.faults = 0

    def read(self, first: int, behind: int) -> None:
        """Takes the nodes of the items from one up to another."""
        while first < behind and self.faults < MOST_FAULTS:
            try:
                self.take(first, behind)
                return
            except c_parser.ParseError as error:
                first = self.pass_by(first, behind, str(error))

    def take(self, first: int, behind: int) -> None:
        """Takes the nodes of the items from one up to another, or raises a `ParseError`."""
        start = self.items[first].start
        line = bisect_right(self.lines, start)
        known = f"typedef int {', '.join(self.types)};" if self.types else ""
        gap = " " * (start - self.lines[line - 1])
        text = f"{known}\n#line {line}\n{gap}{self.text[start:self.items[behind - 1].end]}"
        nodes = Parser().parse(text, "").ext[len(self.types):]
        self.nodes.extend(nodes)
        self.types.extend(node.name for node in nodes if isinstance(node, c_ast.Typedef))

    def pass_by(self, first: int, behind: int, error: str) -> int:
        """Tells of a fault, takes what stands before its item, and gives the number of the item to go on with."""
        told = FAULT.match(error)
        line, column, message = (int(told[1]), int(told[2]), told[3]) if told else (0, 0, error.lstrip(": "))
        at = self.lines[line - 1] + column - 1 if told else self.items[behind - 1].start
        k = min(max(bisect_right(self.starts, at) - 1, first), behind - 1)
        self.read(first, k)
        item = self.items[k]
        self.tell(*((line, column) if told else self.place_of(item.start)), message)
        if item.body is not None and item.body[0] <= at < item.body[1]:
            self.empty(k)
            return k
        left = declared(self.text[item.start:item.end])
        self.unread.take(left)
        if left.is_typedef:
            self.types.extend(sorted(left.names))
        return k + 1

    def tell(self, line: int, column: int, message: str) -> None:
        """Tells of a fault, and of the last one that what stands behind it isn't read."""
        self.faults += 1
        if self.faults == MOST_FAULTS:
            message += ", and what stands behind it isn't read"
            self.unread.is_any = True
        self.obstacles.tell_at("syntax", self.source.place(line, column), message)

    def place_of(self, at: int) -> Tuple[int, int]:
        """The line and the column of a place in the text."""
        line = bisect_right(self.lines, at)
        return line, at - self.lines[line - 1] + 1

    def empty(self, k: int) -> None:
        """Blanks the body of a function out; its lines stay."""
        start, end = self.items[k].body
        self.text = self.text[:start] + re.sub(r"[^\n]", " ", self.text[start:end]) + self.text[end:]


class Places:
    """The place of each node of the trees of several files; a node without an own place has that of a part of it."""

    def __init__(self) -> None:
        self.sources = {}

    def add(self, tree: c_ast.Node, source: Preprocessed) -> None:
        """Takes the nodes of a tree."""
        stack = [tree]
        while stack:
            node = stack.pop()
            self.sources[id(node)] = (node, source)
            stack.extend(child for _, child in node.children())

    def place(self, node: c_ast.Node) -> Place:
        """Where a node stands."""
        source = self.sources[id(node)][1]
        found = first_coordinate(node)
        if found is None:
            return Place(str(source.path), 1, 1)
        return source.place(found.line, found.column or 1)

    def is_standard(self, node: c_ast.Node) -> bool:
        """Whether a node comes from a header of the system."""
        found = first_coordinate(node)
        return found is not None and self.sources[id(node)][1].is_standard(found.line)


def first_coordinate(node: c_ast.Node) -> Optional[object]:
    """The coordinate of a node, or else of the first node in it that has one."""
    if node.coord is not None and node.coord.line:
        return node.coord
    for _, child in node.children():
        found = first_coordinate(child)
        if found is not None:
            return found
    return None
