"""Initialisers as trees of what each element and member begins with (C11 6.7.9)."""
from __future__ import annotations

from collections import deque
from typing import Any, Deque, Dict, List, Optional, Union

from pycparser import c_ast

from .constants import type_of, value_of
from .literals import spelled_char, string_bytes
from .types import Array, Number, Pointer, Struct, Type, cells, has_text, is_aggregate

Tree = Union[Dict[int, Any], c_ast.Node]  # by the number of the element or member; an expression for what is one part


class Reader:
    """Reads the initialisers of a program."""

    def __init__(self, program: Any) -> None:
        self.program = program

    def read(self, kind: Type, node: Any) -> Tree:
        """What an object of this type begins with: with a tree for its parts, or with an expression."""
        if not isinstance(node, c_ast.InitList):
            return node
        if not is_aggregate(kind):
            return self.read(kind, node.exprs[0])
        if has_text(kind) and len(node.exprs) == 1 and is_string(node.exprs[0]):
            return node.exprs[0]
        tree: Dict[int, Any] = {}
        waiting = deque(node.exprs)
        k = 0
        while waiting:
            if isinstance(waiting[0], c_ast.NamedInitializer):
                k = self.designated(tree, kind, waiting)
            elif part(kind, k) is None:
                break
            else:
                tree[k] = self.consume(part(kind, k), waiting)
                k += 1
        return tree

    def designated(self, tree: Dict[int, Any], kind: Type, waiting: Deque[Any]) -> int:
        """Takes an entry with a designator and those that follow within its object; gives the next part's number."""
        front = waiting.popleft()
        waiting.appendleft(front.expr)
        path = self.path(kind, front.name)
        self.follow(tree, kind, path, waiting)
        return path[0] + 1

    def follow(self, tree: Dict[int, Any], kind: Type, path: List[int], waiting: Deque[Any]) -> None:
        """Initialises the part to which a path leads, and then those behind it within the innermost object."""
        k = path[0]
        inner = part(kind, k)
        if inner is None:
            waiting.popleft()
            return
        if len(path) == 1:
            tree[k] = self.consume(inner, waiting)
            return
        below = tree.get(k)
        if not isinstance(below, dict):
            below = tree[k] = {}
        self.follow(below, inner, path[1:], waiting)
        k = path[1] + 1
        while waiting and not isinstance(waiting[0], c_ast.NamedInitializer) and part(inner, k) is not None:
            below[k] = self.consume(part(inner, k), waiting)
            k += 1

    def path(self, kind: Type, names: List[Any]) -> List[int]:
        """The numbers of the parts that a designator names, from the outermost on."""
        path = []
        for name in names:
            if isinstance(kind, Struct):
                k = next((k for k, member in enumerate(kind.members or ()) if member.name == name.name), 0)
            else:
                k = value_of(self.program, name) or 0
            path.append(k)
            kind = part(kind, k) or kind
        return path

    def consume(self, kind: Type, waiting: Deque[Any]) -> Tree:
        """What a part begins with: the next entry, or as many as it has parts, where its braces are left out."""
        front = waiting[0]
        if self.is_whole(kind, front):
            return self.read(kind, waiting.popleft())
        tree: Dict[int, Any] = {}
        k = 0
        while waiting and part(kind, k) is not None and not isinstance(waiting[0], c_ast.NamedInitializer):
            tree[k] = self.consume(part(kind, k), waiting)
            k += 1
        return tree

    def is_whole(self, kind: Type, entry: Any) -> bool:
        """Whether an entry initialises an object of this type as a whole."""
        if not is_aggregate(kind) or isinstance(entry, c_ast.InitList):
            return True
        if isinstance(kind, Struct):
            return isinstance(type_of(self.program, entry), Struct)
        return has_text(kind) and is_string(entry)


def part(kind: Type, k: int) -> Optional[Type]:
    """The type of an element or a member by its number; None where there is none."""
    if isinstance(kind, Array):
        return kind.element if kind.length is None or k < kind.length else None
    members = kind.members or () if isinstance(kind, Struct) else ()
    return members[k].type if k < len(members) else None


def is_string(node: Any) -> bool:
    """Whether this is a string literal."""
    return isinstance(node, c_ast.Constant) and node.type == "string"


def flattened(kind: Array, tree: Dict[int, Any]) -> Dict[int, Any]:
    """What each innermost element of an array of arrays begins with, by its number among all of them."""
    size = cells(kind.element)
    found: Dict[int, Any] = {}
    for k, below in tree.items():
        if not isinstance(kind.element, Array):
            found[k] = below
            continue
        if not isinstance(below, dict):  # a string
            below = dict(enumerate(map(char_node, string_bytes(below.value)[:size])))
        else:
            below = flattened(kind.element, below)
        found.update((k * size + at, part) for at, part in below.items())
    return found


def char_node(byte: int) -> c_ast.Constant:
    """A byte of a string as an expression."""
    text = spelled_char(byte)
    return c_ast.Constant("char", text) if text.startswith("'") else c_ast.Constant("int", str(byte))


def length_of(tree: Tree) -> int:
    """The length that an initialiser gives an array without one."""
    if isinstance(tree, dict):
        return max(tree, default=0) + 1
    return len(string_bytes(tree.value)) + 1 if is_string(tree) else 1


def take_texts(program: Any, kind: Type, tree: Any) -> None:
    """Notes on each pointer that begins with a string how long that is, and tells of what else it begins with."""
    if is_aggregate(kind) and (tree is None or isinstance(tree, dict)):
        tree = tree or {}
        for k in numbers_of(kind, tree):
            if part(kind, k) is not None:
                take_texts(program, part(kind, k), tree.get(k))
    elif isinstance(kind, Pointer) and (tree is None or not is_struct_value(program, tree)):
        is_text = isinstance(kind.target, Number) and kind.target.size == 1
        if is_text and tree is not None and is_string(tree):
            data = string_bytes(tree.value)
            kind.text = max(kind.text, len(data) + 1)
            kind.has_empty = kind.has_empty or data[:1] in ([], [0])
        elif tree is None or is_text and is_null(tree):
            kind.has_null = True
        else:
            program.obstacles.tell("pointer", tree)


def numbers_of(kind: Type, tree: Dict[int, Any]) -> List[int]:
    """The numbers of a struct's members, or of the elements that a list initialises and, by -1, of all others."""
    if isinstance(kind, Struct):
        return list(range(len(kind.members or ())))
    return [*tree, *([-1] if len(tree) < (kind.length or 0) else [])]


def is_struct_value(program: Any, node: Any) -> bool:
    """Whether an expression is a struct as a whole."""
    return isinstance(type_of(program, node), Struct)


def is_null(node: Any) -> bool:
    """Whether this is NULL, or 0 in the place of a pointer."""
    if isinstance(node, c_ast.Cast):
        return is_null(node.expr)
    return isinstance(node, c_ast.Constant) and node.value == "0"
