"""Definitions of functions in the old style, whose parameters are declared behind the brackets (C11 6.9.1p6).

They become definitions with a list of types, and stay known as old ones by the class of that list: a call converts each
argument to the type of its parameter there too, where it doesn't do what C leaves undefined (6.5.2.2p6).
"""
from __future__ import annotations

from typing import Any, Iterable

from pycparser import c_ast


class OldParameters(c_ast.ParamList):
    """The parameters of a definition in the old style."""

    __slots__ = ()


def with_types(nodes: Iterable[Any]) -> None:
    """Gives each old definition among the external declarations of a file the types of its parameters.

    One without a declaration is an `int`, as compilers take it.
    """
    for node in nodes:
        listed = getattr(node.decl.type, "args", None) if isinstance(node, c_ast.FuncDef) else None
        if listed is not None and all(isinstance(parameter, c_ast.ID) for parameter in listed.params):
            declared = {decl.name: decl for decl in node.param_decls or ()}
            node.decl.type.args = OldParameters([declared.get(it.name) or as_int(it) for it in listed.params], listed.coord)
            node.param_decls = None


def as_int(name: Any) -> Any:
    """The declaration of a parameter as an `int`."""
    kind = c_ast.TypeDecl(name.name, [], None, c_ast.IdentifierType(["int"], name.coord), name.coord)
    return c_ast.Decl(name.name, [], [], [], [], kind, None, None, name.coord)
