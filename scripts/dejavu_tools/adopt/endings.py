"""Whether control may come to the end of a statement."""
from __future__ import annotations

from typing import Any, List

from pycparser import c_ast

ENDING = {"exit", "abort"}


def may_end(node: Any) -> bool:
    """Whether what stands behind a statement may be reached from its end; also true where that is hard to see."""
    if isinstance(node, (c_ast.Return, c_ast.Goto)):
        return False
    if isinstance(node, c_ast.Compound):
        return all_may_end(node.block_items or [])
    if isinstance(node, c_ast.If):
        return node.iffalse is None or may_end(node.iftrue) or may_end(node.iffalse)
    if isinstance(node, c_ast.FuncCall):
        return getattr(node.name, "name", "") not in ENDING
    if isinstance(node, c_ast.Label):
        return may_end(node.stmt)
    if isinstance(node, (c_ast.For, c_ast.While)):
        is_endless = node.cond is None or isinstance(node.cond, c_ast.Constant) and node.cond.value == "1"
        return not is_endless or has_break(node.stmt)
    if isinstance(node, c_ast.Switch) and isinstance(node.stmt, c_ast.Compound):
        return switch_may_end(node.stmt)
    return True


def all_may_end(nodes: List[Any]) -> bool:
    """Whether the end of a list of statements may be reached; a label may be reached from elsewhere."""
    return not nodes or may_end(nodes[-1])


def switch_may_end(block: Any) -> bool:
    """Whether a `switch` may be left at its end, by a `break`, or because no case has the value."""
    items = block.block_items or []
    if has_break(block) or not any(isinstance(item, c_ast.Default) for item in items):
        return True
    last = items[-1]
    return all_may_end(last.stmts or []) if isinstance(last, (c_ast.Case, c_ast.Default)) else may_end(last)


def has_break(node: Any) -> bool:
    """Whether a statement has a `break` that leaves what is around it."""
    if isinstance(node, c_ast.Break):
        return True
    if isinstance(node, (c_ast.For, c_ast.While, c_ast.DoWhile, c_ast.Switch)):
        return False
    return any(has_break(child) for _, child in node.children())
