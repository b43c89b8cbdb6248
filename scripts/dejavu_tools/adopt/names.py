"""Names of the unit that no name of the files means."""
from __future__ import annotations

from typing import Any, Collection, Set


class Names:
    """All names that the files use, and those that were made besides."""

    def __init__(self) -> None:
        self.used: Set[str] = set()

    def take(self, tree: Any) -> None:
        """Takes the names in a file's tree."""
        stack = [tree]
        while stack:
            node = stack.pop()
            for attribute in ("name", "declname"):
                name = getattr(node, attribute, None)
                if isinstance(name, str):
                    self.used.add(name)
            stack.extend(child for _, child in node.children())

    def free(self, name: str, taken: Collection[str] = ()) -> str:
        """This name, or with the least number behind it with which nothing else has it."""
        found, number = name, 2
        while found in self.used or found in taken:
            found, number = f"{name}_{number}", number + 1
        return found

    def fresh(self, name: str) -> str:
        """A name like this one that nothing else has, and that nothing else gets."""
        found = self.free(name)
        self.used.add(found)
        return found
