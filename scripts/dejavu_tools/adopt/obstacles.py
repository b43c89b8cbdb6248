"""What keeps a program from being adopted: all of it is collected, and told at once."""
from __future__ import annotations

from dataclasses import dataclass
from typing import Callable, List, Sequence, Set

from .places import Place
from .unread import Unread
from .words import OBSTACLES


@dataclass(frozen=True, order=True)
class Obstacle:
    """A construct that the language has nothing for."""

    place: Place
    what: str
    todo: str

    def __str__(self) -> str:
        return f"{self.place}: {self.what}: {self.todo}"


class ObstaclesFound(Exception):
    """No unit is made; `obstacles` has all that was found, sorted by place."""

    def __init__(self, obstacles: Sequence[Obstacle]) -> None:
        self.obstacles: List[Obstacle] = sorted(set(obstacles))
        super().__init__("\n".join(map(str, self.obstacles)))


class Collector:
    """Takes the obstacles of one run, those aside that may only follow from declarations that can't be read.

    `place_of` says where a node of a tree stands in its file.
    """

    def __init__(self, place_of: Callable[[object], Place], unread: Unread) -> None:
        self.place_of = place_of
        self.unread = unread
        self.found: Set[Obstacle] = set()

    def tell(self, kind: str, node: object, name: str = "") -> None:
        """Takes an obstacle of this kind (a key of `words.OBSTACLES`) at a node."""
        if not self.unread.explains(kind, node, name):
            self.tell_at(kind, self.place_of(node), name)

    def tell_at(self, kind: str, place: Place, name: str = "") -> None:
        """Takes an obstacle of this kind at a place."""
        words = OBSTACLES[kind]
        self.found.add(Obstacle(place, words.what.format(name=name), words.todo.format(name=name)))

    def stop(self) -> None:
        """Raises `ObstaclesFound` where there is one."""
        if self.found:
            raise ObstaclesFound(list(self.found))
