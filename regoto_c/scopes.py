"""Scopes: which variable of a function a name means at a place that isn't parsed."""

from __future__ import annotations

from . import libclang, syntax
from .syntax import Node


class Scopes:
    """The scopes of the variables that are declared in a body."""

    def __init__(self, body: Node) -> None:
        self.found: dict[str, list[tuple[int, int, int]]] = {}
        self._gather(body)

    def _gather(self, node: Node) -> None:
        if node.kind in (syntax.COMPOUND, syntax.FOR):
            end = libclang.extent(node.cursor)[1]
            for child in node.children:
                if child.kind == syntax.DECLARATION:
                    self._declare(child, end)
        for child in node.children:
            self._gather(child)

    def _declare(self, node: Node, end: int) -> None:
        for child in node.children:
            name = libclang.spelling(child.cursor)
            place = libclang.name_offset(child.cursor), end, libclang.identity(child.cursor)
            self.found.setdefault(name, []).append(place)

    def meant(self, name: str, offset: int) -> int | None:
        """Return the entity of the body that a name means at an offset, None where it is one from outside."""
        around = [scope for scope in self.found.get(name, []) if scope[0] < offset < scope[1]]
        return max(around)[2] if around else None
