"""The names that a declaration declares, by its tokens alone, where its variables may live in a block of their own."""

from __future__ import annotations

from typing import Sequence

from .shapes import TYPES
from .words import Token

_NUMBERS = frozenset("char double float int long short signed unsigned _Bool".split())
_OTHERS = frozenset("typedef extern typeof __typeof __typeof__ __label__ _Static_assert __auto_type".split())


class Unsafe(Exception):
    """A group that can't be done surely: why, and the offset of what stands in the way."""

    def __init__(self, token: Token, why: str) -> None:
        super().__init__(why)
        self.offset = token.start


def declared(sequence: Sequence[Token]) -> list[str]:
    """Return the names that a declaration, without its semicolon, declares.

    Raises `Unsafe` where one is no number or pointer, as an array, whose address may be known outside of its block.
    """
    names, name, stars, depth, names_it = [], "", 0, 0, True
    is_number = any(token.text in _NUMBERS for token in sequence)
    for token in sequence:
        text = token.text
        depth -= text in (")", "]", "}")
        if depth == 0 and text == ",":
            names.append(_checked(token, name, is_number or stars > 0))
            name, stars, names_it = "", 0, True
        elif depth == 0 and text == "=":
            names_it = False
        elif names_it and (text in ("(", "[", "{") or text in _OTHERS):
            raise Unsafe(token, "a declaration")
        elif names_it:
            stars += text == "*"
            name = text if token.is_name and text not in TYPES else name
        depth += text in ("(", "[", "{")
    return [*names, _checked(sequence[-1], name, is_number or stars > 0)]


def _checked(token: Token, name: str, lives_alone: bool) -> str:
    if not name or not lives_alone:
        raise Unsafe(token, "a declaration")
    return name
