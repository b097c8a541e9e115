"""The words of C text as a list: its tokens without comments, each with its place."""

from __future__ import annotations

import re
from functools import lru_cache
from typing import Iterable, NamedTuple, Sequence

from .lexing import TokenKind, tokens_of

JUMPS = frozenset({"goto", "break", "continue", "return", "case", "default"})
HEADS = frozenset({"if", "else", "for", "while", "do", "switch"})
NAMES = re.compile(r"[A-Za-z_$\x80-\xff][0-9A-Za-z_$\x80-\xff]*")


class Token(NamedTuple):
    """A token: its kind, its text, its place and the place behind it."""

    kind: TokenKind
    text: str
    start: int
    end: int

    @property
    def is_name(self) -> bool:
        """Whether it is a name or a word of C."""
        return self.kind is TokenKind.NAME

    @property
    def is_directive(self) -> bool:
        """Whether it is a directive, from its `#` to the end of its last line."""
        return self.kind is TokenKind.DIRECTIVE


def words(text: str, start: int = 0, end: int | None = None) -> list[Token]:
    """Return the tokens of a part of the text, without comments; a directive is one token."""
    part = _words(text[start:len(text) if end is None else end])
    return [Token(kind, spelling, start + a, start + b) for kind, spelling, a, b in part] if start else list(part)


@lru_cache(maxsize=4096)
def _words(text: str) -> tuple[Token, ...]:
    found = tokens_of(text)
    return tuple(Token(kind, spelling, start, end)
                 for start, end, kind, spelling in zip(found.offsets, found.ends, found.kinds, found.spellings)
                 if kind not in (TokenKind.COMMENT, TokenKind.CONTINUATION))


def texts(sequence: Iterable[Token]) -> list[str]:
    """Return the texts of the tokens."""
    return [token.text for token in sequence]


def closing(sequence: Sequence[Token], at: int) -> int | None:
    """Return the index of the bracket that closes the one at index `at`, or None where none does."""
    depth = 0
    for index in range(at, len(sequence)):
        text = sequence[index].text
        if text in ("(", "[", "{"):
            depth += 1
        elif text in (")", "]", "}"):
            depth -= 1
            if depth == 0:
                return index
    return None
