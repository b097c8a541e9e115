"""A function's body as a row of units: plain tokens, whole macro invocations, and whole groups of directives."""

from __future__ import annotations

from bisect import bisect_left, bisect_right
from enum import IntEnum
from typing import TYPE_CHECKING

from .lexing import TokenKind, Tokens
from .messages import Refused
from .reading import Function, SourceFile
from .records import dataclass, field

if TYPE_CHECKING:
    from .judging import Group


class UnitKind(IntEnum):
    """What a unit is."""

    TOKEN = 1
    INVOCATION = 2
    GROUP = 3


_DIGRAPHS = {"<%": "{", "%>": "}", "<:": "[", ":>": "]"}
_OPENING = {"(": ")", "[": "]", "{": "}"}
_BRACKETS = frozenset((*_OPENING, *_OPENING.values()))
_OTHERS = (TokenKind.COMMENT, TokenKind.DIRECTIVE, TokenKind.CONTINUATION)


@dataclass
class Comment:
    """A comment between units: `behind` is the number of units that begin before it."""

    start: int
    end: int
    behind: int


@dataclass
class Units:
    """The units of a body from its `{` to its `}`, as parallel lists, and the comments that lie between them.

    `mates` has for each opening bracket the unit of its closing one. `faults` has the groups that can't be a piece.
    """

    starts: list[int] = field(default_factory=list)
    ends: list[int] = field(default_factory=list)
    kinds: list[UnitKind] = field(default_factory=list)
    words: list[str] = field(default_factory=list)
    comments: list[Comment] = field(default_factory=list)
    mates: dict[int, int] = field(default_factory=dict)
    faults: dict[int, Refused] = field(default_factory=dict)

    def at(self, offset: int) -> int:
        """Return the unit in which an offset lies."""
        return bisect_right(self.starts, offset) - 1

    def comments_from(self, start: int, end: int) -> list[Comment]:
        """Return the comments that begin from one offset up to another."""
        if not self.comments:
            return []
        low = bisect_left(self.comments, start, key=lambda comment: comment.start)
        high = bisect_left(self.comments, end, key=lambda comment: comment.start)
        return self.comments[low:high]


def units_of(file: SourceFile, function: Function) -> Units:
    """Return the units of a function's body.

    Raises `Refused` where brackets don't match or a token is continued over lines.
    """
    units = Units()
    tokens = file.tokens
    index = tokens.first_from(function.body)
    for start, end, kind, fault in _wholes(file, function):
        _add_tokens(file, units, index, tokens.first_from(start))
        if fault is not None:
            units.faults[len(units.starts)] = fault
        _append(units, start, end, kind, file.text[start:end])
        index = tokens.first_from(end)
    _add_tokens(file, units, index, tokens.first_from(function.end))
    _match(units)
    return units


def _wholes(file: SourceFile, function: Function) -> list[tuple[int, int, UnitKind, Refused | None]]:
    """Return the invocations and groups of a function, those in others left out."""
    wholes: list[tuple[int, int, UnitKind, Refused | None]] = []
    for invocation in file.invocations_in(function):
        wholes.append((invocation.start, invocation.end, UnitKind.INVOCATION, None))
    for group in _groups(file, function):
        fault = Refused(group.fault_offset, group.fault, group.resolvable) if group.fault else None
        wholes.append((group.start, group.end, UnitKind.GROUP, fault))
    wholes.sort(key=lambda whole: (whole[0], -whole[1]))
    outer: list[tuple[int, int, UnitKind, Refused | None]] = []
    for whole in wholes:
        if not outer or whole[0] >= outer[-1][1]:
            outer.append(whole)
    return outer


def has_directives(file: SourceFile, function: Function) -> bool:
    """Return whether a directive stands in a function's body."""
    low, high = file.tokens.first_from(function.body), file.tokens.first_from(function.end)
    return TokenKind.DIRECTIVE in file.tokens.kinds[low:high]


def _groups(file: SourceFile, function: Function) -> list[Group]:
    """Return the units of the directives in a function."""
    if not has_directives(file, function):
        return []
    from .directives import groups  # with all that it needs slow to load

    return groups(file, function)


def _add_tokens(file: SourceFile, units: Units, index: int, behind: int) -> None:
    """Add plain tokens; the other ones between them are comments, directives and continued lines."""
    tokens = file.tokens
    for at in range(index, behind):
        kind = tokens.kinds[at]
        if kind in _OTHERS:
            _add_run(tokens, units, index, at)
            _add_other(file, units, at)
            index = at + 1
    _add_run(tokens, units, index, behind)


def _add_run(tokens: Tokens, units: Units, index: int, behind: int) -> None:
    units.starts += tokens.offsets[index:behind]
    units.ends += tokens.ends[index:behind]
    units.kinds += [UnitKind.TOKEN] * (behind - index)
    units.words += [_DIGRAPHS.get(word, word) for word in tokens.spellings[index:behind]]


def _add_other(file: SourceFile, units: Units, at: int) -> None:
    tokens = file.tokens
    kind, start, end = tokens.kinds[at], tokens.offsets[at], tokens.ends[at]
    if kind is TokenKind.COMMENT:
        units.comments.append(Comment(start, end, len(units.starts)))
    elif kind is TokenKind.DIRECTIVE:
        units.faults[len(units.starts)] = Refused(start, "a directive in a statement", True)
        _append(units, start, end, UnitKind.GROUP, tokens.spellings[at])
    elif file.text[start - 1: start].strip() and file.text[end: end + 1].strip():
        raise Refused(start, "token continued over lines")


def _append(units: Units, start: int, end: int, kind: UnitKind, word: str) -> None:
    units.starts.append(start)
    units.ends.append(end)
    units.kinds.append(kind)
    units.words.append(word)


def _match(units: Units) -> None:
    """Find the mate of each bracket."""
    stack: list[int] = []
    for index in [index for index, word in enumerate(units.words) if word in _BRACKETS]:
        word = units.words[index]
        if word in _OPENING:
            stack.append(index)
        else:
            if not stack or _OPENING[units.words[stack[-1]]] != word:
                raise _unmatched(units, index)
            units.mates[stack.pop()] = index
    if stack:
        raise _unmatched(units, stack[-1])


def _unmatched(units: Units, index: int) -> Refused:
    """Return what to raise where a bracket has no mate; a group that can't be a piece is the likely reason."""
    for fault in units.faults.values():
        return fault
    return Refused(units.starts[index], "a bracket without its mate")
