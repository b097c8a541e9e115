"""Declarations that move to the top of the function, and the assignments that stay in their place."""

from __future__ import annotations

from typing import TYPE_CHECKING, Any

from . import libclang, syntax
from .clang_types import type_behind, type_of
from .declarators import CONST, RESTRICT, Declarator, Parts, own_words, parts_of, refuse_unmovable
from .initialisers import Initialised, Render, initialised
from .messages import Refused
from .pieces import check_expression
from .reading import Edit, edited
from .records import dataclass, field
from .syntax import Node

if TYPE_CHECKING:
    from .cutting import Cutter

_STATIC = (2, 3)  # extern and static, as libclang has them
_STATIC_CLASS = 3
_STORAGE = frozenset(("register", "auto"))
_NO_TYPE = frozenset(("__auto_type",))
_QUALIFIERS = _STORAGE | CONST | {"volatile", "__volatile", "__volatile__"}


@dataclass
class Moved:
    """A declaration at the top: the stretches of the source that make it up, and what is left out of them."""

    spans: list[tuple[int, int]]
    edits: list[Edit] = field(default_factory=list)
    comment: str = ""

    def bare(self, text: str) -> str:
        """Return the declaration in the words of the source."""
        words = []
        for start, end in self.spans:
            edits = [edit for edit in self.edits if start <= edit.start and edit.end <= end]
            words.append(edited(text[start:end], [Edit(one.start - start, one.end - start, one.text) for one in edits]))
        return " ".join(words)

    def text(self, render: Render) -> str:
        """Return the declaration as it is written at the top."""
        words = [render(start, end, self.edits).strip() for start, end in self.spans]
        return " ".join(words) + ";" + (" " + self.comment if self.comment else "")


@dataclass
class Replacement:
    """The assignments that take the place of a declaration from `start` to `end`, or a comment, or nothing."""

    start: int
    end: int
    variables: list[Initialised]
    joint: str
    comment: str = ""


class Declarations:
    """The declarations of a function: those that stay at its top, those that move there."""

    def __init__(self, cutter: Cutter) -> None:
        self.cutter = cutter
        self.kept: list[Any] = []
        self.moved: list[Moved] = []
        self.variables: list[Any] = []
        self.fixed: list[Any] = []
        self.replacements: list[Replacement] = []
        self.unqualified: list[int] = []  # where variables stand that lose a qualifier

    def fixed_entities(self) -> list[Any]:
        """Return the moved types, enumerators and functions, whose names can't change."""
        found = []
        for cursor in self.fixed:
            found.append(cursor)
            if cursor.kind == libclang.Kind.ENUM_DECL:
                found += libclang.children(cursor)
        return [cursor for cursor in found if libclang.spelling(cursor)]

    def keep(self, node: Node) -> None:
        """Leave a declaration at the top where it is."""
        self.kept += [child.cursor for child in node.children]

    def move(self, node: Node, at: int, stop: int, in_head: bool) -> bool:
        """Move a declaration that stands from unit `at` up to its semicolon at `stop`.

        Returns whether assignments are left in its place. Raises where it can't be moved.
        """
        self.cutter.check_units(at, stop)
        variables = [child for child in node.children if child.kind == syntax.VARIABLE]
        self._check(node, at, stop)
        if not variables or any(_storage(child.cursor) in _STATIC for child in variables):
            self._move_whole(node, at, stop, in_head)
            return False
        parts = parts_of(self.cutter, node, at, stop)
        if all(self.cutter.units.words[unit] in _QUALIFIERS for unit in range(parts.first, parts.behind)):
            raise Refused(node.start, "a variable without a type of its own")
        for declarator in parts.declarators:
            refuse_unmovable(self.cutter, declarator)
        self.variables += [child.cursor for child in variables]
        self.fixed += [child.cursor for child in node.children if child.kind != syntax.VARIABLE]
        self._move_parts(parts, stop, in_head)
        variables_left = [
            initialised(self.cutter, parts, one, self._cleared(parts, one) + self._lengths(one))
            for one in parts.declarators
            if one.equals is not None
        ]
        units = self.cutter.units
        if variables_left:
            joint = ", " if in_head else "; "
            self.replacements.append(Replacement(units.starts[at], units.starts[stop], variables_left, joint))
        elif not in_head:
            self._delete(at, stop)
        return bool(variables_left)

    def _check(self, node: Node, at: int, stop: int) -> None:
        units = self.cutter.units
        for unit in range(at, stop):
            if units.words[unit] in _NO_TYPE:
                raise Refused(units.starts[unit], "a variable without a type of its own")
        for child in node.children:
            check_expression(child)
            if child.kind == libclang.Kind.TYPEDEF_DECL:
                if type_behind(child.cursor).is_variable:
                    raise Refused(child.start, "a type of variable length in a block")

    def _move_whole(self, node: Node, at: int, stop: int, in_head: bool) -> None:
        units = self.cutter.units
        self.fixed += [child.cursor for child in node.children if not _is_static(child.cursor)]
        self.variables += [child.cursor for child in node.children if _is_static(child.cursor)]
        self.moved.append(Moved([(units.starts[at], units.ends[stop - 1])], [], self._comment_behind(stop, in_head)))
        if not in_head:
            self._delete(at, stop)

    def _delete(self, at: int, stop: int) -> None:
        """Leave nothing in the place of a declaration, nor an empty line."""
        units, text = self.cutter.units, self.cutter.file.text
        start, end = units.starts[at], self.cutter.behind_comments(units.ends[stop])
        line = text.rfind("\n", 0, start) + 1
        following = text.find("\n", end)
        if not text[line:start].strip() and following >= 0 and not text[end:following].strip():
            start, end = line, following + 1
        self.replacements.append(Replacement(start, end, [], ""))

    def _comment_behind(self, stop: int, in_head: bool) -> str:
        start = self.cutter.units.ends[stop]
        end = start if in_head else self.cutter.behind_comments(start)
        return self.cutter.file.text[start:end].strip()

    # -- what is written at the top

    def _move_parts(self, parts: Parts, stop: int, in_head: bool) -> None:
        units = self.cutter.units
        edits: list[Edit] = []
        for declarator in parts.declarators:
            edits += self._cleared(parts, declarator)
        edits = list({edit.start: edit for edit in edits}.values())
        specifiers = (units.starts[parts.first], units.ends[parts.behind - 1])
        whole = (specifiers[0], units.ends[parts.declarators[-1].behind - 1])
        comment = "" if any(one.equals for one in parts.declarators) else self._comment_behind(stop, in_head)
        if self._must_part(parts, edits):
            for one in parts.declarators:
                own = self._cleared(parts, one)
                span = (units.starts[one.first], units.ends[one.behind - 1])
                self.moved.append(Moved([specifiers, span], own + self._left_out(one)))
        else:
            for one in parts.declarators:
                edits += self._left_out(one)
            self.moved.append(Moved([whole], edits, comment))

    def _left_out(self, one: Declarator) -> list[Edit]:
        """Return what leaves an initialiser out, and gives an array its length."""
        units = self.cutter.units
        if one.equals is None:
            return []
        return [*self._lengths(one), Edit(units.ends[one.equals - 1], units.ends[one.behind - 1], "")]

    def _lengths(self, one: Declarator) -> list[Edit]:
        """Return what gives an array the length of its initialiser, where it has none of its own."""
        units = self.cutter.units
        at = one.name + 1
        if not (self.cutter.is_token(at, "[") and units.mates[at] == at + 1):
            return []
        type_ = type_of(one.cursor)
        return [Edit(units.starts[at + 1], units.starts[at + 1], str(type_.count))]

    def _cleared(self, parts: Parts, one: Declarator) -> list[Edit]:
        """Return what leaves out the words that a variable at the top doesn't keep."""
        own = own_words(self.cutter, parts, one)
        gone = set(_STORAGE)
        type_ = type_of(one.cursor)
        if one.equals is not None and type_.is_const:
            gone |= CONST
            if not any(self.cutter.units.words[unit] in CONST for unit in own):
                raise Refused(self.cutter.units.starts[one.name], "a variable that is const by its type's name")
        if own.start != parts.first:
            gone |= RESTRICT
        places = [*range(parts.first, parts.behind), *own] if own.start != parts.first else list(own)
        if any(self.cutter.units.words[unit] in gone - _STORAGE for unit in own):
            self.unqualified.append(self.cutter.units.starts[one.name])
        return [
            self._without(unit)
            for unit in places
            if self.cutter.units.words[unit] in (gone if unit in own else _STORAGE)
        ]

    def _without(self, unit: int) -> Edit:
        units = self.cutter.units
        end = units.ends[unit]
        while self.cutter.file.text[end: end + 1] in (" ", "\t"):
            end += 1
        return Edit(units.starts[unit], end, "")

    def _must_part(self, parts: Parts, edits: list[Edit]) -> bool:
        """Return whether the declarators need specifiers of their own."""
        if len(parts.declarators) == 1:
            return False
        words = set()
        for one in parts.declarators:
            own = self._cleared(parts, one)
            words.add(tuple(edit.start for edit in own if edit.start < self.cutter.units.ends[parts.behind - 1]))
        if len(words) > 1 and parts.tags:
            raise Refused(self.cutter.units.starts[parts.first], "a const variable declared with its type")
        return len(words) > 1


def _storage(cursor: Any) -> int:
    """Return the storage class of a cursor, as clang has it."""
    return int(libclang.storage_class(cursor))


def _is_static(cursor: Any) -> bool:
    return bool(cursor.kind == syntax.VARIABLE and _storage(cursor) == _STATIC_CLASS)
