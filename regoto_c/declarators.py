"""A declaration in its parts: specifiers, declarators and initialisers."""

from __future__ import annotations

from typing import Any

from . import libclang, syntax
from .clang_types import type_of
from .ground import Ground
from .libclang import Kind
from .messages import Refused
from .records import dataclass
from .syntax import Node
from .units import UnitKind

FUNCTION = Kind.FUNCTION_DECL
TYPEDEF = Kind.TYPEDEF_DECL
CONST = frozenset(("const", "__const", "__const__"))
RESTRICT = frozenset(("restrict", "__restrict", "__restrict__"))
_WITH_BRACKETS = frozenset(
    "__attribute__ __attribute typeof __typeof __typeof__ _Alignas alignas _Atomic struct union enum".split())


@dataclass
class Declarator:
    """One declarator, as units: from `first` up to `behind`, its name at `name`, its `=` at `equals` or None."""

    cursor: Any
    node: Node
    first: int
    name: int
    equals: int | None
    behind: int

    @property
    def end(self) -> int:
        """The unit behind the declarator without its initialiser."""
        return self.behind if self.equals is None else self.equals


@dataclass
class Parts:
    """A declaration: its specifiers stand from unit `first` up to unit `behind`."""

    first: int
    behind: int
    declarators: list[Declarator]
    tags: bool


def parts_of(ground: Ground, node: Node, at: int, stop: int) -> Parts:
    """Return the parts of a declaration that stands from unit `at` up to its semicolon at `stop`.

    Raises where a macro hides them, or where the declaration has another form.
    """
    declared = [child for child in node.children if child.kind in (syntax.VARIABLE, FUNCTION)]
    names = [ground.units.at(libclang.name_offset(child.cursor)) for child in declared]
    cuts = _commas(ground, at, stop)
    spans = list(zip([at, *(cut + 1 for cut in cuts)], [*cuts, stop]))
    if len(spans) != len(declared):
        raise ground.not_understood(at, "a declaration of a form that can't be moved")
    declarators = []
    for child, name, (first, behind) in zip(declared, names, spans):
        if not first <= name < behind or ground.units.kinds[name] is not UnitKind.TOKEN:
            raise ground.not_understood(first if name < first else name, "a declaration hidden in a macro")
        equals = ground.scan(name, "=", behind)
        declarators.append(Declarator(child.cursor, child, first, name, equals if equals < behind else None, behind))
    start = _declarator_start(ground, at, declarators[0].name)
    declarators[0].first = start
    tags = any(ground.is_token(unit, "{") for unit in range(at, start))
    return Parts(at, start, declarators, tags)


def _commas(ground: Ground, at: int, stop: int) -> list[int]:
    found = []
    while (cut := ground.scan(at, ",", stop)) < stop:
        found.append(cut)
        at = cut + 1
    return found


def _declarator_start(ground: Ground, at: int, name: int) -> int:
    """Return the unit at which the first declarator begins: its name, or a `*` or bracket before that."""
    units = ground.units
    before = ""
    while at < name:
        word = units.words[at]
        if units.kinds[at] is UnitKind.TOKEN:
            if word == "*" or (word in "([" and before not in _WITH_BRACKETS):
                return at
            at = units.mates.get(at, at)
        before = word
        at += 1
    return name


def own_words(ground: Ground, parts: Parts, declarator: Declarator) -> range:
    """Return the units in which the qualifiers of the variable itself stand.

    They are those between its name and the last `*` before it, or the specifiers where there is none.
    """
    for at in range(declarator.name - 1, declarator.first - 1, -1):
        if ground.is_token(at, "*"):
            return range(at + 1, declarator.name)
    return range(parts.first, parts.behind)


def refuse_unmovable(ground: Ground, declarator: Declarator) -> None:
    """Raise `Refused` where a variable can't be declared at the top of the function."""
    cursor = declarator.cursor
    start = ground.units.starts[declarator.name]
    if type_of(cursor).is_variable:
        raise Refused(start, "an array of variable length in a block")
    for child in libclang.children(cursor):
        if child.kind == Kind.ASM_LABEL_ATTR:
            raise Refused(start, "a variable in a register of its own")
        if child.kind == Kind.UNEXPOSED_ATTR and "cleanup" in libclang.printed(cursor):
            raise Refused(start, "a variable with a cleanup in a block")
