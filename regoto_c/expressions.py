"""How tightly an expression binds, whether its value is 0 or 1, and of which kind a selector is."""

from __future__ import annotations

import re
from typing import Any

from . import libclang
from .clang_types import TypeKind, type_of
from .ground import Ground
from .lexing import TokenKind, tokens_of
from .libclang import Kind
from .reading import SourceFile
from .syntax import Node
from .units import UnitKind

COMMA, ASSIGNMENT, CONDITIONAL, OR, AND, EQUALITY, RELATIONAL, TIGHT = 0, 1, 2, 3, 4, 8, 9, 13

_LEVELS = {
    ",": COMMA, "?": CONDITIONAL, ":": CONDITIONAL, "||": OR, "&&": AND, "|": 5, "^": 6, "&": 7,
    "==": EQUALITY, "!=": EQUALITY, "<": RELATIONAL, ">": RELATIONAL, "<=": RELATIONAL, ">=": RELATIONAL,
    "<<": 10, ">>": 10, "+": 11, "-": 11, "*": 12, "/": 12, "%": 12,
    **{mark: ASSIGNMENT for mark in "= += -= *= /= %= <<= >>= &= ^= |=".split()},
}
_PREFIXES = frozenset("& * + -".split())
_BEFORE_PREFIX = frozenset("( [ { , ? : || && | ^ & == != < > <= >= << >> + - * / % ! ~ sizeof return".split()) | {
    mark for mark, level in _LEVELS.items() if level == ASSIGNMENT}
_HEAD = re.compile(r"[A-Za-z_$][\w$]*(\(([^)]*)\))?")


def level(ground: Ground, first: int, behind: int) -> int:
    """Return how tightly the loosest mark binds in the units from `first` up to `behind`, outside of brackets."""
    units = ground.units
    loosest, before, at = TIGHT, "(", first
    while at < behind:
        word = units.words[at]
        if units.kinds[at] is UnitKind.TOKEN:
            loosest = min(loosest, _mark_level(word, before))
            at = units.mates.get(at, at)
            before = units.words[at]
        else:
            loosest = min(loosest, _macro_level(ground.file, units.starts[at], frozenset()))
            before = "macro"
        at += 1
    return loosest


def _mark_level(word: str, before: str) -> int:
    if word in _PREFIXES and before in _BEFORE_PREFIX:
        return TIGHT
    return _LEVELS.get(word, TIGHT)


def _macro_level(file: SourceFile, offset: int, seen: frozenset[str]) -> int:
    invocation = file.invocation_at(offset)
    return COMMA if invocation is None else _text_level(file, invocation.name, seen)


def _text_level(file: SourceFile, name: str, seen: frozenset[str]) -> int:
    """Return the level of a macro's text; a parameter outside of brackets may be anything."""
    text = file.macro_text(name)
    if text is None or name in seen:
        return TIGHT
    head = _HEAD.match(text)
    if head is None:
        return COMMA
    parameters = set(re.findall(r"[A-Za-z_$][\w$]*", head.group(2) or ""))
    tokens = tokens_of(text[head.end():])
    loosest, before, depth = TIGHT, "(", 0
    for kind, word in zip(tokens.kinds, tokens.spellings):
        if kind is TokenKind.COMMENT or kind is TokenKind.CONTINUATION:
            continue
        if word in ")]}":
            depth -= 1
        if depth == 0:
            if word in parameters:
                return COMMA
            known = kind is TokenKind.NAME and word in file.macros
            found = _text_level(file, word, seen | {name}) if known else _mark_level(word, before)
            loosest = min(loosest, found)
        if word in "([{":
            depth += 1
        before = word
    return loosest


def is_truth(ground: Ground, node: Node, first: int, behind: int) -> bool:
    """Return whether a test has the value 0 or 1: a comparison, `!`, `&&`, `||`, or a truth value by its type."""
    if type_of(node.cursor).kind == TypeKind.BOOL:
        return True
    units = ground.units
    while ground.is_token(first, "(") and units.mates[first] == behind - 1:
        first, behind = first + 1, behind - 1
    loosest = level(ground, first, behind)
    if loosest in (OR, AND, EQUALITY, RELATIONAL):
        return True
    return loosest == TIGHT and ground.is_token(first, "!")


def kind_of(file: SourceFile, cursor: Any) -> str | None:
    """Return the kind of a selector, or None where it is wider than `long`."""
    kind = type_of(cursor)
    if kind.kind == TypeKind.ENUM:
        kind = kind.of_enumeration
    size = kind.size
    unsigned = kind.kind in (TypeKind.UINT, TypeKind.ULONG, TypeKind.ULONGLONG, TypeKind.UINT128)
    if size <= 4:
        return "unsigned" if unsigned and size == 4 else "int"
    if size > 8 or _long_size(file) < 8:
        return None
    return "unsigned long" if unsigned else "long"


def is_narrow(file: SourceFile, cursor: Any, kind: str) -> bool:
    """Return whether the type of a constant, before it is converted for a case label, isn't wider than a kind."""
    while cursor.kind == Kind.UNEXPOSED_EXPR and (below := libclang.children(cursor)):
        cursor = below[0]
    return bool(type_of(cursor).size <= (4 if kind in ("int", "unsigned") else 8))


def _long_size(file: SourceFile) -> int:
    """Return the size of `long` for the flags of a file."""
    text = file.macro_text("__SIZEOF_LONG__")
    return int(text.split()[-1]) if text else 8


def reduced(value: int, kind: str) -> int:
    """Return a value as one of a kind holds it."""
    bits = 32 if kind in ("int", "unsigned") else 64
    value %= 1 << bits
    return value - (1 << bits) if not kind.startswith("unsigned") and value >= 1 << (bits - 1) else value
