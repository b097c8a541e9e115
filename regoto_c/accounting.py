"""Accounting: what each token of a body belongs to, what each name means, and which type each variable has."""

from __future__ import annotations

import re
from collections import Counter
from typing import TYPE_CHECKING, Any, Iterator

from . import forms, libclang
from .clang_types import Type, type_of
from .forms import Items
from .lexing import TokenKind
from .libclang import Kind
from .messages import Fault
from .records import dataclass

if TYPE_CHECKING:
    from .cutting import Cutter

_WORDS: dict[str, tuple[type, ...]] = {
    "if": (forms.If,), "while": (forms.While, forms.DoWhile), "do": (forms.DoWhile,), "for": (forms.For,),
    "switch": (forms.Switch,), "goto": (forms.Goto,), "break": (forms.Break,), "continue": (forms.Continue,),
    "return": (forms.Return,),
}
_PLACE = re.compile(r" at [^()]*:\d+:\d+\)")
_EXTERN = 2  # as libclang has it
_MARKS = frozenset("( ) { } ; : else <% %>".split())
_CORE_MARKS = frozenset("! && || = ? 0 1".split())
_IGNORED = (TokenKind.COMMENT, TokenKind.CONTINUATION)


def account(cutter: Cutter, items: Items, core_names: frozenset[str] = frozenset()) -> None:
    """Look whether each token of a body is a piece's, a declaration's, or one of the words and marks of its items.

    Raises `Fault` where one is left over, or is two pieces'.
    """
    pieces = sorted((piece.start, piece.end) for piece in cutter.pieces.values() if piece.name not in cutter.doubles)
    for (_, end), (start, _) in zip(pieces, pieces[1:]):
        if start < end:
            raise _fault(cutter, start, "two pieces have a token in common")
    spans = sorted([(cutter.function.body, cutter.kept_end), *pieces, *cutter.spans])
    known = _MARKS | cutter.labels | (core_names | _CORE_MARKS if core_names else frozenset())
    counts: Counter[str] = Counter()
    for offset, word in _left_over(cutter, spans):
        counts[word] += 1
        if word not in known and word not in _WORDS:
            raise _fault(cutter, offset, f"'{word}' is lost")
    every = Counter(map(type, _every(items)))
    for word, kinds in _WORDS.items():
        if counts[word] + cutter.hidden[word] != sum(every[kind] for kind in kinds):
            raise _fault(cutter, cutter.function.body, f"'{word}' doesn't stand as often as it should")


def _fault(cutter: Cutter, offset: int, what: str) -> Fault:
    line = cutter.file.text.count("\n", 0, offset) + 1
    return Fault(f"{cutter.function.name}, line {line}: {what}")


def _left_over(cutter: Cutter, spans: list[tuple[int, int]]) -> Iterator[tuple[int, str]]:
    """Give the tokens of the body that lie in none of these spans, which are in order."""
    tokens = cutter.file.tokens
    at = tokens.first_from(cutter.function.body)
    for start, end in [*spans, (cutter.function.end, cutter.function.end)]:
        while at < len(tokens) and tokens.offsets[at] < start:
            if tokens.kinds[at] not in _IGNORED:
                yield tokens.offsets[at], tokens.spellings[at]
            at += 1
        at = max(at, tokens.first_from(end))


def _every(items: Items) -> Iterator[forms.Item]:
    """Give all items, at any depth."""
    for item in items:
        yield item
        for name in ("then", "other", "body"):
            if hasattr(item, name):
                yield from _every(getattr(item, name))


@dataclass
class Use:
    """What a name means: the name, the offset where a variable at the top is declared, else -1, and where it belongs."""

    name: str
    offset: int
    where: str
    count: int = 0


def uses_of(cutter: Cutter) -> list[Use]:
    """Return how often the body names each variable, function and enumerator, and what it means by it."""
    top = {libclang.identity(cursor) for cursor in _variables(cutter)}
    inner = {libclang.identity(cursor) for cursor in cutter.syntax.variables} - top
    found: dict[int, Use] = {}
    numbers: dict[int, int] = {}  # of declarations, by where libclang has them
    for cursor in cutter.syntax.references:
        if cursor.kind != Kind.DECL_REF_EXPR:
            continue
        entity = libclang.referenced(cursor)
        if entity is None:
            continue
        number = numbers.get(entity.first) or numbers.setdefault(entity.first, libclang.identity(entity))
        if number not in found:
            name = libclang.spelling(entity)
            if number in top:
                found[number] = Use(name, libclang.name_offset(entity), "top")
            elif number in inner:
                found[number] = Use(_own_name(cutter, entity), -1, "piece")
            else:
                found[number] = Use(name, -1, "parameter" if entity.kind == Kind.PARM_DECL else "outside")
        found[number].count += 1
    return list(found.values())


def named(uses: list[Use], renames: dict[int, str]) -> Counter[tuple[str, str]]:
    """Return how often each name is used, by where it belongs; a variable at the top counts by its new name."""
    counts: Counter[tuple[str, str]] = Counter()
    for use in uses:
        counts[renames.get(use.offset, use.name), use.where] += use.count
    return counts


def _own_name(cutter: Cutter, variable: Any) -> str:
    """Return the name of a variable, or the macro that makes it: a name may be made of the number of a line."""
    name, offset = libclang.spelling(variable), libclang.name_offset(variable)
    if cutter.file.text.startswith(name, offset):
        return name
    invocation = cutter.file.invocation_at(offset)
    return f"{invocation.name}()" if invocation else name


def types_of(cutter: Cutter) -> list[tuple[int, str, str]]:
    """Return the offset, the name and the type of each variable at the top, without `const` and `restrict` of its own."""
    return [(libclang.name_offset(cursor), libclang.spelling(cursor), _type_name(type_of(cursor)))
            for cursor in _variables(cutter)]


def _variables(cutter: Cutter) -> list[Any]:
    """Return the variables at the top that no other function has."""
    return [
        cursor
        for cursor in cutter.declarations.kept + cutter.declarations.variables
        if cursor.kind == Kind.VAR_DECL and libclang.storage_class(cursor) != _EXTERN
    ]


def _type_name(type_: Type) -> str:
    """Return the name of a type, without `const` and `restrict` of the variable itself."""
    words = _PLACE.sub("", type_.spelling)  # of a type without a name
    if "[" in words and "(*" not in words or "*" not in words:
        return words.replace("const ", "").replace("const", "")
    front, star, own = words.partition("(*") if "(*" in words else words.rpartition("*")
    qualifiers, mark, rest = own.partition(")")
    left = " ".join(word for word in qualifiers.split() if word not in ("const", "restrict"))
    return front + star + left + mark + rest
