"""Which assignment does what an initialiser did."""

from __future__ import annotations

from typing import Callable

from . import libclang
from .clang_library import Cursor
from .clang_types import Type, TypeKind, type_of
from .declarators import Declarator, Parts
from .ground import Ground
from .libclang import Kind
from .messages import Refused
from .reading import Edit
from .records import dataclass
from .units import UnitKind

Render = Callable[[int, int, list[Edit]], str]

_PLAIN_TYPE = frozenset("__attribute__ __attribute typeof __typeof __typeof__ _Alignas alignas".split())


@dataclass
class Initialised:
    """A variable whose initialiser becomes an assignment; all numbers are offsets.

    `form` is `plain` for an assignment, `compound` for one of a compound literal, `array` for a copy of a compound
    literal's bytes, `text` for one that has to be made of a string, `bytes` for a copy of a string's own bytes, and
    `zero` where all bytes become 0.
    """

    name: tuple[int, int]
    type_spans: list[tuple[int, int]] | None
    edits: list[Edit]
    value: tuple[int, int]
    form: str

    def assignment(self, render: Render, copy: str) -> str:
        """Return the assignment as an expression; `copy` is the name of the function that copies bytes."""
        name = render(*self.name, [])
        value = "" if self.form == "zero" else render(*self.value, []).strip()
        match self.form:
            case "plain":
                return f"{name} = {value}"
            case "compound":
                return f"{name} = ({self._type(render, name)}){value}"
            case "zero":
                return f"{copy.replace('memcpy', 'memset')}({name}, 0, sizeof {name})"
            case "bytes":
                return f"{copy}({name}, {value}, sizeof {name})"
            case "text":
                value = f"{{{value}}}"
        return f"{copy}({name}, ({self._type(render, name)}){value}, sizeof {name})"

    def _type(self, render: Render, name: str) -> str:
        if self.type_spans is None:
            return f"__typeof__({name})"
        words = [render(start, end, self.edits).strip() for start, end in self.type_spans if start < end]
        return " ".join(word for word in words if word)


def initialised(ground: Ground, parts: Parts, one: Declarator, edits: list[Edit]) -> Initialised:
    """Return what becomes of the initialiser of `one`; `edits` make its declaration one without it.

    Raises `Refused` where no assignment does the same.
    """
    units = ground.units
    assert one.equals is not None
    value = (one.equals + 1, one.behind)
    type_ = type_of(one.cursor)
    start = units.starts[one.name]
    if type_.has_const_member:
        raise Refused(start, "a variable with a member that is const")
    form = _form(ground, type_, one.cursor, *value)
    if form != "plain" and _is_special(type_):
        raise Refused(start, "a volatile or atomic variable with an initialiser of this form")
    return Initialised(
        (start, units.ends[one.name]),
        _type_spans(ground, parts, one),
        edits,
        (units.starts[value[0]], units.ends[value[1] - 1]),
        form,
    )


def _form(ground: Ground, type_: Type, cursor: Cursor, first: int, behind: int) -> str:
    braces = ground.is_token(first, "{")
    if ground.units.kinds[first] is UnitKind.INVOCATION:
        braces = libclang.children(cursor)[-1].kind == Kind.INIT_LIST_EXPR
    if type_.kind != TypeKind.CONSTANTARRAY:
        return "compound" if braces else "plain"
    words = ground.units.words[first:behind]
    if words in (["{", "}"], ["{", "0", "}"], ["{", "0", ",", "}"], ['""']):
        return "zero"
    if braces:
        return "array"
    has_its_length = ground.is_token(first - 2, "]") and ground.is_token(first - 3, "[")
    return "bytes" if has_its_length else "text"


def _is_special(type_: Type) -> bool:
    """Return whether a copy of bytes, or a whole structure, can't be written into a variable of a type."""
    inner = type_
    while inner.kind == TypeKind.CONSTANTARRAY:
        inner = inner.element
    is_array = inner is not type_
    return "_Atomic" in inner.spelling or (is_array and type_.is_volatile)


def _type_spans(ground: Ground, parts: Parts, one: Declarator) -> list[tuple[int, int]] | None:
    """Return the stretches that name the type, or None where only the variable names it well."""
    units = ground.units
    places = [*range(parts.first, parts.behind), *range(one.first, one.end)]
    plain = all(units.kinds[at] is UnitKind.TOKEN and units.words[at] not in _PLAIN_TYPE for at in places)
    if parts.tags or not plain:
        return None
    return [
        (units.starts[parts.first], units.ends[parts.behind - 1]),
        (units.starts[one.first], units.starts[one.name]),
        (units.ends[one.name], units.ends[one.end - 1]),
    ]
