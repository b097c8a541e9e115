"""Pieces: the parts of a body that stand as calls of unknown functions, and when a part isn't like one."""

from __future__ import annotations

import re
from enum import Enum
from typing import Any

from . import libclang, syntax
from .libclang import Kind
from .messages import Refused
from .reading import SourceFile
from .records import dataclass
from .syntax import Node, Syntax


class Form(Enum):
    """As what a piece stands in the source; the value begins its name and is followed by the type of its call."""

    STATEMENTS = "s"
    PART = "p"
    TEST = "t"
    SELECTOR = "q"
    VALUE = "v"


@dataclass
class Piece:
    """The bytes from `start` to `end` of the source.

    A `scoped` piece has declarations of its own and needs braces around it. `yields_truth` says of a test that its
    value is 0 or 1, `whole` of a value that the word `return` is part of it. `kind` is the type of a selector.
    """

    name: str
    form: Form
    start: int
    end: int
    kind: str = "int"
    scoped: bool = False
    yields_truth: bool = False
    whole: bool = False

    @property
    def prototype(self) -> str:
        """The declaration of the function that stands for the piece."""
        result = "void" if self.form in (Form.STATEMENTS, Form.PART) else self.kind
        return f"{result} {self.name}(void);"


_RETURNS_TWICE = frozenset("""
    setjmp _setjmp __setjmp sigsetjmp __sigsetjmp _sigsetjmp __builtin_setjmp savectx vfork __vfork getcontext
    """.split())
_FUNCTION = Kind.FUNCTION_DECL
_WORDS = re.compile(r"[A-Za-z_]\w*")

_CONCERNS = {
    "compound literal": "the life of a compound literal whose address is taken ends with its block",
    "type defined in an expression": "a type is defined in an expression",
}


def returns_twice(file: SourceFile, tree: Syntax, words: set[str]) -> tuple[int, str] | None:
    """Return where a function of these words names another that may return twice, and which; None if it names none."""
    looks_at_all = file.mentions("returns_twice")
    if not looks_at_all and not (words | file.words_behind(words)) & _RETURNS_TWICE:
        return None
    for cursor in tree.references:
        entity = libclang.referenced(cursor)
        if entity is None or entity.kind != _FUNCTION:
            continue
        number = libclang.identity(entity)
        if number not in file.returning_twice:
            file.returning_twice[number] = _does_return_twice(entity)
        if file.returning_twice[number]:
            return libclang.name_offset(cursor), libclang.spelling(entity)
    return None


def _does_return_twice(function: Any) -> bool:
    """Return whether a function may return twice, by its name or by an attribute."""
    if libclang.spelling(function) in _RETURNS_TWICE:
        return True
    has_attribute = any(child.kind == Kind.UNEXPOSED_ATTR for child in libclang.children(function))
    return has_attribute and "returns_twice" in libclang.printed(function)


def words_of(text: str) -> list[str]:
    """Return the names and keywords in a text."""
    return _WORDS.findall(text)


def check_statement(node: Node) -> None:
    """Raise `Refused` where an opaque statement isn't like an unknown call."""
    for concern in syntax.concerns_of(node):
        raise Refused(concern.offset, _CONCERNS[concern.what])


def check_expression(node: Node) -> None:
    """Raise `Refused` where an expression isn't like an unknown call."""
    if not node.is_opaque:
        raise Refused(node.start, "a jump out of a statement expression, or a label in one")
    check_statement(node)
