"""Whether the macros that a function names are all plain parts of expressions; for most functions they are."""

from __future__ import annotations

import re

from .reading import Function, SourceFile
from .words import HEADS, JUMPS, NAMES

_MORE_THAN_EXPRESSION = re.compile(r"[{};]|\[\s*\[|##|<[%:]|[%:]>|:\s*$|^\s*\w+\s*:")


def is_more_than_expression(body: str) -> bool:
    """Return whether a macro's body has marks that no balanced part of an expression has."""
    return (body.count("(") != body.count(")") or body.count("[") != body.count("]")
            or _MORE_THAN_EXPRESSION.search(body) is not None)


def macros_named(file: SourceFile, function: Function) -> set[str]:
    """Return the macros whose names are tokens of a function's body."""
    low, high = file.tokens.first_from(function.body), file.tokens.first_from(function.end)
    return {name for name in set(file.tokens.spellings[low:high]) if name in file.macros}


def may_bear(file: SourceFile, function: Function, named: set[str]) -> bool:
    """Return whether one of the macros that are named in a function may hold more than a part of an expression."""
    left, reached = list(named), set[str]()
    for invocation in file.invocations_in(function):
        left += NAMES.findall(file.text[invocation.start:invocation.end])
    while left:
        name = left.pop()
        if name in reached:
            continue
        if name in JUMPS or name in HEADS:
            return True
        reached.add(name)
        words = _words_of_plain(file, name)
        if words is None:
            return True
        left += words
    return False


def _words_of_plain(file: SourceFile, name: str) -> list[str] | None:
    """Return the names in the text of a macro, none for what isn't one, and None where it is more than an expression."""
    if name not in file.plain:
        text = file.macro_text(name) or ""
        file.plain[name] = None if is_more_than_expression(text) else NAMES.findall(text)
    return file.plain[name]
