"""Text for libclang without the bodies of functions that were read before, which takes most of its time.

What a body holds means nothing outside of it, but for directives, which stay. All offsets and lines stay as they are.
"""

from __future__ import annotations

from typing import Iterable

_MEANS_MORE = ("#", "%:", "??", "_Pragma", "__pragma")


def may_go(text: str, body: int, end: int) -> bool:
    """Return whether the body of a function, from its `{` to behind its `}`, may be left out.

    The head has to be one that a declaration has too.
    """
    before = body - 1
    while before > 0 and text[before].isspace():
        before -= 1
    whole = text[body] == "{" and text[end - 1] == "}" and text[before] == ")"
    return whole and all(text.find(mark, body, end) < 0 for mark in _MEANS_MORE)  # quicker than an expression


def without(text: str, bodies: Iterable[tuple[int, int]]) -> str:
    """Return the text with a semicolon, and white space, in the place of each of these bodies, which are in order."""
    out: list[str] = []
    at = 0
    for start, end in bodies:
        lines = text.count("\n", start, end)
        out += [text[at:start], ";", " " * (end - start - lines - 1), "\n" * lines]
        at = end
    return "".join(out) + text[at:]
