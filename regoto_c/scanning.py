"""The bodies of functions without goto, found before anything is parsed.

What is found is a guess, which libclang confirms or doesn't.
"""

from __future__ import annotations

import re

from . import hollow
from .records import dataclass, field

# each alternative begins with a letter or mark of its own, so that the search is quick
_MARKS = re.compile(
    r"""\{|\}|goto\b|"(?:\\.|[^"\\\n])*"|'(?:\\.|[^'\\\n])*'|/\*.*?\*/|//(?:\\\r?\n|[^\n])*"""
    r"""|\#(?:[^\n\\/]+|\\\r?\n|/\*.*?\*/|//(?:\\\r?\n|[^\n])*|[^\n])*|%:[^\n]*""", re.DOTALL)
_DEFINED = re.compile(r"#\s*define\s+(\w+)")
_NO_HEAD = re.compile(r"=|\b(?:__attribute__|__attribute|struct|union|enum)\s*\(")
_LONGEST_HEAD = 400


@dataclass
class Scan:
    """What stands at the top of a file: the bodies, from `{` to behind `}`, of functions without goto.

    `gotos` counts the blocks with one, and `jumping` are the macros that hold one.
    """

    bodies: list[tuple[int, int]] = field(default_factory=list)
    gotos: int = 0
    jumping: set[str] = field(default_factory=set)


def scan(text: str) -> Scan | None:
    """Return what stands at the top of a file, or None where its brackets don't match."""
    found = Scan()
    depth, start, behind, has_goto = 0, 0, 0, False
    for match in _MARKS.finditer(text):
        word = match.group()
        if word == "{":
            depth += 1
            if depth == 1:
                start, has_goto = match.start(), False
        elif word == "}":
            depth -= 1
            if depth < 0:
                return None
            if depth == 0:
                _block(found, text, behind, start, match.end(), has_goto)
                behind = match.end()
        elif word == "goto":
            has_goto = True
        elif word[0] in "#%" and "goto" in word:
            found.jumping.update(_DEFINED.findall(word))
    return _but_those_that_jump(found, text) if depth == 0 else None


def _block(found: Scan, text: str, behind: int, start: int, end: int, has_goto: bool) -> None:
    """Note a block whose head begins at `behind` or later."""
    found.gotos += has_goto
    if not has_goto and hollow.may_go(text, start, end):
        head = text[max(behind, start - _LONGEST_HEAD):start]
        if _NO_HEAD.search(head[head.rfind(";") + 1:]) is None:
            found.bodies.append((start, end))


def _but_those_that_jump(found: Scan, text: str) -> Scan:
    """Leave the bodies out that name a macro with a goto."""
    if found.jumping:
        names = re.compile(rf"\b(?:{'|'.join(found.jumping)})\b")
        found.bodies = [body for body in found.bodies if names.search(text, *body) is None]
    return found
