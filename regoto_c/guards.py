"""Statements that come into braces of their own, laid out anew: each line one step further in."""

from __future__ import annotations

from collections import Counter
from typing import Sequence

from .reading import Edit
from .words import Token


def white_before(text: str, offset: int) -> str:
    """Return the white space at the front of the line in which an offset lies."""
    line = text[text.rfind("\n", 0, offset) + 1:offset]
    return line[:len(line) - len(line.lstrip(" \t"))]


def further_in(white: str, step: str, count: int) -> str:
    """Return white space so many steps further in; spaces go behind it and tabs before it, since a tab may take spaces in."""
    return step * count + white if step == "\t" else white + step * count


Part = tuple[int, int, str]


def guards(text: str, tokens: Sequence[Token], parts: Sequence[Part], step: str) -> list[Edit]:
    """Return the edits that put parts of a text in braces, each from the index of a token to that of its last one.

    What stands before the code of a part is its head, with the opening brace. Of two parts one holds the other, or they
    have no token in common.
    """
    heads: dict[int, list[str]] = {}
    lines: Counter[int] = Counter()
    edits: list[Edit] = []
    ends: list[Edit] = []
    for first, last, head in parts:
        depth = sum(low < first and last <= high for low, high, _ in parts)
        start, end = tokens[first].start, tokens[last].end
        white = further_in(_white(text, tokens, first), step, depth)
        line = text.rfind("\n", 0, start) + 1
        begins = tokens[first].is_directive or not text[line:start].strip()
        if begins:
            heads.setdefault(line, []).append(f"{white}{head}\n")
        else:
            edits.append(Edit(start, start, head + " "))
        if begins or "\n" in text[start:end]:
            ends.append(Edit(_end_of_line(text, end), 0, f"\n{white}}}"))
        else:
            ends.append(Edit(end, 0, " }"))
        lines.update(_lines(text, line if begins else start, end))
    inside = {at for token in tokens for at in _lines(text, token.start + 1, token.end)}
    for line in sorted({*heads, *lines}):
        moved = _moved(text, line, step, 0 if line in inside else lines[line])
        edits.append(Edit(line, moved.end, "".join(heads.get(line, [])) + moved.text))
    return edits + [Edit(one.start, one.start, one.text) for one in _innermost_first(parts, ends)]


def _innermost_first(parts: Sequence[Part], ends: Sequence[Edit]) -> list[Edit]:
    return [end for _, end in sorted(zip(parts, ends), key=lambda each: -each[0][0])]


def _moved(text: str, line: int, step: str, count: int) -> Edit:
    """Return the edit of the front of a line that moves it so many steps; a directive and an empty line stay."""
    behind = line
    while text[behind:behind + 1] in (" ", "\t"):
        behind += 1
    white, stays = text[line:behind], text[behind:behind + 1] in ("#", "\n", "\r")
    return Edit(line, behind, white if stays else further_in(white, step, count))


def _white(text: str, tokens: Sequence[Token], at: int) -> str:
    """Return the white space before a token, or before the next one that is no directive."""
    while tokens[at].is_directive and at + 1 < len(tokens):
        at += 1
    return white_before(text, tokens[at].start)


def _lines(text: str, start: int, end: int) -> list[int]:
    """Return the offsets from one up to another at which a line begins."""
    found = [start] if start == 0 or text[start - 1] == "\n" else []
    at = text.find("\n", start, end)
    while at >= 0:
        if at + 1 < end:
            found.append(at + 1)
        at = text.find("\n", at + 1, end)
    return found


def _end_of_line(text: str, offset: int) -> int:
    """Return the end of the line behind an offset if but a comment stands there, else the offset."""
    line = text.find("\n", offset)
    rest = text[offset:line].strip()
    is_comment = rest.startswith("//") or rest.startswith("/*") and rest.find("*/") == len(rest) - 2
    return line if line >= 0 and (not rest or is_comment) else offset
