"""Indentation: how a function is laid out, and how a stretch of it is shifted and edited."""

from __future__ import annotations

from bisect import bisect_left, bisect_right
from typing import TYPE_CHECKING

from . import syntax
from .lexing import TokenKind
from .reading import Edit, edited
from .units import UnitKind

if TYPE_CHECKING:
    from .cutting import Cutter

_TAB = 8
_DEFAULT_STEP = 4
_FIXED = (TokenKind.STRING, TokenKind.DIRECTIVE, TokenKind.CHARACTER)


def width(white: str) -> int:
    """Return how many columns white space takes."""
    columns = 0
    for mark in white:
        columns = columns + 1 if mark != "\t" else (columns // _TAB + 1) * _TAB
    return columns


class Layout:
    """How a function is indented: its own columns, the columns of a step, tabs, the end of a line, its case labels."""

    def __init__(self, cutter: Cutter) -> None:
        self.text = cutter.file.text
        self.cutter = cutter
        function = cutter.function
        newline = self.text.find("\n", function.body)
        self.newline = "\r\n" if newline > 0 and self.text[newline - 1] == "\r" else "\n"
        self.base = self.columns_at(function.end - 1 if self.begins_line(function.end - 1) else function.body)
        self.tabs = "\n\t" in self.text[function.body: function.end]
        self.step = self._measured()
        self.case_step = self._case_step()

    def leading(self, offset: int) -> str:
        """Return the white space at the front of the line in which an offset lies."""
        start = end = self.text.rfind("\n", 0, offset) + 1
        while self.text[end: end + 1] in (" ", "\t"):
            end += 1
        return self.text[start:end]

    def columns_at(self, offset: int) -> int:
        """Return the columns by which the line is indented in which an offset lies."""
        return width(self.leading(offset))

    def begins_line(self, offset: int) -> bool:
        """Return whether only white space stands before an offset on its line."""
        return not self.text[self.text.rfind("\n", 0, offset) + 1: offset].strip()

    def columns_of(self, start: int, end: int) -> int:
        """Return the columns at which a piece stands: those of its first line that begins with a statement of it."""
        text = self.text
        first = self._behind_directives(start, end)
        line = text.find("\n", first, end)
        if line > 0 and not self.begins_line(first) and text[first:line].rstrip().endswith((";", "}", "*/")):
            return self.columns_at(self._text_from(line, end))
        return self.columns_at(first)

    def _text_from(self, start: int, end: int) -> int:
        """Return where the first text between two offsets stands, `end` where there is none."""
        return next((at for at in range(start, end) if not self.text[at].isspace()), end)

    def _behind_directives(self, start: int, end: int) -> int:
        """Return where the first text between two offsets stands that is no directive, or else the first of all."""
        first = at = self._text_from(start, end)
        while at < end and self.text[at] == "#":
            line = self.text.find("\n", at, end)
            while line > 0 and self.text[max(0, line - 2):line].endswith(("\\", "\\\r")):
                line = self.text.find("\n", line + 1, end)
            at = self._text_from(line, end) if line > 0 else end
        return at if at < end else first

    def white(self, columns: int) -> str:
        """Return the white space of so many columns."""
        if not self.tabs:
            return " " * columns
        return "\t" * (columns // _TAB) + " " * (columns % _TAB)

    def has_gap_before(self, offset: int) -> bool:
        """Return whether an empty line stands before the line in which an offset lies."""
        line = self.text.rfind("\n", 0, offset)
        before = self.text.rfind("\n", 0, max(line, 0))
        return before >= 0 and not self.text[before:line].strip()

    def _measured(self) -> int:
        units = self.cutter.units
        at = 1
        while at < len(units.starts) - 1:
            start = units.starts[at]
            found = self.columns_at(start) - self.base
            if units.kinds[at] is not UnitKind.GROUP and found > 0 and self.begins_line(start):
                return found
            at = units.mates.get(at, at) + 1
        return _DEFAULT_STEP

    def _case_step(self) -> int:
        """Return by how much case labels are indented in the first `switch` that shows it."""
        waiting = [self.cutter.syntax.body]
        while waiting:
            node = waiting.pop(0)
            if node.kind == syntax.SWITCH:
                labels = [child for child in node.children[-1].children if child.kind == syntax.CASE]
                if labels and self.begins_line(labels[0].start):
                    return max(0, self.columns_at(labels[0].start) - self.columns_at(node.start))
            waiting += node.children
        return 0

    def shifts(self, start: int, end: int, columns: int) -> list[Edit]:
        """Return what moves the lines that begin between two offsets by so many columns to the right.

        Lines that begin in a string or with a directive stay.
        """
        if columns == 0:
            return []
        edits = []
        line = self.text.find("\n", start, end)
        while line >= 0:
            white = self.leading(line + 1)
            behind = line + 1 + len(white)
            if behind < end and not self._is_fixed(line) and self.text[behind] not in "#\r\n":
                edits.append(Edit(line + 1, behind, self.white(max(0, width(white) + columns))))
            line = self.text.find("\n", line + 1, end)
        return edits

    def _is_fixed(self, newline: int) -> bool:
        tokens = self.cutter.file.tokens
        at = tokens.at(newline)
        return at >= 0 and newline < tokens.ends[at] and tokens.kinds[at] in _FIXED


class Renderer:
    """Stretches of the source with the edits of a function: new names, and assignments in the place of declarations."""

    def __init__(self, cutter: Cutter, layout: Layout, renames: dict[int, str], copy: str) -> None:
        self.text = cutter.file.text
        self.tokens = cutter.file.tokens
        self.layout = layout
        self.copy = copy
        self.renames = renames
        self.offsets = sorted(renames)
        self.replacements = sorted(cutter.declarations.replacements, key=lambda one: one.start)
        self.trailing = dict(cutter.trailing)
        self.full = 0  # how many lines there were when the last one got a comment that ends with it
        self.shift = 0

    def plain(self, start: int, end: int, edits: list[Edit]) -> str:
        """Return the bytes from `start` to `end` with these edits, new names, and lines shifted."""
        every = [edit for edit in edits if start <= edit.start and edit.end <= end]
        every += self._names(start, end)
        every += self.layout.shifts(start, end, self.shift)
        return edited(self.text[start:end], _within(every, start))

    def piece(self, start: int, end: int) -> str:
        """Return a piece with assignments where it had declarations."""
        edits = []
        for one in self.replacements:
            if one.start < end and start < one.end:
                words = [variable.assignment(self.plain, self.copy) for variable in one.variables]
                edits.append(Edit(max(one.start, start), min(one.end, end), one.comment or one.joint.join(words)))
        return self.plain(start, end, edits).strip()

    def shifted(self, start: int, end: int, columns: int) -> str:
        """Return a piece whose first line is to stand at so many columns."""
        self.shift = columns - self.layout.columns_of(start, end)
        text = self.piece(start, end)
        self.shift = 0
        return text

    def put_behind(self, asked: str | None, lines: list[str], columns: int) -> None:
        """Put the comments behind the bracket of what asks for a piece behind the last line, or below a comment with //."""
        for span in self.trailing.pop(asked or "", []):
            text = self.shifted(*span, columns)
            if self.full == len(lines):
                lines.append(self.layout.white(columns) + text)
            else:
                lines[-1] += " " + text
            self.full = len(lines) if text.startswith("//") else 0

    def _names(self, start: int, end: int) -> list[Edit]:
        low, high = bisect_left(self.offsets, start), bisect_left(self.offsets, end)
        edits = []
        for offset in self.offsets[low:high]:
            at = bisect_right(self.tokens.offsets, offset) - 1
            edits.append(Edit(offset, self.tokens.ends[at], self.renames[offset]))
        return edits


def _within(edits: list[Edit], start: int) -> list[Edit]:
    """Return edits relative to `start`, those inside of others left out."""
    found: list[Edit] = []
    for edit in sorted(edits, key=lambda one: (one.start, -one.end)):
        if not found or edit.start >= found[-1].end + start:
            found.append(Edit(edit.start - start, edit.end - start, edit.text))
    return found
