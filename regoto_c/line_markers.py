"""Preprocessed text made fit for restructuring, and made whole again.

In blocks of functions with a goto the line markers go, and one behind the block brings the lines back. The bodies of
inline functions of system headers, which libclang may not know how to read, are taken out and put back.
"""

from __future__ import annotations

import re
from dataclasses import dataclass, field

from .messages import Message, message_at
from .edits import Edit, edited, unedited

_MARKER = r'^[ \t]*#[ \t]*(?:line[ \t]+)?\d+[ \t]+"[^"\n]*"[^\n]*'
_SCAN = re.compile(rf'(?P<marker>{_MARKER})|"(?:\\.|[^"\\\n])*"|\'(?:\\.|[^\'\\\n])*\'|[{{}};]|\bgoto\b', re.MULTILINE)
_NUMBER = re.compile(r'[ \t]*#[ \t]*(?:line[ \t]+)?(\d+)([ \t]+"[^"\n]*"[^\n]*)')
_INLINE = re.compile(r"\b(?:inline|__inline|__inline__)\b.*\)\s*$", re.DOTALL)
_ENTERS = re.compile(r" [12]\b")  # the file is entered or left
_STUB = ";/*@regoto_c@{}*/"


@dataclass
class Prepared:
    """Preprocessed text that is fit for restructuring.

    `edits` made it of the source, and `blocks` has what each block that isn't as it was before was made of.
    """

    text: str
    has_goto: bool = False
    edits: list[Edit] = field(default_factory=list)
    blocks: dict[str, str] = field(default_factory=dict)

    def whole(self, text: str) -> str:
        """Return a text, made from this one, in which blocks that weren't restructured are as they were before."""
        for new, old in self.blocks.items():
            text = text.replace(new, old)
        return text

    def place(self, source: str, message: Message) -> Message:
        """Return a message on this text as one on its source."""
        start = 0
        for _ in range(message.line - 1):
            start = self.text.index("\n", start) + 1
        offset = unedited(source, self.edits, start + message.column - 1)
        return message_at(message.path, source, offset, message.kind, message.text)


@dataclass
class _Block:
    """A block at the top of a file: where it begins, the markers in it, and whether a goto stands in it."""

    start: int
    head: str
    in_system_header: bool
    markers: list[tuple[int, int]] = field(default_factory=list)
    has_goto: bool = False


class _Scan:
    """One pass over the text."""

    def __init__(self, text: str) -> None:
        self.text = text
        self.edits: list[Edit] = []
        self.blocks: dict[str, str] = {}
        self.has_goto = False
        self.marker, self.marker_end = "", 0
        self.boundary = 0

    def run(self) -> Prepared:
        """Return the text as it is prepared."""
        depth, block = 0, _Block(0, "", False)
        for found in _SCAN.finditer(self.text):
            word = found.group()
            if found.group("marker") is not None:
                self.marker, self.marker_end = word, found.end()
                block.markers.append(found.span())
            elif word == "{":
                if depth == 0:
                    head = self.text[self.boundary:found.start()]
                    block = _Block(found.start(), head, self._in_system_header())
                depth += 1
            elif word == "}":
                depth -= 1
                if depth == 0:
                    self._end(block, found.end())
                    block = _Block(0, "", False)
            elif word == "goto":
                block.has_goto = True
            if depth == 0:
                self.boundary = found.end() if word[0] in "};#" else self.boundary
        return Prepared(edited(self.text, self.edits), self.has_goto, self.edits, self.blocks)

    def _in_system_header(self) -> bool:
        found = _NUMBER.match(self.marker)
        return found is not None and " 3" in found.group(2).rsplit('"', 1)[1]

    def _end(self, block: _Block, end: int) -> None:
        """Note what is to be done with a block."""
        if block.in_system_header:
            if _INLINE.search(block.head):
                stub = _STUB.format(len(self.blocks)) + self._lines_again(block, end)
                self.edits.append(Edit(block.start, end, stub))
                self.blocks[stub] = self.text[block.start:end]
        elif block.has_goto:
            self.has_goto = True
            edits = [Edit(start, stop, "") for start, stop in block.markers]
            if edits:
                edits.append(Edit(end, end, self._lines_again(block, end)))
                inside = [Edit(edit.start - block.start, edit.end - block.start, edit.text) for edit in edits]
                old = self.text[block.start:end]
                self.blocks[edited(old, inside)] = old
            self.edits += edits

    def _lines_again(self, block: _Block, end: int) -> str:
        """Return a marker that says on which line the text behind a block stands."""
        found = _NUMBER.match(self.marker)
        if not found:
            return ""
        line = int(found.group(1)) + self.text.count("\n", self.marker_end, end) - 1
        name, flags = found.group(2).rsplit('"', 1)
        return f'\n# {line}{name}"{_ENTERS.sub("", flags)}\n'


def prepare(text: str) -> Prepared:
    """Return preprocessed text made fit for restructuring."""
    return _Scan(text).run()
