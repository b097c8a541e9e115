"""Messages in the form of a compiler, and what is raised where something can't be done."""

from __future__ import annotations

from bisect import bisect_right
from functools import lru_cache
from itertools import accumulate
from pathlib import Path

from .records import dataclass


@dataclass
class Message:
    """One message at a place of a file; `kind` is `error`, `warning` or `note`."""

    path: Path
    line: int
    column: int
    kind: str
    text: str
    source_line: str = ""

    def __str__(self) -> str:
        head = f"{self.path}:{self.line}:{self.column}: {self.kind}: {self.text}"
        if not self.source_line:
            return head
        front = self.source_line[: self.column - 1]
        caret = "".join(mark if mark == "\t" else " " for mark in front) + "^"
        return f"{head}\n{self.source_line}\n{caret}"


class Refused(Exception):
    """A function that isn't restructured: the offset in the file of what stands in the way, and why.

    `in_group` says that it is a group of directives, which may be resolved; `named_at` is a place in one that is else a
    piece.
    """

    def __init__(self, offset: int, why: str, in_group: bool = False, named_at: int | None = None) -> None:
        super().__init__(why)
        self.offset = offset
        self.why = why
        self.in_group = in_group
        self.named_at = named_at


class Unreadable(Exception):
    """A file that can't be read, with the messages that say why."""

    def __init__(self, messages: list[Message]) -> None:
        super().__init__("\n".join(map(str, messages)))
        self.messages = messages


class Fault(Exception):
    """A fault of regoto-c itself: what was put together isn't what was proved."""


@lru_cache(maxsize=2)
def _line_starts(text: str) -> list[int]:
    """Return where the lines of a text begin."""
    return list(accumulate((len(line) + 1 for line in text.split("\n")), initial=0))


def message_at(path: Path, text: str, offset: int, kind: str, why: str) -> Message:
    """Return the message `why` at `offset` of the file at `path`, whose bytes are `text` (latin-1)."""
    starts = _line_starts(text)
    line_number = bisect_right(starts, offset)
    start = starts[line_number - 1]
    end = text.find("\n", offset)
    line = text[start: end if end >= 0 else len(text)].rstrip("\r")
    shown = line.encode("latin-1").decode("utf-8", "replace")
    return Message(path, line_number, offset - start + 1, kind, why, shown)
