"""Edits of a text, and where an offset lies before and after them."""

from __future__ import annotations

from bisect import bisect_left
from itertools import accumulate
from typing import Sequence

from .records import dataclass


@dataclass
class Edit:
    """The text that takes the place of the bytes from `start` to `end` of a file."""

    start: int
    end: int
    text: str


def edited(text: str, edits: Sequence[Edit]) -> str:
    """Return `text` with all edits made, which don't overlap."""
    out: list[str] = []
    at = 0
    for edit in sorted(edits, key=lambda edit: edit.start):
        out += [text[at: edit.start], edit.text]
        at = edit.end
    return "".join(out) + text[at:]


def unedited(text: str, edits: list[Edit], offset: int) -> int:
    """Return where in `text` an offset of the text with these edits lies; inside of one, as far as they are alike."""
    moved = 0
    for edit in sorted(edits, key=lambda edit: edit.start):
        if offset < edit.start + moved:
            break
        if offset < edit.start + moved + len(edit.text):
            pairs = enumerate(zip(edit.text, text[edit.start: edit.end]))
            alike = next((at for at, (new, old) in pairs if new != old), min(len(edit.text), edit.end - edit.start))
            return edit.start + min(offset - edit.start - moved, alike)
        moved += len(edit.text) - (edit.end - edit.start)
    return offset - moved


class Shift:
    """Where the offsets of a text lie in the text with some edits."""

    def __init__(self, edits: list[Edit]) -> None:
        ordered = sorted(edits, key=lambda edit: edit.start)
        self.starts = [edit.start for edit in ordered]
        self.sums = [0, *accumulate(len(edit.text) - (edit.end - edit.start) for edit in ordered)]

    def of(self, offset: int) -> int:
        """Return where an offset lies; what is put in at the offset itself stands behind it."""
        return offset + self.sums[bisect_left(self.starts, offset)]
