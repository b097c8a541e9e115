"""What is asked for one file, and what became of it."""

from __future__ import annotations

from pathlib import Path

from .edits import Edit
from .messages import Message
from .records import dataclass, field

Trail = list[tuple[str, list[Edit]]]


@dataclass
class Options:
    """What the command line asks for.

    `jobs` is how many processes may work on the file, `reports` says whether the moves are asked for.
    """

    core: Path
    functions: frozenset[str] = frozenset()
    configured: bool = False
    tidy: bool = False
    jobs: int = 1
    reports: bool = False


@dataclass
class Outcome:
    """What became of a file: its text, the messages, and how many functions have a goto and lost it.

    `text` is that of the source where nothing is done. `trail` has the text and the edits that were made before
    cutting, for each time that the file was read again.
    """

    path: Path
    text: str
    messages: list[Message] = field(default_factory=list)
    found: int = 0
    done: int = 0
    report: list[str] = field(default_factory=list)
    notes: list[Message] = field(default_factory=list)
    names: list[str] = field(default_factory=list)
    trail: Trail = field(default_factory=list)
