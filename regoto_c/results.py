"""What is asked for a file of the command line, what became of it, and how that is written."""

from __future__ import annotations

import os
from pathlib import Path

from .messages import Message
from .options import Options
from .records import dataclass, field

DONE, LEFT, WORDS, UNREADABLE, FAULT = 0, 1, 2, 3, 70


@dataclass
class Request:
    """A file, and how it is to be read."""

    path: Path
    flags: list[str]
    options: Options


@dataclass
class Result:
    """What became of a file; `text` is None where nothing can be written for it."""

    path: Path
    status: int = DONE
    source: str = ""
    text: str | None = None
    messages: list[Message] = field(default_factory=list)
    notes: list[Message] = field(default_factory=list)
    names: list[str] = field(default_factory=list)
    found: int = 0
    done: int = 0
    report: list[str] = field(default_factory=list)


def difference(result: Result) -> str:
    """Return the unified diff from a file to its result."""
    import difflib  # slow to load

    assert result.text is not None
    old, new = result.source.splitlines(keepends=True), result.text.splitlines(keepends=True)
    lines = difflib.unified_diff(old, new, f"{result.path}", f"{result.path}")
    return "".join(line if line.endswith("\n") else line + "\n\\ No newline at end of file\n" for line in lines)


def replace(path: Path, text: str) -> None:
    """Put a new file in the place of one, with its rights; the old one is there until the new one is whole."""
    import tempfile  # slow to load

    path = path.resolve()
    handle, name = tempfile.mkstemp(prefix=f".{path.name}.", dir=path.parent)
    try:
        with os.fdopen(handle, "wb") as file:
            file.write(text.encode("latin-1"))
        os.chmod(name, path.stat().st_mode & 0o7777)
        os.replace(name, path)
    except BaseException:
        os.unlink(name)
        raise
