"""A text as libclang parses it, or its messages."""

from __future__ import annotations

from pathlib import Path

from .clang_units import Diagnostic, Unit, UnitError
from .messages import Message, Unreadable

_ERROR = 3
# what gcc takes with a warning
_TAKEN = [f"-Wno-{name}" for name in (
    "return-type", "implicit-function-declaration", "implicit-int", "int-conversion", "incompatible-pointer-types",
    "incompatible-function-pointer-types")]


def parsed(path: Path, text: str, flags: list[str], shown: str | None = None, detailed: bool = True) -> Unit:
    """Parse a text as the content of the file at `path`; `shown` is the text that messages show, if it is another.

    Raises `Unreadable` with clang's own messages where it has errors.
    """
    try:
        words = ["-w", "-fdouble-square-bracket-attributes", *_TAKEN, *flags]
        unit = Unit(str(path), text.encode("latin-1"), words, detailed)
    except UnitError:
        raise Unreadable([Message(path, 1, 1, "error", "libclang can't read this file with these flags")]) from None
    diagnostics = [one for one in unit.diagnostics() if one.severity >= _ERROR]
    if diagnostics:
        raise Unreadable([_message(one, path, text if shown is None else shown) for one in diagnostics])
    return unit


def _message(diagnostic: Diagnostic, path: Path, text: str) -> Message:
    """Return a message of clang's with its source line."""
    if diagnostic.file is None:
        return Message(path, 1, 1, "error", diagnostic.text)
    name = Path(diagnostic.file)
    lines = (text if name == path else _content(name)).split("\n")
    line = lines[diagnostic.line - 1].rstrip("\r") if diagnostic.line <= len(lines) else ""
    shown = line.encode("latin-1").decode("utf-8", "replace")
    return Message(name, diagnostic.line, diagnostic.column, "error", diagnostic.text, shown)


def _content(path: Path) -> str:
    """Return the text of an included file, none where it can't be read."""
    try:
        return path.read_bytes().decode("latin-1")
    except OSError:
        return ""
