"""Runs a compiler's preprocessor, and reads what it writes: the definitions in force, and the lines of the file."""

from __future__ import annotations

import os
import re
from contextlib import ExitStack
from functools import cached_property
from pathlib import Path
from typing import NamedTuple, Sequence

from .lexing import tokens_of
from .plain_macros import is_more_than_expression
from .records import dataclass
from .running import Running
from .words import HEADS, JUMPS, NAMES

MARKER = re.compile(r'#(?:line)? (\d+) "((?:[^"\\]|\\.)*)"')
DEFINE = re.compile(r"#\s*define\s+([^\s(]+)(\([^)]*\))?\s*(.*)", re.DOTALL)
UNDEFINE = re.compile(r"#\s*undef\s+(\S+)")
# Names that the preprocessor itself replaces; what they become depends on the place, so they stay names.
HIDDEN = re.compile(r"\b(__LINE__|__FILE__|__FILE_NAME__|__BASE_FILE__|__COUNTER__|__DATE__|__TIME__|__TIMESTAMP__"
                    r"|__INCLUDE_LEVEL__|_Pragma|__pragma)\b")
SHOWN = re.compile(r"regoto_hidden_(\w+?)_end")


def hide(text: str) -> str:
    """Return the text with other names in place of those that the preprocessor itself replaces."""
    return HIDDEN.sub(r"regoto_hidden_\1_end", text)


class Failed(Exception):
    """The preprocessor found an error; its message is what it wrote."""


class Definition(NamedTuple):
    """A macro: its name, its parameters with their brackets or None, and its body."""

    name: str
    parameters: str | None
    body: str

    @property
    def line(self) -> str:
        """The directive that makes it."""
        return f'#define {self.name}{self.parameters or ""} {hide(self.body)}'


Event = tuple[int, str, "Definition | None"]
_CHANGES = ("#define", "#undef")


@dataclass
class Preprocessed:
    """What the preprocessor makes of the file of this name: its text, with markers of lines and changes of macros."""

    output: str
    name: str

    @cached_property
    def lines(self) -> list[str]:
        """The lines that are neither empty, nor markers, nor changes of macros."""
        return [each for each in self.output.split("\n") if each
                and (each[0] != "#" or not (each.startswith(_CHANGES) or MARKER.match(each))) and not each.isspace()]

    @cached_property
    def events(self) -> list[Event]:
        """The changes of macros in order, each with its line; one in a header counts for the line before."""
        found: list[Event] = []
        line, since, is_inside = 0, 0, False
        for index, each in enumerate(self.output.split("\n")):
            if not each.startswith("#"):
                continue
            if marker := MARKER.match(each):
                line += index - since if is_inside else 0
                is_inside = marker.group(2) == "/" + self.name
                line, since = int(marker.group(1)) if is_inside else line, index + 1
            elif each.startswith(_CHANGES):
                found.append((line + (index - since if is_inside else 0), *_event(each)))
        return [event for event in found if event[1] != "__LINE__"]


class Definitions:
    """The macros in force, while one goes through the file line by line."""

    def __init__(self, events: Sequence[Event]) -> None:
        self.events = events
        self.at = 0
        self.line = 0
        self.now: dict[str, Definition] = {}
        self.closures: dict[str, frozenset[str]] = {}

    def go_to(self, line: int) -> None:
        """Bring in force what stands on the lines above."""
        self.line = line
        while self.at < len(self.events) and self.events[self.at][0] < line:
            _, name, definition = self.events[self.at]
            if definition is None:
                self.now.pop(name, None)
            else:
                self.now[name] = definition
            self.closures.clear()
            self.at += 1

    def change_before(self, line: int) -> bool:
        """Return whether something changes from here up to a line."""
        return self.at < len(self.events) and self.events[self.at][0] < line

    def closure(self, name: str) -> frozenset[str]:
        """Return the names that the expansion of a name may hold, itself among them."""
        if name not in self.closures:
            reached, left = {name}, [name]
            while left:
                definition = self.now.get(left.pop())
                new = set(NAMES.findall(definition.body)) - reached if definition else set()
                reached |= new
                left += new
            self.closures[name] = frozenset(reached)
        return self.closures[name]

    def more_than_expression(self, names: frozenset[str]) -> bool:
        """Return whether these names, or their definitions, hold more than a balanced part of an expression."""
        if names & JUMPS or names & HEADS:
            return True
        bodies = [self.now[name].body for name in names if name in self.now]
        return any(map(is_more_than_expression, bodies))


def names_with(events: Sequence[Event], word: str) -> frozenset[str]:
    """Return the macros whose expansion may hold a word, in any of their definitions."""
    bodies: dict[str, set[str]] = {}
    for _, name, definition in events:
        if definition:
            bodies.setdefault(name, set()).update(NAMES.findall(definition.body))
    found, grown = {word}, True
    while grown:
        more = {name for name, body in bodies.items() if name not in found and body & found}
        found, grown = found | more, bool(more)
    return frozenset(found - {word})


def programs() -> list[str]:
    """Return the compilers at hand, first the one that reads as libclang does."""
    folders = os.get_exec_path()
    found: dict[str, str] = {}
    for name in ("clang", "clang-14", "gcc", "cc"):
        paths = (os.path.join(folder, name) for folder in folders)
        path = next((path for path in paths if os.path.isfile(path) and os.access(path, os.X_OK)), None)
        if path:
            found.setdefault(os.path.realpath(path), os.path.abspath(path))
    return list(found.values())


class _Run(Running):
    """A preprocessor's run on a file at `path` that holds `text` (latin-1), with the changes of macros.

    No line has a number: so texts whose lines are moved compare.
    """

    def __init__(self, program: str, path: Path, text: str, flags: Sequence[str]) -> None:
        super().__init__()
        self.program, self.path, self.text, self.flags = program, path, text, flags
        self.place = f"{self.folder}/{path.name}"

    def start(self) -> None:
        """Begin it."""
        self.write(self.path.name, self.text)
        working = [flag.split("=", 1)[1] for flag in self.flags if flag.startswith("-working-directory=")]
        taken = [flag for flag in self.flags if not flag.startswith("-working-directory=")]
        inside = ["/usr/bin/env", "-C", working[-1]] if working else []
        self.begin([*inside, self.program, "-E", "-dD", "-w", "-D__LINE__=0", "-x", "c", "-iquote",
                    str(self.path.parent.resolve()), *taken, self.place])

    def result(self) -> Preprocessed:
        """Return what it makes of the file. Raises Failed with the compiler's messages."""
        if self.end():
            raise Failed(self.said.replace(self.place, str(self.path)))
        return Preprocessed(self.wrote.replace(self.folder, ""), self.path.name)


_Asked = tuple[str, Path, str, tuple[str, ...]]  # a program, and the path, the text and the flags of a file
_found: dict[_Asked, Preprocessed | Failed] = {}  # for the last of them
_MOST_FOUND = 8


def _find(asked: Sequence[_Asked]) -> list[Preprocessed | Failed]:
    """Return what preprocessors make of files, or why they don't; all of them run at once."""
    with ExitStack() as stack:
        runs = {one: stack.enter_context(_Run(*one)) for one in dict.fromkeys(asked) if one not in _found}
        for run in runs.values():
            run.start()
        for one, run in runs.items():
            try:
                _found[one] = run.result()
            except Failed as failed:
                _found[one] = failed
    results = [_found[one] for one in asked]
    for one in list(_found)[:-_MOST_FOUND]:
        del _found[one]
    return results


def preprocessed(program: str, path: Path, text: str, flags: Sequence[str]) -> Preprocessed:
    """Return what a preprocessor makes of a file at `path` that holds `text`.

    Raises Failed with the compiler's messages.
    """
    result = _find([(program, path, text, tuple(flags))])[0]
    if isinstance(result, Failed):
        raise result
    return result


def differs(path: Path, before: str, after: str, flags: Sequence[str]) -> str | None:
    """Return the name of a compiler at hand for which two texts of a file aren't the same tokens.

    A compiler that doesn't take the first text with these flags doesn't count; without any, Failed is raised. Failed is
    raised too where one doesn't take the second text.
    """
    compared = False
    all_programs = programs()
    found = iter(_find([(program, path, text, tuple(flags)) for program in all_programs for text in (before, after)]))
    for program, first, second in zip(all_programs, found, found):
        if isinstance(first, Failed):
            continue
        if isinstance(second, Failed):
            raise second
        compared = True
        if not _same_tokens(first, second):
            return os.path.basename(program)
    if not compared:
        raise Failed("no compiler (clang or gcc) takes the file")
    return None


def _same_tokens(first: Preprocessed, second: Preprocessed) -> bool:
    """Return whether the lines of two texts are the same tokens."""
    one, two = first.lines, second.lines
    front = next((at for at, (a, b) in enumerate(zip(one, two)) if a != b), min(len(one), len(two)))
    one, two = one[front:], two[front:]
    back = next((at for at, (a, b) in enumerate(zip(reversed(one), reversed(two))) if a != b), min(len(one), len(two)))
    one, two = one[:len(one) - back], two[:len(two) - back]
    return tokens_of("\n".join(one)).spellings == tokens_of("\n".join(two)).spellings


def _event(text: str) -> tuple[str, Definition | None]:
    """Return the name and the new definition of a line that changes a macro."""
    found = DEFINE.match(text)
    if found:
        return found.group(1), Definition(found.group(1), found.group(2), found.group(3).strip())
    found = UNDEFINE.match(text)
    assert found is not None, text
    return found.group(1), None


def expand(program: str, batch: Sequence[tuple[Sequence[str], str]], flags: Sequence[str]) -> list[str]:
    """Return what the preprocessor makes of each text of a batch, after the directives that go before it.

    Nothing but these directives is defined. Raises Failed with the compiler's messages.
    """
    parts = []
    for index, (directives, text) in enumerate(batch):
        parts += [*directives, f"regoto_mark_{index}", hide(text)]
    standard = [flag for flag in flags if flag.startswith(("-std=", "-ansi", "-fdollars", "-fno-dollars"))]
    with Running() as running:
        source = running.write("in", "\n".join([*parts, "regoto_mark_end", ""]))
        running.begin([program, "-E", "-P", "-CC", "-w", "-undef", "-nostdinc", "-x", "c", *standard, "-"], source)
        status, said, wrote = running.end(), running.said, running.wrote
    pieces = re.split(r"\s*\bregoto_mark_(?:\d+|end)\b[ \t]*\n?", wrote)[1:-1]
    if status or len(pieces) != len(batch):
        raise Failed(said)
    return [SHOWN.sub(r"\1", piece.strip()) for piece in pieces]
