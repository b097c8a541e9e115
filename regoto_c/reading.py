"""A C file as libclang reads it: its bytes, its tokens, its macro invocations, and its functions with a goto."""

from __future__ import annotations

from bisect import bisect_left, bisect_right
from operator import attrgetter
from pathlib import Path
from typing import Any, Collection, Iterable

from . import hollow, libclang
from .clang_units import Unit
from .edits import Edit, Shift, edited
from .lexing import Tokens, tokens_of, words_of
from .libclang import Kind
from .messages import Fault, Unreadable
from .parsing import parsed
from .records import dataclass, field

_MACRO_DEFINITION = Kind.MACRO_DEFINITION
_MACRO_INSTANTIATION = Kind.MACRO_INSTANTIATION
_FUNCTION = Kind.FUNCTION_DECL
_COMPOUND = Kind.COMPOUND_STMT
_start_of = attrgetter("start")


@dataclass
class Invocation:
    """An outermost macro invocation in the file, from its name to its last argument's bracket."""

    name: str
    start: int
    end: int
    cursor: Any


@dataclass
class Function:
    """A function with a body in the file; `body` is the offset of its `{`, and `end` the one behind its `}`.

    `is_written` says that both stand in the file itself, not in a macro's text.
    """

    name: str
    start: int
    body: int
    end: int
    cursor: Any = field(compare=False)
    compound: Any = field(compare=False)
    name_offset: int
    is_written: bool

    def moved(self, shift: Shift) -> Function:
        """Return the function where it stands with some edits, without cursors."""
        start, body, end, name = map(shift.of, (self.start, self.body, self.end, self.name_offset))
        return Function(self.name, start, body, end, None, None, name, self.is_written)


@dataclass
class SourceFile:
    """A file that libclang has read without errors.

    `text` has one character for each byte (latin-1), so that offsets are those of libclang. `jumping` are the numbers of
    the functions with a goto; `invocations` are those of them alone, and `tokens` those of the functions whose `spans` are
    given. `left_out` are bodies of functions that libclang hasn't read, and that aren't among `functions`.
    """

    path: Path
    text: str
    flags: list[str]
    unit: Unit
    spans: list[tuple[int, int]] = field(default_factory=list)
    invocations: list[Invocation] = field(default_factory=list)
    functions: list[Function] = field(default_factory=list)
    left_out: list[tuple[int, int]] = field(default_factory=list)
    jumping: list[int] = field(default_factory=list)
    macros: dict[str, Any] = field(default_factory=dict)
    has_memcpy: bool = False
    words: set[str] = field(default_factory=set)
    hides_gotos: bool = False
    looked_at: Tokens | None = None
    returning_twice: dict[int, bool] = field(default_factory=dict)
    mentioned: dict[str, bool] = field(default_factory=dict)
    macro_words: dict[str, frozenset[str]] = field(default_factory=dict)
    plain: dict[str, list[str] | None] = field(default_factory=dict)

    @property
    def tokens(self) -> Tokens:
        """The tokens of some functions, found when they are first asked for."""
        if self.looked_at is None:
            self.looked_at = tokens_of(self.text, self.spans)
        return self.looked_at

    def look_at(self, functions: Iterable[Function]) -> None:
        """Let the tokens be those of these functions, which are in order."""
        self.spans, self.looked_at = [(function.start, function.end) for function in functions], None

    def invocation_at(self, offset: int) -> Invocation | None:
        """Return the outermost invocation in which `offset` lies, or None."""
        index = bisect_right(self.invocations, offset, key=_start_of) - 1
        if index >= 0 and offset < self.invocations[index].end:
            return self.invocations[index]
        return None

    def invocations_in(self, function: Function) -> list[Invocation]:
        """Return the outermost invocations that begin in a function's body."""
        low = bisect_left(self.invocations, function.body, key=_start_of)
        return self.invocations[low:bisect_left(self.invocations, function.end, low, key=_start_of)]

    def words_in(self, function: Function) -> set[str]:
        """Return the words in a function, those in comments and strings too."""
        return words_of(self.text[function.start:function.end])

    def has_goto(self, function: Function) -> bool:
        """Return whether a function has a goto, written in it or in the text of a macro that it names."""
        words = self.words_in(function) if self.text.find("goto", function.start, function.end) >= 0 else frozenset()
        return "goto" in words or self.may_hide_gotos() and "goto" in self.words_behind(self.words_in(function))

    def may_hide_gotos(self) -> bool:
        """Return whether a word in the file is a macro in whose text, or in that of one behind it, a goto stands."""
        self.all_words()
        return self.hides_gotos

    def mentions(self, word: str) -> bool:
        """Return whether a word stands in the file or in one that it includes."""
        if word not in self.mentioned:
            self.mentioned[word] = word in self.text or self.unit.includes(word.encode())
        return self.mentioned[word]

    def words_behind(self, words: set[str]) -> set[str]:
        """Return the words in the texts of all macros among `words`, and of the macros named there, and so on."""
        found: set[str] = set()
        waiting = [word for word in words if word in self.macros]
        seen = set(waiting)
        while waiting:
            new = self._words_of_macro(waiting.pop())
            found |= new
            more = {word for word in new if word in self.macros} - seen
            seen |= more
            waiting += more
        return found

    def _words_of_macro(self, name: str) -> frozenset[str]:
        if name not in self.macro_words:
            self.macro_words[name] = frozenset(words_of(self.macro_text(name) or ""))
        return self.macro_words[name]

    def all_words(self) -> set[str]:
        """Return all names in the file and in the texts of macros; what is added to it counts as one of them."""
        if not self.words:
            self.words = words_of(self.text)
            behind = self.words_behind(self.words)
            self.hides_gotos = "goto" in behind
            self.words |= behind | set(self.macros)
        return self.words

    def macro_text(self, name: str) -> str | None:
        """Return the last definition of a macro, from its name to its end; None for one that is built in."""
        cursor = self.macros.get(name)
        return libclang.text_of(cursor) if cursor is not None else None


def read(path: Path, text: str, flags: list[str]) -> SourceFile:
    """Parse `text` as the content of the file at `path`; its tokens are those of the functions with a goto.

    Raises `Unreadable` with clang's own messages where it has errors.
    """
    return read_without(path, text, flags, [])


def read_without(path: Path, text: str, flags: list[str], bodies: list[tuple[int, int]]) -> SourceFile:
    """Do that without some bodies of functions, from `{` to behind `}`; these functions aren't in the file then."""
    file = SourceFile(path, text, flags, parsed(path, hollow.without(text, bodies), flags, text), left_out=bodies)
    invocations = _gather(file)
    file.jumping = [number for number, function in enumerate(file.functions) if file.has_goto(function)]
    _look_at(file, file.jumping, invocations)
    return file


def bodies_in(path: Path, text: str, flags: list[str]) -> list[tuple[int, int]]:
    """Return where the bodies of all functions stand, from `{` to behind `}`.

    Raises `Unreadable` with clang's own messages where the file has errors.
    """
    file = SourceFile(path, text, flags, parsed(path, text, flags, detailed=False))
    _gather(file)
    return [(function.body, function.end) for function in file.functions]


def read_again(file: SourceFile, edits: list[Edit], numbers: Collection[int]) -> SourceFile:
    """Parse a file with these edits, for the functions with these numbers; others have no edit and needn't be read.

    Raises `Unreadable` with clang's own messages where it has errors, and `Fault` where it can't be read as it was.
    """
    text, shift = edited(file.text, edits), Shift(edits)
    places = [function.moved(shift) for function in file.functions]
    out = [number for number, place in enumerate(places)
           if number not in numbers and place.is_written and hollow.may_go(text, place.body, place.end)]
    again = _without(file, edits, text, places, out, numbers) if out or file.left_out else None
    if again is None:
        if file.left_out:
            raise Fault("the file can't be read without some of its functions")
        again = SourceFile(file.path, text, file.flags, parsed(file.path, text, file.flags))
        _look_at(again, numbers, _gather(again))
    return again


def _without(
    file: SourceFile, edits: list[Edit], text: str, places: list[Function], out: list[int], numbers: Collection[int]
) -> SourceFile | None:
    """Parse the text without the bodies of the functions `out`; None where the others aren't at their places then."""
    shift = Shift(edits)
    bodies = [(shift.of(start), shift.of(end)) for start, end in file.left_out]
    every = sorted([*bodies, *((places[number].body, places[number].end) for number in out)])
    try:
        unit = parsed(file.path, hollow.without(text, every), file.flags, text)
    except Unreadable:
        return None
    again = SourceFile(file.path, text, file.flags, unit, left_out=bodies)
    invocations = _gather(again, None if any("#" in edit.text for edit in edits) else file)
    found = {function.body: function for function in again.functions}
    kept = set(range(len(places))) - set(out)
    again.functions = [found.get(place.body, place) if number in kept else place
                       for number, place in enumerate(places)]
    if len(found) != len(kept) or again.functions != places:
        return None
    _look_at(again, numbers, invocations)
    return again


def _gather(file: SourceFile, known: SourceFile | None = None) -> list[Any]:
    """Find the functions of a file and its macros, if they aren't `known`; return the cursors of all invocations."""
    invocations: list[Any] = []
    for cursor in libclang.children(file.unit.cursor):
        kind = cursor.kind
        if kind == _MACRO_INSTANTIATION:
            invocations.append(cursor)
        elif kind == _MACRO_DEFINITION and known is None:
            file.macros[libclang.spelling(cursor)] = cursor
        elif kind == _FUNCTION:
            if known is None and not file.has_memcpy and libclang.spelling(cursor) == "memcpy":
                file.has_memcpy = True
            elif libclang.is_definition(cursor) and libclang.is_in_main_file(cursor):
                file.functions.append(_function(file, cursor))
    if known is not None:
        file.macros, file.macro_words, file.plain = known.macros, known.macro_words, known.plain
        file.has_memcpy, file.mentioned = known.has_memcpy, known.mentioned
    return invocations


def _look_at(file: SourceFile, numbers: Iterable[int], invocations: list[Any]) -> None:
    """Find the outermost invocations of some functions, whose tokens will be looked at."""
    chosen = [file.functions[number] for number in sorted(numbers)]
    file.look_at(chosen)
    starts, spans = [function.start for function in chosen], []
    for cursor in invocations:
        if not libclang.is_in_main_file(cursor):
            continue
        at = bisect_right(starts, libclang.name_offset(cursor)) - 1
        if at >= 0:
            start, end = libclang.extent(cursor)
            if start < chosen[at].end:
                spans.append(Invocation(libclang.spelling(cursor), start, end, cursor))
    spans.sort(key=lambda span: (span.start, -span.end))
    for span in spans:
        if not file.invocations or span.start >= file.invocations[-1].end:
            file.invocations.append(span)


def _function(file: SourceFile, cursor: Any) -> Function:
    """Return the function that is defined at a cursor."""
    compounds = [child for child in libclang.children(cursor) if child.kind == _COMPOUND]
    start, end = libclang.extent(cursor)
    body, behind = libclang.extent(compounds[-1])
    text = file.text
    is_written = text.startswith(("{", "<%"), body) and text.endswith(("}", "%>"), body, behind)
    name, offset = libclang.spelling(cursor), libclang.name_offset(cursor)
    return Function(name, start, body, behind, cursor, compounds[-1], offset, is_written)
