"""Expands invocations of macros in functions, one by one, by a compiler's preprocessor; all other text stays."""

from __future__ import annotations

from pathlib import Path
from typing import Callable, Iterator, NamedTuple, Sequence

from . import preprocessing
from .lexing import TokenKind, tokens_of
from .preprocessing import Definition, Definitions, Failed
from .reading import Edit, edited
from .records import dataclass, field
from .words import NAMES, Token, closing, words

ROUNDS = 40
LOST_LINE = "\v"  # stands for a line end of an invocation, so that the lines can be kept where that matters


class Use(NamedTuple):
    """A macro's use: its name, the indices of its first and last token, its text, and the definitions it reaches."""

    name: str
    first: int
    last: int
    text: str
    reached: dict[str, Definition | None]


@dataclass
class Segment:
    """A part of a body: where it stands in the source's body, its text now, and whether that is another one."""

    start: int
    end: int
    text: str
    changed: bool = False


def replace(segments: list[Segment], start: int, end: int, new: str) -> None:
    """Put another text in the place of a part, not an empty one, of what the segments are together."""
    first, at = 0, 0
    while start >= at + len(segments[first].text):
        at += len(segments[first].text)
        first += 1
    last, stop = first, at
    while end > stop + len(segments[last].text):
        stop += len(segments[last].text)
        last += 1
    one, other = segments[first], segments[last]
    head, tail = one.text[:start - at], other.text[end - stop:]
    made = Segment(one.start, other.end, new, True)
    before: list[Segment] = []
    behind: list[Segment] = []
    if one.changed:
        made.text = head + made.text
    else:
        made.start = one.start + len(head)
        before = [Segment(one.start, made.start, head)]
    if other.changed:
        made.text += tail
    else:
        made.end = other.end - len(tail)
        behind = [Segment(made.end, other.end, tail)]
    segments[first:last + 1] = [each for each in [*before, made, *behind] if each.text or each.changed]


@dataclass
class Body:
    """A function's body on its way: its first line and its place in the file, and its text so far.

    Uses of the macros named in `wanted` are always looked at. `places` has the macros that were expanded, each with
    its first place in the file. `sequence`, `uses` and `expansions` are what was found in the last round: the tokens,
    the uses of macros that may hold more than a part of an expression, and what these are wholly expanded. `why` says
    why the body can't be expanded, and `fault` is the macro.
    """

    line: int
    place: int
    end: int
    text: str
    wanted: frozenset[str] = frozenset()
    places: dict[str, int] = field(default_factory=dict)
    sequence: list[Token] = field(default_factory=list)
    uses: list[Use] = field(default_factory=list)
    expansions: list[list[Token]] = field(default_factory=list)
    segments: list[Segment] = field(default_factory=list)
    why: str = ""
    fault: str = ""

    def fail(self, name: str, why: str) -> None:
        """Keep the first reason why this body can't be expanded."""
        if not self.why:
            self.fault, self.why = name, why

    @property
    def edits(self) -> list[Edit]:
        """The edits of the file that make the text so far."""
        return [Edit(self.place + each.start, self.place + each.end, each.text.replace(LOST_LINE, ""))
                for each in self.segments if each.changed]


Choice = Callable[[Body, int], "list[Use]"]


class Expander:
    """The definitions of one file, by one compiler's preprocessor.

    All methods raise `Failed` where the preprocessor finds an error.
    """

    def __init__(self, program: str, path: Path, text: str, flags: Sequence[str]) -> None:
        self.program, self.path, self.flags, self.text = program, path, flags, text
        self.before = preprocessing.preprocessed(program, path, text, flags)
        self.definitions = Definitions(self.before.events)

    def body(self, start: int, end: int, wanted: frozenset[str] = frozenset()) -> Body:
        """Return the body at a place of the file."""
        text = self.text[start:end]
        segments = [Segment(0, len(text), text)]
        return Body(self.text.count("\n", 0, start) + 1, start, end, text, wanted, segments=segments)

    def look(self, bodies: Sequence[Body]) -> None:
        """Find the uses in the bodies (in the order of the file), and what they are wholly expanded."""
        for body in bodies:
            if body.line < self.definitions.line:
                self.definitions = Definitions(self.before.events)
            body.sequence = words(body.text)
            body.uses = find_uses(body, self.definitions)
        uses = [use for body in bodies for use in body.uses]
        try:  # what may be asked for next is found in the same run
            self._find([*((use, False) for use in uses), *((use, True) for use in uses)])
        except Failed:
            pass
        whole = self._expand(uses, False)
        for body in bodies:
            body.expansions = [words(next(whole)) for _ in body.uses]

    def expand(self, bodies: Sequence[Body], choose: Choice) -> None:
        """Expand the uses that `choose` finds in a body, in rounds, until there are none."""
        for body in bodies:
            if LOST_LINE in body.text:
                body.fail("", "a vertical tab stands in it")
        for number in range(ROUNDS):
            going = [body for body in bodies if not body.why]
            self.look(going)
            chosen = [_possible(body, choose(body, number)) for body in going]
            if not any(chosen):
                break
            parts = self._expand([use for uses in chosen for use in uses], True)
            for body, uses in zip(going, chosen):
                _put(body, [(use, next(parts)) for use in uses])
        else:
            for body, uses in zip(going, chosen):
                if uses:
                    body.fail(uses[0].name, "it expands without end")
        self._compare(bodies)

    def _expand(self, uses: Sequence[Use], alone: bool) -> Iterator[str]:
        """Return the expansions in order: whole ones, or with no macro defined but the one that is used."""
        self._find([(use, alone) for use in uses])
        return iter([_expansions[_key(use, alone)] for use in uses])

    def _find(self, asked: Sequence[tuple[Use, bool]]) -> None:
        """Find the expansions that aren't known yet, in one run; of each use, whether it is expanded alone."""
        new = {_key(*one): one for one in asked if _key(*one) not in _expansions}
        made: dict[str, Definition] = {}
        batch = [(_directives(made, _known(use, alone), alone), use.text) for use, alone in new.values()]
        if batch:
            _expansions.update(zip(new, preprocessing.expand(self.program, batch, self.flags)))

    def _compare(self, bodies: Sequence[Body]) -> None:
        """Let each body fail whose tokens, when wholly preprocessed, aren't those of the source."""
        changed = [body for body in bodies if body.places and not body.why]
        if not changed or preprocessing.differs(self.path, self.text, self._with(changed), self.flags) is None:
            return
        for body in changed:
            if preprocessing.differs(self.path, self.text, self._with([body]), self.flags) is not None:
                body.fail(next(iter(body.places), ""), "its expansion would mean something else")

    def _with(self, bodies: Sequence[Body]) -> str:
        """Return the file with these bodies as they are now."""
        return edited(self.text, [edit for body in bodies for edit in body.edits])


# The text of a use, whether only its own macro is defined, and the definitions.
_Key = tuple[str, bool, frozenset[tuple[str, "Definition | None"]]]
_expansions: dict[_Key, str] = {}  # that were asked for


def _known(use: Use, alone: bool) -> dict[str, Definition | None]:
    """Return the definitions with which a use is expanded."""
    return {use.name: use.reached[use.name]} if alone else use.reached


def _key(use: Use, alone: bool) -> _Key:
    return use.text, alone, frozenset(_known(use, alone).items())


def _directives(made: dict[str, Definition], wanted: dict[str, Definition | None], alone: bool) -> list[str]:
    """Return the directives that bring the wanted definitions in force, and no others if it is alone."""
    lines = []
    for name in [name for name in made if alone and name not in wanted]:
        lines.append("#undef " + name)
        del made[name]
    for name, definition in wanted.items():
        if made.get(name) != definition and not name.startswith("__STDC"):
            lines.append("#undef " + name)
            made.pop(name, None)
            if definition:
                lines.append(definition.line)
                made[name] = definition
    return lines


def find_uses(body: Body, definitions: Definitions) -> list[Use]:
    """Return the uses, outermost ones alone, of macros that may hold more than a part of an expression, or are wanted.

    The definitions must stand at the body's first line or before.
    """
    uses, index, seen, line = [], 0, 0, body.line
    sequence, text = body.sequence, body.text
    definitions.go_to(line)
    changes = definitions.change_before(line + text.count("\n") + text.count(LOST_LINE))
    while index < len(sequence):
        token = sequence[index]
        if changes:
            line += text.count("\n", seen, token.start) + text.count(LOST_LINE, seen, token.start)
            seen = token.start
            definitions.go_to(line)
        last = _last(sequence, index, definitions.now) if token.is_name else None
        if last is None:
            index += 1
            continue
        names = [each.text for each in sequence[index:last + 1] if each.is_name]
        reached = frozenset[str]().union(*map(definitions.closure, names))
        if token.text in body.wanted or definitions.more_than_expression(reached):
            known = {name: definitions.now.get(name) for name in reached}
            uses.append(Use(token.text, index, last, text[token.start:sequence[last].end], known))
        index = last + 1
    return uses


def _last(sequence: list[Token], index: int, now: dict[str, Definition]) -> int | None:
    """Return the index of the last token of the use that begins at an index, or None where none does."""
    definition = now.get(sequence[index].text)
    if definition is None:
        return None
    tail, seen = definition, {definition.name}
    while tail.parameters is None:  # a body may end with the name of a macro that takes the brackets behind the use
        ends = NAMES.findall(tail.body)
        if not ends or ends[-1] in seen or ends[-1] not in now or not tail.body.endswith(ends[-1]):
            return index
        tail = now[ends[-1]]
        seen.add(tail.name)
    opens = index + 1 < len(sequence) and sequence[index + 1].text == "("
    close = closing(sequence, index + 1) if opens else None
    return close if close is not None or tail is definition else index


def _possible(body: Body, uses: list[Use]) -> list[Use]:
    """Return the uses, or none of them where one can't be expanded; the body says why then."""
    for use in uses:
        if any(token.is_directive for token in body.sequence[use.first:use.last]):
            body.places.setdefault(use.name, body.place + body.sequence[use.first].start)
            body.fail(use.name, "a directive stands in its arguments")
    return [] if body.why else uses


def _on_one_line(text: str) -> str:
    """Return an expansion on one line; a comment that would end with its line gets the other form."""
    found = tokens_of(text)
    for start, end, kind in reversed(list(zip(found.offsets, found.ends, found.kinds))):
        if kind is TokenKind.COMMENT and text.startswith("//", start):
            text = text[:start] + "/*" + text[start + 2:end].replace("*/", "* /") + " */" + text[end:]
    return " ".join(text.split("\n"))


def _put(body: Body, expansions: list[tuple[Use, str]]) -> None:
    """Put the expansions in the place of the uses."""
    text = body.text
    for use, expansion in expansions:
        body.places.setdefault(use.name, body.place + body.sequence[use.first].start)
    for use, expansion in reversed(expansions):
        start, end = body.sequence[use.first].start, body.sequence[use.last].end
        lost = use.text.count("\n") + use.text.count(LOST_LINE)
        before = "" if text[start - 1:start] in ("", *" \t\n({};,") else " "
        after = "" if text[end:end + 1] in ("", *" \t\r\n){};,") else " "
        replace(body.segments, start, end, before + _on_one_line(expansion) + after + LOST_LINE * lost)
    body.text = "".join(segment.text for segment in body.segments)
