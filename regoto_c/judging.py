"""Which part of a function's body round a directive stands as one unit, whatever branches are taken."""

from __future__ import annotations

from bisect import bisect_left, bisect_right
from dataclasses import dataclass, field
from typing import Iterator

from . import conditionals, macros, shapes
from .conditionals import Conditional, word_of
from .lexing import TokenKind
from .reading import Function, SourceFile
from .shapes import Row
from .words import HEADS, JUMPS, Token, words

_BOUNDARIES = frozenset({";", "{", "}", ":"})
_FARTHEST = 12  # statements that are taken to a group at most
_OF_RECORDS = ("struct", "union", "enum")
_CONDITIONAL = ("if", "ifdef", "ifndef", "elif", "elifdef", "elifndef", "else", "endif")


@dataclass
class Group:
    """A group from `#if` to `#endif`, or a directive of its own, in a function; `end` is behind its last byte.

    Where it can't be a piece, `fault` says why, and `fault_offset` where. With `statements` it is a list of whole
    statements, else a part of an expression or a declaration. With `declarations` it holds declarations alone, and
    stands before the first statement of the body, where it may stay. `resolvable` says that `resolved` resolves it.
    """

    start: int
    end: int
    fault: str = ""
    fault_offset: int = 0
    statements: bool = True
    declarations: bool = False
    resolvable: bool = False


@dataclass
class Body:
    """A function's body: its tokens without and with directives, its groups, and its lists of statements."""

    tokens: list[Token]
    groups: list[Conditional]
    lone: list[Token]
    taken: list[Token] = field(default_factory=list)
    rows: list[Row] = field(default_factory=list)
    broken: Token | None = None
    first_statement: int = 0


def _substituted(file: SourceFile, function: Function) -> list[Token]:
    """Return the tokens of a body, with what macros stand for in the place of those that may be statements."""
    found, meanings = words(file.text, function.body, function.end), iter(macros.meanings_in(file, function))
    meaning = next(meanings, None)
    tokens: list[Token] = []
    for token in found:
        while meaning is not None and token.start >= meaning.end:
            meaning = next(meanings, None)
        if meaning is None or token.start < meaning.start:
            tokens.append(token)
        elif token.start == meaning.start:
            tokens += [Token(each.kind, each.text, meaning.start, meaning.end) for each in meaning.tokens]
    return tokens


def body_of(file: SourceFile, function: Function) -> Body | None:
    """Return a function's body, or None where no directive stands in it.

    Raises `Refused` where the function's macros can't be read.
    """
    key = "body", function.body
    if key not in macros.kept(file):
        macros.kept(file)[key] = _body_of(file, function)
    found: Body | None = macros.kept(file)[key]
    return found


def _body_of(file: SourceFile, function: Function) -> Body | None:
    low, high = file.tokens.first_from(function.body), file.tokens.first_from(function.end)
    if TokenKind.DIRECTIVE not in file.tokens.kinds[low:high]:
        return None
    tokens = _substituted(file, function)
    groups = conditionals.conditionals_in(tokens)
    if isinstance(groups, Token):
        return Body(tokens, [], [], broken=groups)
    conditionals.decide(file, groups)
    lone = [token for token in tokens if token.is_directive and word_of(token) not in _CONDITIONAL
            and not any(group.start <= token.start < group.end for group in groups)]
    body = Body(tokens, groups, lone, conditionals.under(tokens, groups, {}))
    shape = shapes.shape(body.taken)
    body.rows = shape.rows if shape.whole else []
    body.first_statement = _first_statement(body)
    return body


def _first_statement(body: Body) -> int:
    """Return where the first statement of a body begins that is no declaration."""
    top = body.rows[1] if len(body.rows) > 1 else Row(0, 0, [])
    for start, _ in top.spans:
        if not shapes.declares(body.taken, start):
            return body.taken[start].start
    return body.taken[top.behind].start if top.behind < len(body.taken) else 0


class Judge:
    """Looks at one group or directive with what stands round it."""

    def __init__(self, body: Body, start: int, end: int) -> None:
        self.body, self.start, self.end = body, start, end
        self.fault, self.fault_offset = "", start
        self.before = [token for token in body.taken if token.end <= start]
        self.behind = [token for token in body.taken if token.start >= end]

    @property
    def at_boundary(self) -> bool:
        """Whether a statement may begin here."""
        if not self.before or self.before[-1].text not in _BOUNDARIES:
            return False
        return self.before[-1].text != ":" or self._is_label(len(self.before) - 1)

    def _is_label(self, at: int) -> bool:
        """Whether the colon at an index is a label's, not that of `?:`."""
        for row in reversed(self.body.rows):  # the innermost statement comes first
            place = bisect_right(row.spans, (at, len(self.body.taken))) - 1
            if place >= 0 and at < row.spans[place][1]:
                start = row.spans[place][0]
                shape = shapes.covering(self.before[start:at + 1], 1)
                is_case = self.before[start].text in ("case", "default")
                return is_case or bool(shape.label) and shape.taken == at + 1 - start
        return False

    def group(self) -> Group:
        """Return the unit of a conditional group."""
        if self._in_record() or not self.at_boundary and self._is_inner():
            return Group(self.start, self.end, statements=False)
        followed = self.behind[0].text if self.behind else ""
        if self.at_boundary and followed != "else" and self._is_whole(self.start, self.end):
            return Group(self.start, self.end)
        declares = self._declares()
        if declares and self.end <= self.body.first_statement:
            return Group(self.start, self.end, declarations=True)
        if self.at_boundary and self._is_inner() and followed != "else":
            return Group(self.start, self.end, statements=False)
        fault, offset = self.fault or "half of a statement stands in a conditional group", self.fault_offset
        if declares:
            fault = "a declaration in a conditional group would have to move"
        return self._widened() or Group(self.start, self.end, fault, offset, resolvable=True)

    def with_next(self, resolvable: bool) -> Group:
        """Return the unit of a directive with the statement behind it, to which it belongs."""
        return self._widened(only_behind=True) or Group(
            self.start, self.end, "a #pragma for a statement with a jump", self.start, resolvable=resolvable)

    # -- what stands in a part of the body

    def _readings(self, start: int, end: int) -> Iterator[list[Token]]:
        """Yield what stands in a part of the body, for each choice of branches."""
        inside = [group for group in self.body.groups if start <= group.start and group.end <= end]
        low = bisect_left(self.body.tokens, start, key=lambda token: token.start)
        high = bisect_left(self.body.tokens, end, key=lambda token: token.start)
        tokens = self.body.tokens[low:high]
        yield conditionals.under(tokens, inside, {})
        for choice in conditionals.choices(inside):
            yield conditionals.under(tokens, inside, choice)

    def _is_whole(self, start: int, end: int) -> bool:
        """Whether a part is whole statements without jumps, labels and declarations; else note why not."""
        for reading in self._readings(start, end):
            shape = shapes.shape(reading)
            bound = [(token.start, why) for token, why in ((shape.jump, "a jump"), (shape.label, "a label")) if token]
            offset, why = min(bound) if bound else (self.start, "" if shape.whole else "half of a statement")
            if not why and shape.declaration:
                offset, why = shape.declaration.start, "a declaration"
            if why:
                self.fault, self.fault_offset = f"{why} stands in a conditional group", offset
                return False
        return True

    def _declares(self) -> bool:
        """Whether each branch is declarations alone."""
        for reading in self._readings(self.start, self.end):
            shape = shapes.shape(reading)
            if shape.bears_jumps or not shape.whole or len(shape.rows[0].spans) != sum(
                    shapes.declares(reading, first) for first, _ in shape.rows[0].spans):
                return False
        return self.at_boundary

    def _is_inner(self) -> bool:
        """Whether each branch is a balanced part of an expression."""
        for reading in self._readings(self.start, self.end):
            texts = {token.text for token in reading}
            labelled = self.at_boundary and shapes.shape(reading).label is not None
            if texts & JUMPS or texts & HEADS or ";" in texts or labelled or not _balanced(reading):
                return False
        return True

    def _in_record(self) -> bool:
        """Whether the group is a balanced part between the braces of a struct, union or enumeration."""
        depth, at = 0, len(self.before) - 1
        while at >= 0 and depth <= 0:
            text = self.before[at].text
            depth += (text in ("(", "[", "{")) - (text in (")", "]", "}"))
            at -= 1
        ahead = [token.text for token in self.before[max(0, at - 1):at + 1]]
        if depth <= 0 or self.before[at + 1].text != "{" or not any(word in ahead for word in _OF_RECORDS):
            return False
        return all(_balanced(reading) and not {token.text for token in reading} & (JUMPS | HEADS)
                   for reading in self._readings(self.start, self.end))

    # -- more than the group

    def _widened(self, only_behind: bool = False) -> Group | None:
        """Return the least row of statements round the group that is whole, if there is one."""
        for row in self.rows():
            items = self._items(row)
            here = next(at for at, (start, end) in enumerate(items) if start <= self.start and self.end <= end)
            for back in range(min(3, here + 1)):
                for start, end in items[here:here + _FARTHEST]:
                    start = items[here - back][0]
                    if (end > self.end or not only_behind) and self._is_whole(start, end):
                        return Group(start, end)
                    if self.fault.startswith(("a jump", "a label")):
                        break
        return None

    def _items(self, row: Row) -> list[tuple[int, int]]:
        """Return the statements and groups of a list, as one where they overlap."""
        taken = self.body.taken
        opens, closes = taken[row.first - 1].end, taken[row.behind].start
        found = [(taken[first].start, taken[behind - 1].end) for first, behind in row.spans]
        found += [(group.start, group.end) for group in self.body.groups if opens <= group.start < closes]
        items: list[tuple[int, int]] = []
        for start, end in sorted([*found, (self.start, self.end)]):
            if items and start < items[-1][1]:
                items[-1] = items[-1][0], max(end, items[-1][1])
            else:
                items.append((start, end))
        return items

    def rows(self) -> list[Row]:
        """Return the lists of statements that hold the group, innermost first, without the body's own."""
        taken = self.body.taken
        return [row for row in self.body.rows[:0:-1] if row.behind < len(taken)
                and taken[row.first - 1].end <= self.start and self.end <= taken[row.behind].start]


def _balanced(sequence: list[Token]) -> bool:
    """Return whether the brackets balance."""
    depth = 0
    for token in sequence:
        depth += (token.text in ("(", "[", "{")) - (token.text in (")", "]", "}"))
        if depth < 0:
            return False
    return depth == 0
