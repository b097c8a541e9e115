"""Cutting: from a function's body to the forms of statements, with pieces for all that isn't control flow."""

from __future__ import annotations

import re
from typing import Iterator

from . import forms, libclang, syntax
from .declarations import Declarations
from .expressions import is_narrow, reduced
from .forms import Items
from .lists import ListCutter
from .messages import Refused
from .pieces import Form, returns_twice, words_of
from .reading import Function, SourceFile
from .statements import CaseText, StatementCutter
from .syntax import Node
from .units import UnitKind

_LONGEST_RANGE = 64
_ASKS_FOR_TYPE = frozenset(("_Generic", "__builtin_types_compatible_p"))
_LABEL = re.compile(r"[A-Za-z_][A-Za-z_0-9]{0,62}")
_DEFINITION = re.compile(r"#\s*(?:define|undef)\s+(\w+)")


class Cutter(StatementCutter):
    """Cuts one function; `cut` gives the items of its body behind the declarations at its top.

    For accounting, `spans` has what is a label, a declaration or a jump in a macro, `hidden` counts the jumps in
    macros, and `doubles` are pieces in others.
    """

    def __init__(self, file: SourceFile, function: Function) -> None:
        super().__init__(file, function)
        self.declarations = Declarations(self)
        self.kept_end = 0
        self.wholes: dict[str, str] = {}

    def cut(self) -> Items:
        """Return the items of the body.

        Raises `Refused` where the function can't be restructured, and `NeedsExpansion` where a macro hides what has
        to be taken apart.
        """
        self.check_whole()
        body = self.syntax.body
        self.returns_values = _returns_values(body)
        nodes = list(body.children)
        first = 1
        while nodes and nodes[0].kind == syntax.DECLARATION:
            first = self._keep(nodes, first)
        self.kept_end = self.behind_comments(self.units.ends[first - 1])
        items = ListCutter(self, nodes, first, len(self.units.starts) - 1, self.kept_end, True).items()
        self._check_definitions()
        self._check_counter()
        self._check_qualifiers()
        return items

    def _check_definitions(self) -> None:
        """Raise `Refused` where something would move out of the reach of a macro that is defined in the body."""
        groups = [unit for unit, kind in enumerate(self.units.kinds) if kind is UnitKind.GROUP]
        for start, word in [(self.units.starts[unit], self.units.words[unit]) for unit in groups]:
            match = _DEFINITION.match(word) if start >= self.kept_end else None
            if match is None:
                continue
            for offset in self._moving_with(match.group(1), start):
                why = f"{match.group(1)} is defined in the function, and this would move away from it"
                raise Refused(offset, why)

    def _check_counter(self) -> None:
        """Raise `Refused` where something would move whose value is its place among all like it in the file."""
        if self.file.mentions("__COUNTER__"):
            for offset in self._moving_with("__COUNTER__", 0):
                raise Refused(offset, "__COUNTER__ counts along the text, and this would move")

    def _check_qualifiers(self) -> None:
        """Raise `Refused` where a variable would lose a qualifier that an expression may ask for."""
        for offset in self.declarations.unqualified:
            words = self.file.words_in(self.function)
            if _ASKS_FOR_TYPE & (words | self.file.words_behind(words)):
                raise Refused(offset, "a variable that is const would lose that word, and _Generic may ask for its type")

    def _moving_with(self, word: str, start: int) -> Iterator[int]:
        """Give the places of what moves and names a word, itself or by a macro: declarations behind `start`, and parts."""
        text = self.file.text
        texts = [(span[0], moved.bare(text)) for moved in self.declarations.moved
                 for span in moved.spans if span[0] > start]
        texts += [(piece.start, text[piece.start: piece.end])
                  for piece in self.pieces.values() if piece.form is Form.PART]
        for offset, part in texts:
            if self._names(word, part):
                yield offset

    def _names(self, word: str, text: str) -> bool:
        """Return whether a text has a word, or a macro that it names."""
        words = set(words_of(text))
        return word in words or word in self.file.words_behind(words)

    def check_whole(self) -> None:
        """Raise `Refused` where something in the function can't be restructured wherever it stands."""
        if self.syntax.computed:
            raise Refused(self.syntax.computed[0], "a computed goto, or the address of a label")
        for offset in self.syntax.assemblies:
            at = self.units.at(offset)
            named = {word for text in self.units.words[at: self.scan(at, ";", len(self.units.starts))]
                     for word in words_of(text)}
            if "goto" in named or "goto" in self.file.words_behind(named):
                raise self.units.faults.get(at) or Refused(offset, "an asm goto")
        twice = returns_twice(self.file, self.syntax, self.file.words_in(self.function))
        if twice is not None:
            offset, name = twice
            words = words_of(self.units.words[self.units.at(offset)])  # of a macro, perhaps
            shown = next((word for word in words if word.strip("_") == name.strip("_")), words[0])
            raise Refused(offset, f"{shown} may return twice")
        for start, word in zip(self.units.starts, self.units.words):
            if "__label__" in word:
                raise Refused(start, "a local label")

    def _keep(self, nodes: list[Node], at: int) -> int:
        """Leave a declaration at the top of the body where it is; return the unit behind it."""
        node = nodes.pop(0)
        if not node.is_opaque and (node.jumps or node.breaks or node.continues):
            raise Refused(node.start, "a jump in a statement expression")
        start = self.unit_of(node)
        behind = self.finish(node, start, len(self.units.starts) - 1)
        while nodes and nodes[0].kind == syntax.DECLARATION and self.unit_of(nodes[0]) < behind:
            nodes.pop(0)
        if nodes and self.unit_of(nodes[0]) < behind:
            raise self.not_understood(start, "a declaration and a statement in one")
        self.declarations.keep(node)
        return behind

    def behind_comments(self, offset: int) -> int:
        """Return the end of the comments that follow an offset on its line."""
        text = self.file.text
        for comment in self.comments_between(offset, self.function.end):
            if "\n" in text[offset: comment.start] or text[offset: comment.start].strip():
                break
            offset = comment.end
        return offset

    def declare(self, node: Node, at: int, stop: int, in_head: bool) -> bool:
        self.spans.append((self.units.starts[at], self.units.starts[stop] if in_head else self.units.ends[stop]))
        return self.declarations.move(node, at, stop, in_head)

    def core_statement(self, node: Node, at: int, behind: int) -> forms.Item | None:
        """Return the item of a statement that the core made, or None; a source has none."""
        return None

    # -- lists

    def items(self, nodes: list[Node], at: int, end: int) -> Items:
        return ListCutter(self, nodes, at, end, self.units.ends[at - 1], self.units.mates.get(at - 1) == end).items()

    def label(self, node: Node, at: int, limit: int) -> tuple[Items, list[Node], int]:
        """Take a label or case label off; return its items, what it stands before, and the next unit."""
        below = node.children[-1]
        behind = self.unit_of(below)
        if self.units.kinds[at] is UnitKind.GROUP:
            raise self.not_understood(at, "a label in a group of directives")
        if behind <= at and not (below.kind == syntax.NULL and self.units.kinds[at] is UnitKind.INVOCATION):
            raise self.not_understood(at, "a label with more in one")
        if behind <= at:
            return self._label_items(node, at, at + 1), [], at + 1
        if below.kind == syntax.NULL and not self.is_token(behind, ";"):
            behind = min(behind, limit)
            return self._label_items(node, at, behind), [], behind
        if self.units.kinds[at] is UnitKind.TOKEN:
            while behind > at + 1 and self.units.kinds[behind - 1] is not UnitKind.TOKEN:
                behind -= 1
        return self._label_items(node, at, behind), [below], behind

    def _label_items(self, node: Node, at: int, behind: int) -> Items:
        self.spans.append((self.units.starts[at], self.units.ends[behind - 1]))
        if node.kind == syntax.LABEL:
            if self.units.kinds[at] is UnitKind.TOKEN:
                self._check_attributes(self.expect(at + 1, ":"), behind)
            name = libclang.spelling(node.cursor)
            if not _LABEL.fullmatch(name):
                raise Refused(node.start, f"the label {name} has a name of another form or of more than 63 bytes")
            self.labels.add(name)
            return [forms.Label(libclang.spelling(node.cursor))]
        if node.kind == syntax.DEFAULT:
            if self.units.kinds[at] is UnitKind.TOKEN:
                self.expect(self.expect(at, "default"), ":")
            return [forms.Default()]
        return self._case(node, at, behind)

    def _check_attributes(self, at: int, behind: int) -> None:
        """Raise where something but attributes stands between a label's colon and its statement."""
        while at < behind and self.units.words[at] in ("__attribute__", "__attribute", "["):
            at = self.units.mates[at + (self.units.words[at] != "[")] + 1
        if at < behind:
            raise self.not_understood(at, "a label of another form")

    def _case(self, node: Node, at: int, behind: int) -> Items:
        values = [libclang.constant_value(child.cursor) for child in node.children[:-1]]
        if not self.selectors or None in values:
            raise Refused(node.start, "a case label whose value isn't known")
        selector = self.selectors[-1]
        low, high = (reduced(value or 0, selector.kind) for value in (values[0], values[-1]))
        if high - low >= _LONGEST_RANGE:
            raise Refused(node.start, f"a case range of more than {_LONGEST_RANGE} values")
        text = self.file.text[self.units.starts[at]: self.units.ends[behind - 1]]
        if self._names("__LINE__", text):
            raise Refused(node.start, "a case label that names its line")
        if self._names("__COUNTER__", text):
            raise Refused(node.start, "a case label with __COUNTER__")
        if self.units.kinds[at] is UnitKind.INVOCATION:
            written = CaseText(None, text, low, high, False)
        else:
            self.expect(behind - 1, ":")
            constant = self.file.text[self.units.starts[at + 1]: self.units.ends[behind - 2]]
            written = CaseText(constant, None, low, high, is_narrow(self.file, node.children[0].cursor, selector.kind))
        for value in range(low, high + 1):
            self.cases[selector.name, value] = written
        return [forms.Case(value) for value in range(low, high + 1)]


def _returns_values(node: Node) -> bool:
    """Return whether a statement has a `return` with a value."""
    return (node.kind == syntax.RETURN and bool(node.children)) or any(map(_returns_values, node.children))
