"""What cutting stands on: where a statement begins and ends in the row of units."""

from __future__ import annotations

from . import libclang, syntax
from .messages import Refused
from .reading import Function, SourceFile
from .syntax import Node, Syntax
from .units import Comment, UnitKind, Units, units_of


class NeedsExpansion(Exception):
    """Invocations, by their offsets, that hold a part of what has to be taken apart, or a name that has to change."""

    def __init__(self, *offsets: int) -> None:
        super().__init__(*offsets)
        self.offsets = offsets


class Ground:
    """A function with its units and its tree."""

    looks_for_concerns = True

    def __init__(self, file: SourceFile, function: Function) -> None:
        self.file = file
        self.function = function
        self.units: Units = units_of(file, function)
        self.syntax = Syntax(function.compound, self.looks_for_concerns)

    # -- units

    def unit_of(self, node: Node) -> int:
        """Return the unit in which a statement begins."""
        return self.units.at(node.start)

    def is_token(self, at: int, word: str) -> bool:
        """Return whether a unit is this token."""
        return self.units.words[at] == word and self.units.kinds[at] is UnitKind.TOKEN

    def expect(self, at: int, word: str) -> int:
        """Return the unit behind `at`, which has to be this token."""
        if not self.is_token(at, word):
            raise self.not_understood(at, f"'{word}' expected here")
        return at + 1

    def not_understood(self, at: int, why: str) -> Exception:
        """Return what to raise where a unit isn't what has to stand there."""
        if self.units.kinds[at] is UnitKind.INVOCATION:
            return NeedsExpansion(self.units.starts[at])
        if at in self.units.faults:
            return self.units.faults[at]
        if self.units.kinds[at] is UnitKind.GROUP:
            return Refused(self.units.starts[at], "a jump or a label stands in a conditional group", True)
        if why.endswith("expected here") and self.units.faults:  # half of a statement stands in a group
            return self.units.faults[min(self.units.faults, key=lambda unit: abs(unit - at))]
        return Refused(self.units.starts[at], why)

    def scan(self, at: int, word: str, limit: int) -> int:
        """Return the first unit from `at` that is this token outside of brackets, or `limit` if none is before it."""
        kinds, words, mates = self.units.kinds, self.units.words, self.units.mates
        while at < limit:
            if kinds[at] is UnitKind.TOKEN:
                if words[at] == word:
                    return at
                at = mates.get(at, at)
            at += 1
        return limit

    def comments_between(self, start: int, end: int) -> list[Comment]:
        """Return the comments that begin from one offset up to another."""
        return self.units.comments_from(start, end)

    def check_units(self, at: int, behind: int) -> None:
        """Raise where a group that can't be a piece stands among the units from `at` up to `behind`."""
        for unit in range(at, behind):
            if unit in self.units.faults:
                raise self.units.faults[unit]

    # -- ends of statements

    def finish(self, node: Node, at: int, limit: int) -> int:
        """Return the unit behind a statement that begins at unit `at`; what follows it begins at `limit` or before."""
        if self.units.kinds[at] is not UnitKind.TOKEN:
            return self._finish_whole(node, at, limit)
        match node.kind:
            case syntax.COMPOUND:
                return self.units.mates[at] + 1
            case syntax.IF:
                return self._finish_if(node, at, limit)
            case syntax.WHILE | syntax.FOR | syntax.SWITCH:
                body = self.header_end(at) + 1
                return self.finish(node.children[-1], body, limit)
            case syntax.DO:
                word = self.expect(self.finish(node.children[0], at + 1, limit), "while")
                return self.expect(self.units.mates[word] + 1, ";")
            case syntax.LABEL | syntax.CASE | syntax.DEFAULT:
                below = node.children[-1]
                return self.finish(below, self.unit_of(below), limit)
        return min(self.scan(at, ";", limit) + 1, limit)

    def header_end(self, at: int) -> int:
        """Return the unit of the bracket that closes the head of the construct whose word is at `at`."""
        self.expect(at + 1, "(")
        return self.units.mates[at + 1]

    def _finish_if(self, node: Node, at: int, limit: int) -> int:
        behind = self.finish(node.children[1], self.header_end(at) + 1, limit)
        if len(node.children) < 3:
            return behind
        return self.finish(node.children[2], self.expect(behind, "else"), limit)

    def _finish_whole(self, node: Node, at: int, limit: int) -> int:
        """Return the unit behind a statement that begins in an invocation or a group."""
        end = libclang.extent(node.cursor)[1]
        behind = at + 1
        if end > self.units.ends[at]:
            behind = self.units.at(end - 1) + 1
        if behind < limit and self.is_token(behind, ";"):
            behind += 1
        return min(behind, limit)
