"""Cutting a result: the same cutter, which knows the variables of the core by their names."""

from __future__ import annotations

from typing import Any

from . import forms, libclang
from .cutting import Cutter
from .expressions import is_truth, reduced
from .forms import Ask, Choose, Equal, Guard, NotZero, Number
from .libclang import Kind
from .messages import Fault
from .pieces import Form
from .reading import Function, SourceFile
from .syntax import Node
from .units import UnitKind

_BINARY = Kind.BINARY_OPERATOR
_CONDITIONAL = Kind.CONDITIONAL_OPERATOR


class ResultCutter(Cutter):
    """Cuts a function that was put back; `core_names` has the variables of the core.

    `wholes` has for what a guard is set to, without a comparison with 0, the piece with it.
    """

    looks_for_concerns = False

    def __init__(self, file: SourceFile, function: Function, core_names: frozenset[str]) -> None:
        super().__init__(file, function)
        self.core_names = core_names
        self.kinds: dict[str, str] = {}

    def check_whole(self) -> None:
        pass  # its source was looked at

    def fault(self, at: int, what: str) -> Fault:
        """Return what to raise where the result isn't what was proved."""
        line = self.file.text.count("\n", 0, self.units.starts[at]) + 1
        return Fault(f"{self.function.name}: line {line} of the result: {what}")

    def names_core(self, first: int, behind: int) -> bool:
        """Return whether a variable of the core stands among the units from `first` up to `behind`."""
        words = self.units.words[first:behind]
        if self.core_names.isdisjoint(words):
            return False
        kinds = self.units.kinds[first:behind]
        return any(word in self.core_names and kind is UnitKind.TOKEN for word, kind in zip(words, kinds))

    # -- statements

    def core_statement(self, node: Node, at: int, behind: int) -> forms.Item | None:
        if not (self.units.words[at] in self.core_names and self.is_token(at + 1, "=")):
            return None
        name = self.units.words[at]
        right = libclang.children(node.cursor)[1]
        first, end = at + 2, behind - 1
        if self.names_core(first, end):
            return forms.Set(name, self.expression(right, first, end))
        if end == first + 1 and self.units.words[first] in ("0", "1"):
            return forms.Set(name, Number(int(self.units.words[first])))
        inner = Node(right.kind, libclang.start_offset(right), right)
        if name.startswith("switch_"):
            return forms.Set(name, super().selector(inner, first, end))
        left = self.left_of_zero(right, first, end)
        plain = self.bare(right)  # without the conversion of a truth value to the guard's type
        if left is None and not is_truth(self, Node(plain.kind, inner.start, plain), first, end):
            raise self.fault(at, "a guard gets a value that isn't 0 or 1")
        whole = self.asked(first, end)
        asked = whole if left is None else self.asked(first, left)
        if left is not None:
            self.doubles.add(asked.piece)
        self.wholes[asked.piece] = whole.piece
        return forms.Set(name, NotZero(asked))

    def left_of_zero(self, cursor: Any, first: int, end: int) -> int | None:
        """Return the unit of the mark if an expression is one that is compared with 0 by `!=`, else None."""
        cursor = self.bare(cursor)
        if cursor.kind != _BINARY or not (self.is_token(end - 1, "0") and self.is_token(end - 2, "!=")):
            return None
        right = libclang.children(cursor)[1]
        return end - 2 if self.units.at(libclang.start_offset(right)) == end - 1 else None

    def asked(self, first: int, behind: int) -> Ask:
        """Return a piece in a test."""
        return Ask(self.stretch(Form.TEST, first, behind).name)

    # -- tests

    def test(self, node: Node, first: int, behind: int) -> forms.Test:
        if not self.names_core(first, behind):
            return super().test(node, first, behind)
        test = self.expression(node.cursor, first, behind)
        assert not isinstance(test, Choose)
        return test

    def selector(self, node: Node, first: int, behind: int) -> forms.Value:
        if not self.names_core(first, behind):
            return super().selector(node, first, behind)
        cursor = self.bare(node.cursor)
        if cursor.kind != _CONDITIONAL or not self.is_token(first + 1, "?"):
            raise self.fault(first, "a selector of another form")
        condition, constant, other = libclang.children(cursor)
        colon = self.scan(first, ":", behind)
        inner = Node(other.kind, libclang.start_offset(other), node.cursor)
        if self.units.at(inner.start) != colon + 1:
            raise self.fault(first, "a selector of another form")
        self.spans.append((self.units.starts[first], self.units.starts[colon + 1]))
        selector = self.selector(inner if not self.names_core(colon + 1, behind) else
                                 Node(other.kind, inner.start, other), colon + 1, behind)
        value = libclang.constant_value(constant)
        if value is None:
            raise self.fault(first, "a selector of another form")
        return Choose(self.units.words[first], reduced(value, self.selectors[-1].kind), selector)

    def bare(self, cursor: Any) -> Any:
        """Return an expression without implicit conversions."""
        while cursor.kind == Kind.UNEXPOSED_EXPR:
            cursor = libclang.children(cursor)[0]
        return cursor

    def expression(self, cursor: Any, first: int, behind: int) -> forms.Test:
        """Return a test in which variables of the core stand, cut as libclang has read it."""
        cursor = self.bare(cursor)
        if not self.names_core(first, behind):
            return self.asked(first, behind)
        words = self.units.words[first:behind]
        if len(words) == 1:
            return Guard(words[0])
        if len(words) == 2 and words[0] == "!":
            return Guard(words[1], off=True)
        if words[0] == "(" and self.units.mates[first] == behind - 1:
            return self.expression(libclang.children(cursor)[0], first + 1, behind - 1)
        return self.chain(cursor, first, behind)

    def chain(self, cursor: Any, first: int, behind: int) -> forms.Test:
        """Cut tests that are joined by one mark, or a comparison of a variable of the core with a constant."""
        cuts, nodes, mark = self.spine(cursor, first)
        if mark == "==":
            value = libclang.constant_value(nodes[-1])
            self.spans.append((self.units.starts[first], self.units.ends[behind - 1]))
            if value is None or cuts != [first + 1]:
                raise self.fault(first, "a comparison of another form")
            return Equal(self.units.words[first], reduced(value, self.kinds_of(self.units.words[first])))
        if mark not in ("&&", "||"):
            raise self.fault(first, "a variable of the core in a piece")
        starts = [first, *(cut + 1 for cut in cuts)]
        ends = [*cuts, behind]
        parts: list[forms.Test] = []
        for node, start, end in zip(nodes, starts, ends):
            if not self.names_core(start, end):
                parts.append(self.expression(node, start, end) if end == behind else self.asked(start, behind))
                if self.names_core(start, behind):
                    raise self.fault(start, "a variable of the core in a piece")
                break
            parts.append(self.expression(node, start, end))
        return forms.chained(mark, parts)

    def spine(self, cursor: Any, first: int) -> tuple[list[int], list[Any], str]:
        """Return the units of the marks that join what begins at `first`, what they join, and the mark."""
        cuts: list[int] = []
        nodes: list[Any] = []
        mark = ""
        while cursor.kind == _BINARY:
            left, right = libclang.children(cursor)
            cut = self.units.at(libclang.start_offset(right)) - 1
            if cuts and cut >= cuts[0]:
                raise self.fault(first, "a macro with a mark outside of brackets")
            if mark and self.units.words[cut] != mark:
                break
            mark = self.units.words[cut]
            cuts.insert(0, cut)
            nodes.insert(0, right)
            cursor = self.bare(left)
        return cuts, [cursor, *nodes], mark

    def kinds_of(self, name: str) -> str:
        """Return the kind of a variable of the core that holds a selector."""
        return self.kinds.get(name, "int")
