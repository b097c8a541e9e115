"""Comparing: a result that was cut again has to be what the core wrote, with the pieces of the source."""

from __future__ import annotations

from typing import Any

from . import forms
from .accounting import account, named, types_of, uses_of
from .cutting import Cutter
from .expected import Side, is_opaque, words_between
from .forms import Items
from .ground import NeedsExpansion
from .layout import Renderer
from .messages import Fault, Refused
from .pieces import Form
from .reading import Function, SourceFile
from .recutting import ResultCutter


class Known:
    """What is known of a source before there is a result: its tokens are accounted for, what names mean, and types."""

    def __init__(self, cutter: Cutter, items: Items) -> None:
        self.cutter = cutter
        self.fault: Fault | None = None
        try:
            account(cutter, items)
        except Fault as fault:
            self.fault = fault
        self.uses = uses_of(cutter)
        self.types = types_of(cutter)


def compare(file: SourceFile, function: Function, known: Known, renderer: Renderer, items: Items) -> None:
    """Cut a function of the result, and compare it with what the core wrote, `items`, and with its source.

    Raises `Fault` where they differ.
    """
    names = frozenset(item.name for item in items if isinstance(item, forms.Declare))
    try:
        result = ResultCutter(file, function, names)
        found = result.cut()
    except (Refused, NeedsExpansion) as refused:
        raise Fault(f"{function.name}: the result can't be cut: {refused}") from None
    declared = [item for item in items if isinstance(item, forms.Declare)]
    left = Side(known.cutter, renderer.renames, renderer.copy)
    _compare_top(result, left, declared)
    rest: Items = [item for item in items if not isinstance(item, forms.Declare)]
    Comparison(left, Side(result)).lists(rest, found, is_body=False)
    if known.fault is not None:
        raise known.fault
    account(result, found, names)
    # assignments name their variables once more
    if named(known.uses, renderer.renames) - named(uses_of(result), {}):
        raise Fault(f"{function.name}: a name means another thing in the result")
    types = {renderer.renames.get(offset, name): type_ for offset, name, type_ in known.types}
    if not types.items() <= {name: type_ for _, name, type_ in types_of(result)}.items():
        raise Fault(f"{function.name}: a variable has another type in the result")


def _compare_top(result: Cutter, source: Side, declared: list[forms.Declare]) -> None:
    """Compare the declarations at the top."""
    words = source.top()
    for item in declared:
        words += [*item.type.split(), item.name, *(["=", str(item.value)] if item.value is not None else []), ";"]
    if words != words_between(result.file, result.function.body, result.kept_end):
        raise Fault(f"{result.function.name}: the declarations at the top aren't those of the source")


class Comparison:
    """Compares what the core wrote, on the left, with what was cut from the result."""

    def __init__(self, left: Side, right: Side) -> None:
        self.left = left
        self.right = right

    def fault(self, what: str) -> Fault:
        return Fault(f"{self.left.cutter.function.name}: {what}")

    def lists(self, left: Items, right: Items, is_body: bool = True) -> None:
        """Compare two lists."""
        mine, other = _joined(left, self.left, is_body), _joined(right, self.right, is_body)
        if len(mine) != len(other):
            raise self.fault("a list has another length in the result")
        for one, two in zip(mine, other):
            if isinstance(one, list) or isinstance(two, list):
                if one != two:
                    raise self.fault(_difference(one, two))
            else:
                self.items(one, two)

    def items(self, left: forms.Item, right: Any) -> None:
        """Compare two items that aren't statements of the source."""
        if type(left) is not type(right):
            raise self.fault(f"a {type(right).__name__} stands in the place of a {type(left).__name__}")
        match left, right:
            case forms.If(test, then, other), forms.If():
                self.values(test, right.test)
                self.lists(then, right.then)
                self.lists(other, right.other)
            case forms.While(test, body), forms.While():
                self.values(test, right.test)
                self.lists(body, right.body)
            case forms.DoWhile(body, test), forms.DoWhile():
                self.lists(body, right.body)
                self.values(test, right.test)
            case forms.For(first, test, third, body), forms.For():
                for one, two in ((first, right.first), (test, right.test), (third, right.third)):
                    self.parts(one, two)
                self.lists(body, right.body)
            case forms.Switch(selector, body), forms.Switch():
                self.values(selector, right.selector)
                self.lists(body, right.body, is_body=False)
            case forms.Return(value), forms.Return():
                self.parts(value, right.value)
            case forms.Set(name, value), forms.Set():
                if name != right.name:
                    raise self.fault("another variable is set")
                self.values(value, right.value)
            case _:
                if left != right:
                    raise self.fault(f"{right} stands in the place of {left}")

    def parts(self, left: str | None, right: str | None) -> None:
        """Compare two pieces that may be absent."""
        mine, other = self.left.tokens(left), self.right.tokens(right)
        if mine != other:
            raise self.fault(_difference(mine, other))

    def values(self, left: forms.Value, right: Any) -> None:
        """Compare two tests or selectors."""
        match left, right:
            case forms.Number(value), forms.Ask(piece):
                if self.right.tokens(piece) != [str(value)]:
                    raise self.fault("another number")
            case forms.Ask(piece), forms.Ask(other):
                self.pieces(piece, other)
            case forms.NotZero(forms.Ask(piece)), forms.NotZero(forms.Ask(other)):
                truth = self.left.cutter.pieces[piece].yields_truth
                self.pieces(piece, self.right.cutter.wholes[other] if truth else other)
            case forms.Chain(mark, parts), forms.Chain(other_mark, others):
                if mark != other_mark or len(parts) != len(others):
                    raise self.fault("another test")
                for one, two in zip(parts, others):
                    self.values(one, two)
            case forms.Choose(guard, value, selector), forms.Choose(other_guard, other_value, other):
                if (guard, value) != (other_guard, other_value):
                    raise self.fault("another choice")
                self.values(selector, other)
            case _:
                if left != right:
                    raise self.fault(f"{right} stands in the place of {left}")

    def pieces(self, left: str, right: str) -> None:
        """Compare two pieces in a test or a selector, of which the right one may stand in brackets."""
        mine, other = self.left.tokens(left), self.right.tokens(right)
        if mine != other and ["(", *mine, ")"] != other:
            raise self.fault(_difference(mine, other))
        one, two = self.left.cutter.pieces[left], self.right.cutter.pieces[right]
        if one.form is Form.SELECTOR and one.kind != two.kind:
            raise self.fault("a selector has another type")


def _joined(items: Items, side: Side, is_body: bool) -> list[Any]:
    """Return a list in which opaque statements that follow each other are one row of tokens; comments are left out."""
    if is_body and len(items) == 1 and isinstance(items[0], forms.Do):
        return [words for words in [side.words(items, True)] if words]
    out: list[Any] = []
    for item in items:
        if isinstance(item, forms.Note):
            continue
        if not is_opaque(item):
            out.append(item)
        elif words := side.words([item], False):
            if out and isinstance(out[-1], list):
                out[-1] = out[-1] + words
            else:
                out.append(words)
    return out


def _difference(left: Any, right: Any) -> str:
    """Say where two rows of tokens differ first."""
    if not isinstance(left, list) or not isinstance(right, list):
        return "a statement stands in the place of another"
    for one, two in zip(left, right):
        if one != two:
            return f"'{two}' stands in the place of '{one}'"
    return f"{abs(len(left) - len(right))} tokens too {'many' if len(right) > len(left) else 'few'}"
