"""The tokens that a result has to have where no variable of the core and no jump stands."""

from __future__ import annotations

from typing import TYPE_CHECKING, Sequence

from . import forms
from .declarations import Replacement
from .forms import Items
from .initialisers import Initialised
from .lexing import TokenKind, tokens_of
from .messages import Fault
from .pieces import Form
from .reading import Edit, SourceFile
from .records import dataclass, field

if TYPE_CHECKING:
    from .cutting import Cutter

_IGNORED = (TokenKind.COMMENT, TokenKind.CONTINUATION)


def words_in(text: str) -> list[str]:
    """Return the tokens of a text, without comments."""
    tokens = tokens_of(text)
    return [word for kind, word in zip(tokens.kinds, tokens.spellings) if kind not in _IGNORED]


def words_between(file: SourceFile, start: int, end: int) -> list[str]:
    """Return the tokens that begin between two offsets of a file, without comments."""
    tokens = file.tokens
    places = range(tokens.first_from(start), tokens.first_from(end))
    return [tokens.spellings[at] for at in places if tokens.kinds[at] not in _IGNORED]


def is_opaque(item: forms.Item, in_loop: bool = False, in_switch: bool = False) -> bool:
    """Return whether the cutter takes an item of a result for a statement without control flow of its own."""
    match item:
        case forms.Do() | forms.Empty() | forms.Note():
            return True
        case forms.Break():
            return in_loop or in_switch
        case forms.Continue():
            return in_loop
        case forms.Case() | forms.Default():
            return in_switch
        case forms.If(test, then, other):
            return _is_plain(test) and all(is_opaque(one, in_loop, in_switch) for one in [*then, *other])
        case forms.While(test, body) | forms.DoWhile(body, test):
            return _is_plain(test) and all(is_opaque(one, True, False) for one in body)
        case forms.For():
            return all(is_opaque(one, True, False) for one in item.body)
        case forms.Switch(selector, body):
            return _is_plain(selector) and all(is_opaque(one, in_loop, True) for one in body)
    return False


def _is_plain(value: forms.Value) -> bool:
    return isinstance(value, (forms.Ask, forms.Number))


@dataclass
class Side:
    """One side of a comparison: a cutter, and for the source the new names of variables, and the one of memcpy."""

    cutter: Cutter
    renames: dict[int, str] = field(default_factory=dict)
    copy: str = "memcpy"

    def tokens(self, name: str | None) -> list[str]:
        """Return the tokens of a piece, as they stand in the result; those of an absent piece are none."""
        if name is None:
            return []
        piece = self.cutter.pieces[name]
        return self.span(piece.start, piece.end, self.cutter.declarations.replacements)

    def span(self, start: int, end: int, replacements: Sequence[Replacement | Edit]) -> list[str]:
        """Return the tokens of the source that begin between two offsets, with what replaces some of them."""
        tokens = self.cutter.file.tokens
        inside = sorted((one for one in replacements if one.start < end and one.end > start or one.start == one.end and
                         start <= one.start < end), key=lambda one: one.start)
        found: list[str] = []
        at = tokens.first_from(start)
        for one in inside:
            found += self._plain(at, tokens.first_from(max(start, one.start)))
            found += words_in(one.text) if isinstance(one, Edit) else self._assignments(one)
            at = tokens.first_from(max(start, one.end))
        return found + self._plain(at, tokens.first_from(end))

    def _plain(self, first: int, behind: int) -> list[str]:
        tokens = self.cutter.file.tokens
        return [
            self.renames.get(tokens.offsets[at], tokens.spellings[at])
            for at in range(first, behind)
            if tokens.kinds[at] not in _IGNORED
        ]

    def _assignments(self, one: Replacement) -> list[str]:
        words: list[str] = []
        for variable in one.variables:
            words += [one.joint.strip()] if words else []
            words += self._assignment(variable)
        return words

    def _assignment(self, one: Initialised) -> list[str]:
        """Return the tokens of the assignment that takes the place of an initialiser."""
        name, value = self.span(*one.name, []), self.span(*one.value, [])
        if one.form == "plain":
            return [*name, "=", *value]
        size = [",", "sizeof", *name, ")"]
        if one.form == "zero":
            return [self.copy.replace("memcpy", "memset"), "(", *name, ",", "0", *size]
        if one.form == "bytes":
            return [self.copy, "(", *name, ",", *value, *size]
        type_ = ["(", "__typeof__", "(", *name, ")", ")"]
        if one.type_spans is not None:
            type_ = ["(", *[word for span in one.type_spans for word in self.span(*span, one.edits)], ")"]
        if one.form == "compound":
            return [*name, "=", *type_, *value]
        return [self.copy, "(", *name, ",", *type_, *(["{", *value, "}"] if one.form == "text" else value), *size]

    def top(self) -> list[str]:
        """Return the tokens of the declarations at the top."""
        words = words_between(self.cutter.file, self.cutter.function.body, self.cutter.kept_end)
        for moved in self.cutter.declarations.moved:
            for start, end in moved.spans:
                words += self.span(start, end, moved.edits)
            words.append(";")
        return words

    def words(self, items: Items, is_body: bool, selector: str = "") -> list[str]:
        """Return the tokens of opaque items; `selector` is that of the switch around them."""
        if is_body and len(items) == 1 and isinstance(items[0], forms.Do):
            return self.statements(items[0].piece, False)
        return [word for item in items for word in self._words(item, selector)]

    def statements(self, name: str, braces: bool) -> list[str]:
        """Return the tokens of a piece that stands as statements."""
        piece = self.cutter.pieces[name]
        words = self.tokens(name) + ([";"] if piece.form in (Form.PART, Form.TEST) else [])
        return ["{", *words, "}"] if braces and piece.scoped else words

    def _value(self, value: forms.Value) -> list[str]:
        if isinstance(value, forms.Number):
            return [str(value.value)]
        assert isinstance(value, forms.Ask)
        return self.tokens(value.piece)

    def _words(self, item: forms.Item, selector: str) -> list[str]:
        match item:
            case forms.Do(piece):
                return self.statements(piece, True)
            case forms.Note():
                return []
            case forms.Empty():
                return [";"]
            case forms.Break():
                return ["break", ";"]
            case forms.Continue():
                return ["continue", ";"]
            case forms.Default():
                return ["default", ":"]
            case forms.Case(value):
                return self._case(selector, value)
            case forms.If(test, then, other):
                words = ["if", "(", *self._value(test), ")", "{", *self.words(then, True, selector), "}"]
                if len(other) == 1 and isinstance(other[0], forms.If):
                    return [*words, "else", *self._words(other[0], selector)]
                return [*words, "else", "{", *self.words(other, True, selector), "}"] if other else words
            case forms.While(test, body):
                return ["while", "(", *self._value(test), ")", "{", *self.words(body, True, selector), "}"]
            case forms.DoWhile(body, test):
                inner = self.words(body, True, selector)
                return ["do", "{", *inner, "}", "while", "(", *self._value(test), ")", ";"]
            case forms.For(first, test, third, body):
                head = [*self.tokens(first), ";", *self.tokens(test), ";", *self.tokens(third)]
                return ["for", "(", *head, ")", "{", *self.words(body, True, selector), "}"]
            case forms.Switch(value, body):
                assert isinstance(value, forms.Ask)
                inner = self.words(body, False, value.piece)
                return ["switch", "(", *self._value(value), ")", "{", *inner, "}"]
        raise Fault(f"{item} isn't opaque")

    def _case(self, selector: str, value: int) -> list[str]:
        """Return the tokens of a case label; those of a range stand at its first value."""
        written = self.cutter.cases[selector, value]
        if value != written.first:
            return []
        return words_in(written.whole or f"case {written.constant}:")
