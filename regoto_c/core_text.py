"""Reading what the core wrote: from its text to the forms of statements."""

from __future__ import annotations

from typing import Callable

from . import forms
from .forms import Ask, Choose, Equal, Guard, Items, NotZero, Number, chained
from .lexing import TokenKind, tokens_of
from .messages import Fault

_TYPES = frozenset("int unsigned long signed char".split())


def body_of(text: str) -> Items:
    """Return the body of a function that the core wrote.

    Raises `Fault` where the text has another form than the core writes.
    """
    reader = _Reader(text)
    items = reader.function()
    if not reader.is_at_end:
        raise Fault(f"the core wrote '{reader.next()}' behind a function")
    return items


class _Reader:
    def __init__(self, text: str) -> None:
        tokens = tokens_of(text)
        self.words = [*tokens.spellings, ""]
        self.kinds = [*tokens.kinds, TokenKind.OTHER]
        self.at = 0

    @property
    def is_at_end(self) -> bool:
        return self.at + 1 >= len(self.words)

    def next(self) -> str:
        self.at += 1
        return self.words[self.at - 1]

    def accept(self, word: str) -> bool:
        if self.words[self.at] == word:
            self.at += 1
            return True
        return False

    def expect(self, *words: str) -> None:
        for word in words:
            if not self.accept(word):
                raise Fault(f"the core wrote '{self.words[self.at]}' where '{word}' was expected")

    def function(self) -> Items:
        """Read a function."""
        while self.words[self.at] not in ("(", ""):
            self.at += 1
        self.expect("(", "void", ")")
        return self.block()

    def block(self) -> Items:
        self.expect("{")
        items: Items = []
        while not self.accept("}"):
            items.append(self.item())
        return items

    def body(self) -> Items:
        return self.block() if self.words[self.at] == "{" else [self.item()]

    def item(self) -> forms.Item:
        word = self.words[self.at]
        if self.kinds[self.at] is TokenKind.COMMENT:
            return forms.Note(int(self.next()[2:-2]))
        if word in _TYPES:
            return self.declaration()
        self.at += 1
        match word:
            case ";":
                return forms.Empty()
            case "if":
                test, then = self.head(), self.body()
                return forms.If(test, then, self.body() if self.accept("else") else [])
            case "while":
                return forms.While(self.head(), self.body())
            case "do":
                body = self.body()
                self.expect("while")
                test = self.head()
                self.expect(";")
                return forms.DoWhile(body, test)
            case "for":
                return self.for_loop()
            case "switch":
                self.expect("(")
                selector = self.selector()
                self.expect(")")
                return forms.Switch(selector, self.block())
        return self.simple(word)

    def simple(self, word: str) -> forms.Item:
        match word:
            case "case":
                number = self.value()
                self.expect(":")
                return forms.Case(number)
            case "default":
                self.expect(":")
                return forms.Default()
            case "break" | "continue":
                self.expect(";")
                return forms.Break() if word == "break" else forms.Continue()
            case "return":
                piece = self.call_until(";")
                self.expect(";")
                return forms.Return(piece)
        if self.accept("="):
            value = self.selector()
            self.expect(";")
            return forms.Set(word, value)
        self.expect("(", ")", ";")
        return forms.Do(word)

    def declaration(self) -> forms.Item:
        words = [self.next()]
        while self.words[self.at] not in ("=", ";"):
            words.append(self.next())
        value = self.value() if self.accept("=") else None
        self.expect(";")
        return forms.Declare(" ".join(words[:-1]), words[-1], value)

    def for_loop(self) -> forms.Item:
        self.expect("(")
        first = self.call_until(";")
        self.expect(";")
        test = self.call_until(";")
        self.expect(";")
        third = self.call_until(")")
        self.expect(")")
        return forms.For(first, test, third, self.body())

    def call_until(self, mark: str) -> str | None:
        if self.words[self.at] == mark:
            return None
        name = self.next()
        self.expect("(", ")")
        return name

    # -- tests

    def head(self) -> forms.Test:
        """Read a test in brackets; whether it is 0 is what a test asks anyway."""
        self.expect("(")
        test = self.test()
        self.expect(")")
        return test.test if isinstance(test, NotZero) else test

    def selector(self) -> forms.Value:
        if self.words[self.at + 1] != "?":
            return self.test()
        guard = self.next()
        self.expect("?")
        value = self.value()
        self.expect(":")
        return Choose(guard, value, self.selector())

    def test(self) -> forms.Test:
        return self.chain("||", lambda: self.chain("&&", self.equality))

    def chain(self, mark: str, part: Callable[[], forms.Test]) -> forms.Test:
        """Read tests that are joined by `mark`; those in brackets that are joined by it too are joined alike."""
        parts = [part()]
        while self.accept(mark):
            parts.append(part())
        return chained(mark, parts)

    def equality(self) -> forms.Test:
        test = self.unary()
        if self.accept("!="):
            self.expect("0")
            return NotZero(test)
        if self.accept("=="):
            assert isinstance(test, Guard)
            return Equal(test.name, self.value())
        return test

    def unary(self) -> forms.Test:
        if self.accept("!"):
            return Guard(self.next(), off=True)
        if self.words[self.at] == "(":
            return self.head()
        if self.kinds[self.at] is TokenKind.NUMBER:
            return Number(self.value())
        name = self.next()
        if self.accept("("):
            self.expect(")")
            return Ask(name)
        return Guard(name)

    def value(self) -> int:
        """Read a constant: a number, one less than 0, or the least of its kind as a difference."""
        if self.accept("("):
            value = self.value()
            self.expect(")")
            return value
        sign = -1 if self.accept("-") else 1
        value = sign * int(self.next().rstrip("uUlL"))
        return value - self.value() if self.accept("-") else value
