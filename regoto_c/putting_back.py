"""Putting back: from what the core wrote to the text of a function, with the pieces in the place of their calls."""

from __future__ import annotations

from typing import TYPE_CHECKING

from . import expressions, forms
from .forms import Ask, Chain, Choose, Equal, Guard, Items, NotZero, Number, asked
from .layout import Layout, Renderer
from .pieces import Form, Piece

if TYPE_CHECKING:
    from .cutting import Cutter


class Writer:
    """Writes the body of one function."""

    def __init__(self, cutter: Cutter, layout: Layout, renderer: Renderer) -> None:
        self.cutter = cutter
        self.layout = layout
        self.renderer = renderer
        self.lines: list[str] = []
        self.columns = layout.base + layout.step
        self.switches: list[str] = []
        self.falls = dict(cutter.falls)
        self.variables: dict[str, str] = {}

    def body(self, items: Items) -> str:
        """Return the body of the function, from its `{` to its `}`."""
        text, function = self.cutter.file.text, self.cutter.function
        kept = text[function.body: self.cutter.kept_end]
        self.lines = []
        for moved in self.cutter.declarations.moved:
            self.line(moved.text(self.renderer.plain))
        rest = list(items)
        while rest and isinstance(rest[0], forms.Declare):
            self.item(rest.pop(0))
        if text[self.cutter.kept_end:].lstrip(" \t\r").startswith("\n") and self._gap_follows():
            self.lines.append("")
        self.items(rest)
        left = [*self.falls.values(), *self.renderer.trailing.values()]
        for start, end in [span for spans in left for span in spans]:  # of labels that aren't there
            self.line(self.renderer.shifted(start, end, self.columns))
        self.columns = self.layout.base
        self.line("}")
        return self.layout.newline.join([kept, *self.lines])

    def _gap_follows(self) -> bool:
        """Return whether an empty line stands behind the declarations that stay."""
        text = self.cutter.file.text
        line = text.find("\n", self.cutter.kept_end)
        return not text[line + 1: text.find("\n", line + 1)].strip()

    # -- lines

    def line(self, text: str) -> None:
        """Write a line; a directive begins at its own first column."""
        self.lines.append(text if text.startswith("#") else self.layout.white(self.columns) + text)

    def close(self, asked_for: str | None, text: str = "}") -> None:
        """Write the end of a statement that asks for a piece, with the comments that stand behind its bracket."""
        self.line(text)
        self.renderer.put_behind(asked_for, self.lines, self.columns)

    def between_lines(self, text: str) -> str:
        """Return the text of an expression; a directive at its front or end gets a line of its own."""
        if text.startswith("#"):
            text = self.layout.newline + text
        if text[text.rfind("\n") + 1:].startswith("#"):
            text += self.layout.newline + self.layout.white(self.columns)
        return text

    def items(self, items: Items) -> None:
        """Write the items of a list."""
        for number, item in enumerate(items):
            start = self._start(item)
            if number and start is not None and self.layout.has_gap_before(start) and self.lines[-1]:
                self.lines.append("")
            self.item(item)

    def _start(self, item: forms.Item) -> int | None:
        """Return where an item stands in the source, as far as its first piece says it."""
        name: str | None = None
        match item:
            case forms.Note(number):
                return self.cutter.notes[number][0]
            case forms.Do(piece):
                name = piece
            case forms.If(test, _) | forms.While(test, _):
                name = asked(test)
            case forms.Switch(value, _) | forms.Set(_, value):
                name = asked(value)
        return self.cutter.pieces[name].start if name else None

    def block(self, items: Items) -> None:
        """Write the items of a body, one step further in."""
        self.columns += self.layout.step
        if len(items) == 1 and isinstance(items[0], forms.Do) and self.cutter.pieces[items[0].piece].scoped:
            self.piece(self.cutter.pieces[items[0].piece])
        else:
            self.items(items)
        self.columns -= self.layout.step

    def piece(self, piece: Piece) -> None:
        """Write a piece as statements."""
        text = self.renderer.shifted(piece.start, piece.end, self.columns)
        if piece.form in (Form.PART, Form.TEST):
            text += ";"
        self.line(text)

    # -- items

    def item(self, item: forms.Item) -> None:
        """Write one item."""
        match item:
            case forms.Do(name):
                piece = self.cutter.pieces[name]
                if piece.scoped:
                    self.line("{")
                    self.columns += self.layout.step
                    self.piece(piece)
                    self.columns -= self.layout.step
                    self.line("}")
                else:
                    self.piece(piece)
            case forms.Note(number):
                self.line(self.renderer.shifted(*self.cutter.notes[number], self.columns))
            case forms.If():
                self.choice(item)
            case forms.While(test, body):
                self.line(f"while ({self.test(test)}) {{")
                self.block(body)
                self.close(asked(test))
            case forms.DoWhile(body, test):
                self.line("do {")
                self.block(body)
                self.close(asked(test), f"}} while ({self.test(test)});")
            case forms.For():
                self.for_loop(item)
            case forms.Switch(selector, body):
                self.switch(selector, body)
            case _:
                self.close(asked(item.value) if isinstance(item, forms.Set) else None, self.simple(item))

    def simple(self, item: forms.Item) -> str:
        """Return an item of one line."""
        match item:
            case forms.Empty():
                return ";"
            case forms.Break():
                return "break;"
            case forms.Continue():
                return "continue;"
            case forms.Return(value):
                return self.returned(value)
            case forms.Declare(kind, name, number):
                return f"{kind} {name};" if number is None else f"{kind} {name} = {number};"
            case forms.Set(name, value):
                piece = asked(value)
                if piece and self.cutter.pieces[piece].form is Form.SELECTOR:
                    self.variables[name] = piece
                return f"{name} = {self.value(value, expressions.ASSIGNMENT)};"
        raise AssertionError(item)

    def returned(self, value: str | None) -> str:
        """Return a `return`."""
        if value is None:
            return "return;"
        piece = self.cutter.pieces[value]
        text = self.between_lines(self.renderer.shifted(piece.start, piece.end, self.columns))
        return f"{text};" if piece.whole else f"return {text};" if text else "return;"

    def choice(self, item: forms.If, word: str = "") -> None:
        """Write an `if`, behind `word`."""
        self.line(f"{word}if ({self.test(item.test)}) {{")
        self.block(item.then)
        if len(item.other) == 1 and isinstance(item.other[0], forms.If):
            self.choice(item.other[0], "} else ")
            self.renderer.put_behind(asked(item.test), self.lines, self.columns)
        else:
            if item.other:
                self.line("} else {")
                self.block(item.other)
            self.close(asked(item.test))

    def for_loop(self, item: forms.For) -> None:
        """Write a `for`."""
        first, test, third = (self.ask(name, expressions.COMMA) if name else "" for name in (
            item.first, item.test, item.third))
        self.line(f"for ({first}; {test}; {third}) {{")
        self.block(item.body)
        self.close(item.test)

    # -- switches

    def switch(self, selector: forms.Value, body: Items) -> None:
        """Write a `switch`."""
        piece = asked(selector)
        assert piece is not None
        self.switches.append(piece)
        self.line(f"switch ({self.value(selector, -1)}) {{")
        self.columns += self.layout.case_step
        self.sections(body)
        self.columns -= self.layout.case_step
        self.close(piece)
        self.switches.pop()

    def sections(self, body: Items) -> None:
        """Write the sections of a `switch`."""
        at = 0
        while at < len(body):
            item = body[at]
            if isinstance(item, forms.Case):
                at = self.label(body, at)
            elif isinstance(item, forms.Default):
                self.falls_to(None)
                self.line("default:")
                at += 1
            else:
                behind = at
                while behind < len(body) and not isinstance(body[behind], (forms.Case, forms.Default)):
                    behind += 1
                self.columns += self.layout.step
                self.items(body[at:behind])
                self.columns -= self.layout.step
                at = behind

    def label(self, body: Items, at: int) -> int:
        """Write a case label, or a range of them; return the item behind it."""
        item = body[at]
        assert isinstance(item, forms.Case)
        written = self.cutter.cases[self.switches[-1], item.value]
        self.falls_to(item.value)
        if written.first != written.last:
            values = [one.value for one in body[at:] if isinstance(one, forms.Case)]
            count = written.last - written.first + 1
            if item.value != written.first or values[:count] != list(range(written.first, written.last + 1)):
                self.line(f"case {self.constant(self.switches[-1], item.value, False)}:")
                return at + 1
            at += count - 1
        self.line(written.whole or f"case {written.constant}:")
        return at + 1

    def falls_to(self, value: int | None) -> None:
        """Write the comments that say that the section before falls through to a case label, or to `default`."""
        columns = self.columns + self.layout.step
        for start, end in self.falls.pop((self.switches[-1], value), []):
            self.lines.append(self.layout.white(columns) + self.renderer.shifted(start, end, columns))

    def constant(self, selector: str, value: int, as_written: bool) -> str:
        """Return a constant of a switch, as the source writes it if that is asked for and the same there."""
        written = self.cutter.cases.get((selector, value))
        if as_written and written and written.constant and written.is_narrow and written.first == written.last:
            simple = written.constant.replace("_", "").isalnum() or written.constant.startswith("'")
            return written.constant if simple else f"({written.constant})"
        return forms.literal(value, self.cutter.pieces[selector].kind)

    # -- tests and values

    def test(self, test: forms.Test, around: int = -1) -> str:
        """Return a test, in brackets where what stands around it binds tighter."""
        match test:
            case Ask(piece):
                return self.ask(piece, around)
            case Number(value):
                return str(value)
            case Guard(name, off):
                return f"!{name}" if off else name
            case Equal(name, value):
                text = f"{name} == {self.constant(self.variables[name], value, True)}"
                return f"({text})" if around > expressions.EQUALITY else text
            case Chain(mark, parts):
                own = expressions.AND if mark == "&&" else expressions.OR
                text = f" {mark} ".join(self.test(part, own) for part in parts)
                return f"({text})" if around >= 0 and around != own else text
            case NotZero(inner):
                if isinstance(inner, Ask) and self.cutter.pieces[inner.piece].yields_truth:
                    return self.ask(inner.piece, expressions.ASSIGNMENT)
                return f"{self.test(inner, expressions.RELATIONAL)} != 0"
        raise AssertionError(test)

    def value(self, value: forms.Value, around: int) -> str:
        """Return a value that is assigned or selects."""
        if isinstance(value, Choose):
            constant = self.constant(self.switches[-1], value.value, True)
            return f"{value.guard} ? {constant} : {self.value(value.selector, expressions.CONDITIONAL)}"
        return self.test(value, around)

    def ask(self, name: str, around: int) -> str:
        """Return the text of a piece in an expression."""
        piece = self.cutter.pieces[name]
        text = self.between_lines(self.renderer.shifted(piece.start, piece.end, self.columns))
        units = self.cutter.units
        level = expressions.level(self.cutter, units.at(piece.start), units.at(piece.end - 1) + 1)
        if level < around or (around == expressions.OR and level == expressions.AND):
            return f"({text})"
        return text
