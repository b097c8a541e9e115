"""The forms of statements that are taken apart, each by its words and marks."""

from __future__ import annotations

from abc import abstractmethod
from collections import Counter

from . import forms, libclang, syntax
from .forms import Ask, Items
from .ground import Ground
from .expressions import is_truth, kind_of
from .messages import Refused
from .pieces import Form, Piece, check_expression
from .reading import Function, SourceFile
from .records import dataclass
from .syntax import Node
from .units import Comment, UnitKind


@dataclass
class CaseText:
    """How a case label is written: its constant, or where a macro holds the word too the whole label.

    It is for the values from `first` to `last`. `is_narrow` says that the constant's own type isn't wider than that
    of the selector.
    """

    constant: str | None
    whole: str | None
    first: int
    last: int
    is_narrow: bool


class StatementCutter(Ground):
    """Takes statements apart; what lists hold is left to `items`."""

    def __init__(self, file: SourceFile, function: Function) -> None:
        super().__init__(file, function)
        self.pieces: dict[str, Piece] = {}
        self.notes: list[tuple[int, int]] = []
        self.cases: dict[tuple[str, int], CaseText] = {}
        self.selectors: list[Piece] = []
        self.sections: set[int] = set()
        self.falls: dict[tuple[str, int | None], list[tuple[int, int]]] = {}
        self.trailing: dict[str, list[tuple[int, int]]] = {}  # comments, by what is asked in the statement before them
        self.labels: set[str] = set()
        self.spans: list[tuple[int, int]] = []
        self.hidden: Counter[str] = Counter()
        self.doubles: set[str] = set()
        self.seen = 0
        self.returns_values = False

    @abstractmethod
    def items(self, nodes: list[Node], at: int, end: int) -> Items:
        """Return the items of a list whose statements stand from unit `at` up to unit `end`."""

    @abstractmethod
    def declare(self, node: Node, at: int, stop: int, in_head: bool) -> bool:
        """Move a declaration to the top; return whether initialisers are left in its place."""

    # -- pieces

    def piece(self, form: Form, start: int, end: int, kind: str = "int") -> Piece:
        """Return a new piece of the bytes from `start` to `end`; equal names of two functions have one kind."""
        letters = form.value + ("" if kind == "int" else "".join(word[0] for word in kind.split()))
        name = f"{letters}{len(self.pieces) + 1}"
        piece = self.pieces[name] = Piece(name, form, start, end, kind)
        return piece

    def stretch(self, form: Form, first: int, behind: int, kind: str = "int") -> Piece:
        """Return a new piece of the units from `first` up to `behind`."""
        if first >= behind:
            raise self.not_understood(first, "expression expected here")
        self.check_units(first, behind)
        return self.piece(form, self.units.starts[first], self.units.ends[behind - 1], kind)

    def note(self, start: int, end: int) -> forms.Note:
        """Return the note of a comment."""
        self.notes.append((start, end))
        return forms.Note(len(self.notes) - 1)

    def notes_around(self, start: int, end: int, pieces: list[Piece]) -> Items:
        """Return the comments from one unit up to another that stand in none of these pieces, nor were seen before."""
        return [
            self.note(comment.start, comment.end)
            for comment in self.fresh_comments(self.units.starts[start], self.units.starts[end])
            if not any(piece.start <= comment.start < piece.end for piece in pieces)
        ]

    def fresh_comments(self, start: int, end: int) -> list[Comment]:
        """Return the comments from one offset up to another that weren't seen before."""
        start = max(start, self.seen)
        self.seen = max(self.seen, end)
        return self.units.comments_from(start, end)

    # -- parts

    def names_core(self, first: int, behind: int) -> bool:
        """Return whether a variable of the core stands from unit `first` up to unit `behind`; in a source none does."""
        return False

    def test(self, node: Node, first: int, behind: int) -> forms.Test:
        """Return the test that stands from unit `first` up to unit `behind`."""
        check_expression(node)
        piece = self.stretch(Form.TEST, first, behind)
        piece.yields_truth = is_truth(self, node, first, behind)
        return Ask(piece.name)

    def selector(self, node: Node, first: int, behind: int) -> forms.Value:
        """Return the selector that stands from unit `first` up to unit `behind`."""
        check_expression(node)
        kind = kind_of(self.file, node.cursor)
        if kind is None:
            raise Refused(node.start, "a selector wider than long")
        piece = self.stretch(Form.SELECTOR, first, behind, kind)
        self.selectors.append(piece)
        return Ask(piece.name)

    def block(self, node: Node, at: int, limit: int) -> tuple[Items, int]:
        """Return the items of a statement that stands as a body, and the unit behind it."""
        behind = self.finish(node, at, limit)
        if node.kind != syntax.COMPOUND or not self.is_token(at, "{"):
            return self.items([node], at, behind), behind
        plain = node.is_opaque and not self.names_core(at, behind)
        if plain and any(child.kind == syntax.DECLARATION for child in node.children):
            self.check_units(at + 1, behind - 1)
            piece = self.piece(Form.STATEMENTS, self.units.ends[at], self.units.starts[behind - 1])
            piece.scoped = True
            return [forms.Do(piece.name)], behind
        return self.items(node.children, at + 1, behind - 1), behind

    # -- constructs

    def statement(self, node: Node, at: int, limit: int) -> tuple[Items, int]:
        """Return the items of a statement that is taken apart, and the unit behind it."""
        if node.kind in (syntax.GOTO, syntax.BREAK, syntax.CONTINUE, syntax.RETURN):
            return self.jump(node, at, limit)
        if self.units.kinds[at] is not UnitKind.TOKEN:
            raise self.not_understood(at, "a statement that jumps")
        match node.kind:
            case syntax.COMPOUND:
                behind = self.units.mates[at] + 1
                return self.items(node.children, at + 1, behind - 1), behind
            case syntax.IF:
                return self.choice(node, at, limit)
            case syntax.WHILE:
                return self.while_loop(node, at, limit)
            case syntax.DO:
                return self.do_loop(node, at, limit)
            case syntax.FOR:
                return self.for_loop(node, at, limit)
            case syntax.SWITCH:
                return self.switch(node, at, limit)
        if node.kind < 200:
            check_expression(node)
        raise Refused(node.start, "a statement of this form can't be taken apart")

    def choice(self, node: Node, at: int, limit: int) -> tuple[Items, int]:
        """Take an `if` apart."""
        close = self.header_end(self.expect(at, "if") - 1)
        test = self.test(node.children[0], at + 2, close)
        notes = self.notes_around(at, close + 1, list(self.pieces.values())[-1:])
        then, behind = self.block(node.children[1], close + 1, limit)
        other: Items = []
        if len(node.children) > 2:
            word = behind
            behind = self.expect(word, "else")
            notes += self.notes_around(word - 1, behind, [])
            other, behind = self.block(node.children[2], behind, limit)
        return [*notes, forms.If(test, then, other)], behind

    def while_loop(self, node: Node, at: int, limit: int) -> tuple[Items, int]:
        """Take a `while` apart."""
        close = self.header_end(self.expect(at, "while") - 1)
        test = self.test(node.children[0], at + 2, close)
        notes = self.notes_around(at, close + 1, list(self.pieces.values())[-1:])
        body, behind = self.block(node.children[1], close + 1, limit)
        return [*notes, forms.While(test, body)], behind

    def do_loop(self, node: Node, at: int, limit: int) -> tuple[Items, int]:
        """Take a `do` apart; one that is done once, and that nothing leaves or begins anew, is a block."""
        if self.is_done_once(node, at, limit):
            return self.block_of_do(node, at, limit)
        notes = self.notes_around(at, self.expect(at, "do"), [])
        body, word = self.block(node.children[0], at + 1, limit)
        close = self.header_end(self.expect(word, "while") - 1)
        test = self.test(node.children[1], word + 2, close)
        behind = self.expect(close + 1, ";")
        notes += self.notes_around(word, behind - 1, list(self.pieces.values())[-1:])
        return [*notes, forms.DoWhile(body, test)], behind

    def is_done_once(self, node: Node, at: int, limit: int) -> bool:
        """Return whether a `do` has the test 0, and no `break` or `continue` of its own."""
        body = node.children[0]
        if body.breaks or body.continues:
            return False
        word = self.finish(body, self.expect(at, "do"), limit)
        return self.units.words[word + 1: word + 4] == ["(", "0", ")"]

    def block_of_do(self, node: Node, at: int, limit: int) -> tuple[Items, int]:
        """Take a `do` apart that is a block."""
        notes = self.notes_around(at, at + 1, [])
        body, word = self.block(node.children[0], at + 1, limit)
        behind = self.expect(word + 4, ";")
        self.spans += [(self.units.starts[unit], self.units.ends[unit]) for unit in (at, *range(word, behind))]
        return [*notes, *body, *self.notes_around(word, behind - 1, [])], behind

    def for_loop(self, node: Node, at: int, limit: int) -> tuple[Items, int]:
        """Take a `for` apart; its declaration moves to the top."""
        close = self.header_end(self.expect(at, "for") - 1)
        cuts = [self.scan(at + 2, ";", close)]
        cuts.append(self.scan(cuts[0] + 1, ";", close))
        if cuts[1] >= close:
            raise self.not_understood(close - 1, "';' expected here")
        spans = [(at + 2, cuts[0]), (cuts[0] + 1, cuts[1]), (cuts[1] + 1, close)]
        nodes = node.children[:-1]
        parts: list[Piece | None] = []
        for number, (first, behind) in enumerate(spans):
            parts.append(self.for_part(nodes.pop(0), number, first, behind) if first < behind else None)
        notes = self.notes_around(at, close + 1, [part for part in parts if part])
        body, behind = self.block(node.children[-1], close + 1, limit)
        names = [part.name if part else None for part in parts]
        return [*notes, forms.For(names[0], names[1], names[2], body)], behind

    def for_part(self, node: Node, number: int, first: int, behind: int) -> Piece | None:
        """Return the piece of one part of a `for`, or None where its declaration leaves nothing behind."""
        if node.kind == syntax.DECLARATION:
            if not self.declare(node, first, behind, True):
                return None
        else:
            check_expression(node)
        piece = self.stretch(Form.TEST if number == 1 else Form.PART, first, behind)
        if number == 1:
            piece.yields_truth = is_truth(self, node, first, behind)
        return piece

    def switch(self, node: Node, at: int, limit: int) -> tuple[Items, int]:
        """Take a `switch` apart."""
        close = self.header_end(self.expect(at, "switch") - 1)
        depth = len(self.selectors)
        selector = self.selector(node.children[0], at + 2, close)
        notes = self.notes_around(at, close + 1, list(self.pieces.values())[-1:])
        behind = self.finish(node.children[1], close + 1, limit)
        if node.children[1].kind == syntax.COMPOUND and self.is_token(close + 1, "{"):
            self.sections.add(close + 2)
            body = self.items(node.children[1].children, close + 2, behind - 1)
        else:
            body = self.items([node.children[1]], close + 1, behind)
        del self.selectors[depth:]
        labels = (forms.Case, forms.Default, forms.Note, forms.Label)
        if body and not isinstance(body[0], labels):
            raise Refused(node.children[1].start, "a statement before the first case label")
        return [*notes, forms.Switch(selector, body)], behind

    # -- jumps

    def jump(self, node: Node, at: int, limit: int) -> tuple[Items, int]:
        """Take a goto, `break`, `continue` or `return` apart; an invocation may hold it."""
        if self.units.kinds[at] is UnitKind.GROUP:
            raise self.not_understood(at, "a jump in a group of directives")
        behind = self.finish(node, at, limit)
        if node.kind == syntax.RETURN:
            return self.return_value(node, at, behind)
        notes = self.notes_around(at, behind - 1, [])
        if self.units.kinds[at] is UnitKind.INVOCATION:
            self.hide(at, {syntax.GOTO: "goto", syntax.BREAK: "break"}.get(node.kind, "continue"))
        if node.kind == syntax.GOTO:
            label = libclang.spelling(libclang.children(node.cursor)[0])
            self.labels.add(label)
            return [*notes, forms.Goto(label)], behind
        return [*notes, forms.Break() if node.kind == syntax.BREAK else forms.Continue()], behind

    def hide(self, at: int, word: str) -> None:
        """Say for accounting that a macro stands for a jump."""
        self.spans.append((self.units.starts[at], self.units.ends[at]))
        self.hidden[word] += 1

    def return_value(self, node: Node, at: int, behind: int) -> tuple[Items, int]:
        """Take a `return` apart."""
        end = behind - 1 if self.is_token(behind - 1, ";") else behind
        for child in node.children:
            check_expression(child)
        if self.units.kinds[at] is UnitKind.INVOCATION:
            self.hide(at, "return")
        if not node.children:
            if self.units.kinds[at] is UnitKind.TOKEN:
                self.expect(at + 1, ";")
            if not self.returns_values:
                return [*self.notes_around(at, behind - 1, []), forms.Return(None)], behind
        if self.units.kinds[at] is UnitKind.INVOCATION:
            piece = self.stretch(Form.VALUE, at, end)
            piece.whole = True
        elif node.children:
            piece = self.stretch(Form.VALUE, at + 1, end)
        else:
            piece = self.piece(Form.VALUE, self.units.ends[at], self.units.ends[at])
        return [*self.notes_around(at, behind - 1, [piece]), forms.Return(piece.name)], behind
