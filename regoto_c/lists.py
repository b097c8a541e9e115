"""Cutting lists: statements that follow each other without a label or a jump between them are one piece."""

from __future__ import annotations

import re
from typing import TYPE_CHECKING

from . import forms, syntax
from .declarations import Replacement
from .forms import Items
from .libclang import Kind
from .pieces import Form, check_statement, words_of
from .records import dataclass
from .syntax import Node
from .units import Comment, UnitKind

if TYPE_CHECKING:
    from .cutting import Cutter

_FALLS = re.compile(r"fall", re.IGNORECASE)
_ATTRIBUTED = (syntax.NULL, Kind.UNEXPOSED_STMT)
_JUMPS = (forms.Goto, forms.Break, forms.Continue, forms.Return)


@dataclass
class Run:
    """Statements that follow each other without a label or a jump between them: one piece.

    `block` has the offsets within the braces of a block with declarations that is all of it.
    """

    start: int
    end: int
    block: tuple[int, int] | None = None


class ListCutter:
    """Cuts one list of statements; the comments at the end of one that isn't closed by a bracket aren't its own."""

    def __init__(
        self, cutter: Cutter, nodes: list[Node], at: int, end: int, offset: int, is_closed: bool
    ) -> None:
        self.cutter = cutter
        self.units = cutter.units
        self.nodes = list(nodes)
        self.at = at
        self.end = end
        self.offset = offset
        self.out: Items = []
        self.is_closed = is_closed
        self.run: Run | None = None
        self.waiting: list[Comment] = []
        self.is_body = at in cutter.sections
        self.falling: list[tuple[int, int]] = []

    def items(self) -> Items:
        """Return the items of the list."""
        while self.at < self.end:
            here = self._here()
            limit = min(self.cutter.unit_of(self.nodes[0]), self.end) if self.nodes else self.end
            if limit < self.at:
                raise self.cutter.not_understood(self.at, "a statement in another")
            self.waiting += self._comments(self.units.starts[self.at])
            if len(here) == 1 and here[0].kind in (syntax.LABEL, syntax.CASE, syntax.DEFAULT):
                self._label(here[0], limit)
            elif len(here) == 1 and here[0].kind == syntax.DECLARATION:
                self._declaration(here[0], limit)
            else:
                self._statement(here, limit)
        if self.is_closed:
            self.waiting += self._comments(self.units.starts[self.end])
        self._close()
        return self.out

    def _statement(self, here: list[Node], limit: int) -> None:
        """Take a statement that is neither a label nor a declaration, or what begins in one unit."""
        behind = self.cutter.finish(here[0], self.at, limit) if len(here) == 1 else 0
        if len(here) == 1 and self._is_of_core(here[0], behind):
            return
        if all(node.is_opaque for node in here):
            behind = behind or self._behind(here, limit)
            if not here or not self.cutter.names_core(self.at, behind):
                self._opaque(here, behind)
                return
        if len(here) != 1:
            raise self.cutter.not_understood(self.at, "several statements in one")
        self._taken_apart(here[0], limit)

    def _behind(self, here: list[Node], limit: int) -> int:
        return self.cutter.finish(here[-1], self.at, limit) if here else self.at + 1

    def _here(self) -> list[Node]:
        """Take the statements that begin in the next unit."""
        here = []
        while self.nodes and self.cutter.unit_of(self.nodes[0]) == self.at:
            here.append(self.nodes.pop(0))
        return here

    def _comments(self, end: int) -> list[Comment]:
        return self.cutter.fresh_comments(self.offset, end)

    def _advance(self, behind: int) -> None:
        self.at = behind
        self.offset = self.units.ends[behind - 1]

    # -- kinds of items

    def _label(self, node: Node, limit: int) -> None:
        """Take a label off; the comments before it go behind it, but for those on falling through."""
        self._falls(node)
        self._end_run()
        items, below, behind = self.cutter.label(node, self.at, limit)
        if self.falling and isinstance(items[0], (forms.Case, forms.Default)):
            value = items[0].value if isinstance(items[0], forms.Case) else None
            self.cutter.falls[self.cutter.selectors[-1].name, value], self.falling = self.falling, []
        self.out += items
        self._emit_waiting()
        if not below:
            self.out.append(forms.Empty())
        self.nodes[:0] = below
        self._advance(behind)

    def _falls(self, node: Node) -> None:
        """Take the comments that say that what stands before a label falls through to it."""
        is_section = self._is_section(node)
        while self.waiting and self._is_on_falling(self.waiting[0]):
            if is_section:  # it is written before the case label
                comment = self.waiting.pop(0)
                self.falling.append((comment.start, comment.end))
            elif self.run:
                self.run.end = self.waiting.pop(0).end
            else:
                break

    def _is_section(self, node: Node) -> bool:
        """Return whether a label is a case label of the `switch` whose body this is, or stands before one."""
        while node.kind == syntax.LABEL:
            node = node.children[-1]
        return self.is_body and node.kind in (syntax.CASE, syntax.DEFAULT)

    def _is_on_falling(self, comment: Comment) -> bool:
        return _FALLS.search(self.cutter.file.text, comment.start, comment.end) is not None

    def _declaration(self, node: Node, limit: int) -> None:
        behind = self.cutter.finish(node, self.at, limit)
        if self.cutter.declare(node, self.at, behind - 1, False):
            self._extend(behind)
        elif self.run:
            self._extend(behind)
        else:
            self._advance(behind)
            self.offset = self.cutter.behind_comments(self.offset)
            self.cutter.seen = max(self.cutter.seen, self.offset)

    def _is_of_core(self, node: Node, behind: int) -> bool:
        """Take a statement that the core made, if it is one; return whether it is."""
        item = self.cutter.core_statement(node, self.at, behind)
        if item is None:
            return False
        self._end_run()
        self._emit_waiting()
        self.out.append(item)
        self._advance(behind)
        return True

    def _opaque(self, here: list[Node], behind: int) -> None:
        if len(here) > 1 and any(node.kind == syntax.DECLARATION for node in here):
            raise self.cutter.not_understood(self.at, "several declarations in one")
        for node in here:
            check_statement(node)
        if not here and self.units.kinds[self.at] is UnitKind.TOKEN:
            raise self.cutter.not_understood(self.at, "a statement is expected here")
        self.cutter.check_units(self.at, behind)
        if len(here) == 1 and here[0].kind in _ATTRIBUTED and self._says_that_it_falls(behind):
            start, end = self.units.starts[self.at], self.units.ends[behind - 1]
            self.cutter.declarations.replacements.append(Replacement(start, end, [], "", "/* fall through */"))
        if len(here) == 1 and here[0].kind == syntax.NULL and not self.run and self._is_empty(behind):
            self._emit_waiting()
            self.out.append(forms.Empty())
            self._advance(behind)
        else:
            start, is_new = self.units.starts[self.at], self.run is None
            inside = self._inside(here, behind)
            self._extend(behind)
            if is_new and self.run and (self.run.start, self.run.end) == (start, self.units.ends[behind - 1]):
                self.run.block = inside

    def _says_that_it_falls(self, behind: int) -> bool:
        """Return whether a statement is the attribute that has to stand before a case label."""
        words = {word for unit in range(self.at, behind) for word in words_of(self.units.words[unit])}
        return bool({"fallthrough", "__fallthrough__"} & (words | self.cutter.file.words_behind(words)))

    def _inside(self, here: list[Node], behind: int) -> tuple[int, int] | None:
        """Return the offsets within the braces if the statement is a block with declarations of its own."""
        is_block = len(here) == 1 and here[0].kind == syntax.COMPOUND and self.cutter.is_token(self.at, "{")
        if not is_block or all(child.kind != syntax.DECLARATION for child in here[0].children):
            return None
        return self.units.ends[self.at], self.units.starts[behind - 1]

    def _is_empty(self, behind: int) -> bool:
        """Return whether the statement in front of unit `behind` is a semicolon that a label needs."""
        labels = (forms.Label, forms.Case, forms.Default)
        return behind == self.at + 1 and bool(self.out) and isinstance(self.out[-1], labels)

    def _taken_apart(self, node: Node, limit: int) -> None:
        self._end_run()
        items, behind = self.cutter.statement(node, self.at, limit)
        self._advance(behind)
        if self.is_closed and self.cutter.is_token(behind - 1, ";"):
            self.waiting += self._comments(self._behind_own_comments(items))
        elif self.is_closed and self.cutter.is_token(behind - 1, "}"):
            self._trail(self._comments(self._behind_own_comments(items)), items)
        self._emit_waiting()
        self.out += items

    def _trail(self, comments: list[Comment], items: Items) -> None:
        """Keep comments behind the bracket of a statement; where it asks for nothing they go before it."""
        asked = forms.asked_by(items[-1]) if items else None
        if asked is None:
            self.waiting += comments
        elif comments:
            self.cutter.trailing.setdefault(asked, []).extend((comment.start, comment.end) for comment in comments)

    def _behind_own_comments(self, items: Items) -> int:
        """Return the end of the comments on the line behind a statement; one on falling through is the next label's."""
        end = self.cutter.behind_comments(self.offset)
        if not self.nodes or self.cutter.unit_of(self.nodes[0]) != self.at or items and isinstance(items[-1], _JUMPS):
            return end
        if self._is_section(self.nodes[0]):
            falling = filter(self._is_on_falling, self.cutter.comments_between(self.offset, end))
            end = next((comment.start for comment in falling), end)
        return end

    # -- runs

    def _extend(self, behind: int) -> None:
        """Put what stands in front of unit `behind` into the run."""
        start = self.waiting[0].start if self.waiting else self.units.starts[self.at]
        run = self.run = self.run or Run(start, start)
        run.block = None
        self._advance(behind)
        if self.is_closed:
            self.offset = self.cutter.behind_comments(self.offset)
        run.end = self.offset
        self.cutter.seen = max(self.cutter.seen, self.offset)
        self.waiting = []

    def _end_run(self) -> None:
        run, self.run = self.run, None
        if run is None:
            return
        piece = self.cutter.piece(Form.STATEMENTS, *(run.block or (run.start, run.end)))
        piece.scoped = run.block is not None
        if run.block:
            self.cutter.spans += [(run.start, run.block[0]), (run.block[1], run.end)]
        self.out.append(forms.Do(piece.name))

    def _emit_waiting(self) -> None:
        self.out += [self.cutter.note(comment.start, comment.end) for comment in self.waiting]
        self.waiting = []

    def _close(self) -> None:
        """End the list; what is said behind a jump is put before it."""
        if self.run and self.waiting:
            self.run.end = self.waiting[-1].end
            self.waiting = []
        self._end_run()
        last = [self.out.pop()] if self.waiting and self.out and isinstance(self.out[-1], _JUMPS) else []
        self._emit_waiting()
        self.out += last
