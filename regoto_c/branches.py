"""Branches of conditional groups with jumps: the edits by which each branch ends at its end, and says where to go on.

A branch that no flag takes isn't parsed by a compiler, so all is done by its tokens. A jump that leaves the group
becomes `leave = 1;`, or another number, and what stands behind it in the branch comes under `if (!leave)`. In a loop
or a `switch` of the branch a `break` does the same, and behind that one stands `if (leave) break;` where it is in another.
"""

from __future__ import annotations

from bisect import bisect_left
from dataclasses import dataclass, field

from .conditionals import Branch, Conditional, walk, word_of
from .declared_names import Unsafe, declared
from .guards import Part, guards
from .reading import Edit
from .shapes import TYPES, declares
from .words import HEADS, JUMPS, Token, closing

_LOOPS = ("for", "while", "do")
_HARMLESS = ("error", "warning")
_TWICE = ("setjmp", "_setjmp", "sigsetjmp", "vfork", "getcontext")
_CONSTANT = frozenset("NULL true false - + ~ ! ( )".split())


@dataclass(frozen=True)
class Place:
    """In which constructs of a branch a statement stands: a `break` may leave `switch`es and loops."""

    loop: bool = False
    breakable: bool = False


@dataclass
class Names:
    """The variables that say where to go on and what is returned."""

    leave: str
    answer: str


@dataclass
class _Leaving:
    """A jump that leaves the group, what it is with its value, and whether it breaks a loop or stands as a body."""

    start: int
    end: int
    what: str
    value: str
    breaks: bool
    single: bool


@dataclass
class Branches:
    """Reads the branches of one group; `exits` are the jumps that leave it, in the order of their numbers.

    `edits` are those of the text, and `answers` says that a value is returned by a variable. `declared` are the names
    declared in the list of a branch, which becomes a block, and from where to where it stands.
    """

    text: str
    tokens: list[Token]
    names: Names
    step: str
    edits: list[Edit] = field(default_factory=list)
    exits: list[str] = field(default_factory=list)
    leaving: list[_Leaving] = field(default_factory=list)
    blocks: list[Part] = field(default_factory=list)
    declared: list[tuple[str, int, int]] = field(default_factory=list)
    answers: bool = False
    nested: dict[int, Conditional] = field(default_factory=dict)

    def read(self, group: Conditional) -> None:
        """Read all branches of the group. Raises `Unsafe` where it can't be done surely."""
        self.nested = {each.start: each for each in walk([group])}
        self._branches(group, Place())
        self.edits += guards(self.text, self.tokens, self.blocks, self.step)
        self.edits += [Edit(jump.start, jump.end, self._written(jump)) for jump in self.leaving]

    def _written(self, jump: _Leaving) -> str:
        """Return the statements that take the place of a jump."""
        words = [f"{self.names.answer} = {jump.value};"] if jump.value else []
        words += [f"{self.names.leave} = {self.exits.index(jump.what) + 1};", *(["break;"] if jump.breaks else [])]
        if len(words) > 1 and jump.single:
            return "{ " + " ".join(words) + " }"
        line = self.text[self.text.rfind("\n", 0, jump.start) + 1:jump.start]
        return (" " if line.strip() else "\n" + line).join(words)

    # -- groups and lists

    def _branches(self, group: Conditional, place: Place) -> bool:
        """Read the branches of a group; return whether one may leave it."""
        may = False
        for branch in group.branches:
            low, high = self._index(branch.start), self._index(branch.end)
            count = len(self.declared)
            at, leaves = self._row(low, high, place, True)
            if at != high:
                raise Unsafe(self.tokens[at], "half of a statement")
            if self.declared[count:]:
                self.blocks.append((low, high - 1, "{"))
            self.declared[count:] = [(name, branch.start, branch.end) for name, _, _ in self.declared[count:]]
            may = may or leaves
        return may

    def _index(self, offset: int) -> int:
        return bisect_left(self.tokens, offset, key=lambda token: token.start)

    def _row(self, at: int, high: int, place: Place, top: bool = False) -> tuple[int, bool]:
        """Read a list of statements; return the index behind it, and whether it may leave the group."""
        may, leaves, opened = False, False, []
        while at < high and self._text(at) != "}":
            if leaves and not place.breakable:
                opened.append(at)
            at, leaves = self._item(at, high, place, top)
            may = may or leaves
        self.blocks += [(first, at - 1, f"if (!{self.names.leave}) {{") for first in opened]
        return at, may

    def declarations(self, branch: Branch) -> int | None:
        """Return where the declarations at the front of a branch end, None where there are none, or nothing else."""
        at, high, end = self._index(branch.start), self._index(branch.end), None
        while at < high and self._text(at) not in JUMPS | HEADS and declares(self.tokens, at):
            at = self._semicolon(at, high)
            end = self.tokens[at - 1].end
        return end if at < high and end and "\n" in self.text[end:self.tokens[at].start] else None

    # -- statements

    def _item(self, at: int, high: int, place: Place, top: bool) -> tuple[int, bool]:
        """Read what stands in a list; return the index behind it, and whether it may leave the group."""
        token = self.tokens[at]
        if not token.is_directive:
            return self._statement(at, high, place, top)
        group = self.nested.get(token.start)
        if group is not None:
            return self._index(group.end), self._branches(group, place)
        if word_of(token) not in _HARMLESS:
            raise Unsafe(token, "a directive")
        return at + 1, False

    def _statement(self, at: int, high: int, place: Place, top: bool = False, single: bool = False) -> tuple[int, bool]:
        """Read a statement; a `single` one stands as the body of another."""
        token, text = self.tokens[at], self._text(at)
        if at >= high or token.is_directive:
            raise Unsafe(token, "half of a statement")
        if text == "{":
            at, may = self._row(at + 1, high, place)
            return self._expect(at, "}"), may
        if text in HEADS:
            return self._headed(at, high, place, single)
        if text in ("case", "default"):
            at = self._case(at, high, place)
            return self._statement(at, high, place, single=True) if single else (at, False)
        if text in JUMPS:
            return self._jump(at, high, place, single)
        if token.is_name and self._text(at + 1) == ":" and text not in TYPES:
            raise Unsafe(token, "a label")
        behind = self._semicolon(at, high)
        if top and text != ";" and declares(self.tokens, at):
            self.declared += [(name, 0, 0) for name in declared(self.tokens[at:behind - 1])]
        return behind, False

    def _headed(self, at: int, high: int, place: Place, single: bool) -> tuple[int, bool]:
        word, first = self._text(at), at
        if word == "else":
            raise Unsafe(self.tokens[at], "half of a statement")
        if word == "if":
            at, may = self._statement(self._condition(at + 1, high), high, place, single=True)
            if at < high and self._text(at) == "else":
                at, other = self._statement(at + 1, high, place, single=True)
                may = may or other
            return at, may
        inner = Place(place.loop or word in _LOOPS, True)
        body = at + 1 if word == "do" else self._condition(at + 1, high)
        at, may = self._statement(body, high, inner, single=True)
        if word == "do":
            at = self._expect(self._condition(self._expect(at, "while"), high), ";")
        if may and place.breakable:
            start, end, test = self.tokens[first].start, self.tokens[at - 1].end, f"if ({self.names.leave}) break;"
            line = self.text[self.text.rfind("\n", 0, start) + 1:start]
            if single:
                self.edits += [Edit(start, start, "{ "), Edit(end, end, f" {test} }}")]
            else:
                self.edits.append(Edit(end, end, (" " if line.strip() else "\n" + line) + test))
        return at, may

    def _case(self, at: int, high: int, place: Place) -> int:
        if not place.breakable:
            raise Unsafe(self.tokens[at], "a label")
        questions = 0
        while at < high and questions >= 0:
            if self._text(at) in ("(", "["):
                at = self._brackets(at, high)
                continue
            questions += (self._text(at) == "?") - (self._text(at) == ":")
            at += 1
        return at

    def _jump(self, at: int, high: int, place: Place, single: bool) -> tuple[int, bool]:
        """Read a jump; note where it leaves the group."""
        word, behind = self._text(at), self._semicolon(at + 1, high)
        if word == "break" and place.breakable or word == "continue" and place.loop:
            return behind, False
        start, end = self.tokens[at].start, self.tokens[behind - 1].end
        written = [self.text[token.start:token.end] == token.text for token in (self.tokens[at], self.tokens[behind - 1])]
        if not all(written) or word == "goto" and not (behind == at + 3 and self._is_written(at + 1)):
            raise Unsafe(self.tokens[at], "a jump in a macro")
        what, value = word, ""
        if word == "goto":
            what = f"goto {self._text(at + 1)}"
        elif word == "return" and behind > at + 2:
            what, value = self._returned(at + 1, behind - 1)
        if what not in self.exits:
            self.exits.append(what)
        self.leaving.append(_Leaving(start, end, what, value, place.breakable, single))
        return behind, True

    def _is_written(self, at: int) -> bool:
        token = self.tokens[at]
        return token.is_name and self.text[token.start:token.end] == token.text

    def _returned(self, first: int, behind: int) -> tuple[str, str]:
        """Return the jump that returns a value, and the value where a variable has to hold it."""
        parts = self.tokens[first:behind]
        value = self.text[parts[0].start:parts[-1].end]
        if all(token.text in _CONSTANT or token.text.isalnum() and token.text[0].isdigit() for token in parts):
            return f"return {value}", ""
        if "//" in value or "\n#" in value:
            raise Unsafe(parts[0], "a comment in a value")
        self.answers = True
        return f"return {self.names.answer}", value

    # -- tokens

    def _text(self, at: int) -> str:
        return self.tokens[at].text if at < len(self.tokens) else ""

    def _expect(self, at: int, word: str) -> int:
        if self._text(at) != word:
            raise Unsafe(self.tokens[min(at, len(self.tokens) - 1)], "half of a statement")
        return at + 1

    def _condition(self, at: int, high: int) -> int:
        return self._brackets(self._expect(at, "(") - 1, high)

    def _brackets(self, at: int, high: int) -> int:
        """Return the index behind a part in brackets, which holds no jump and no directive."""
        close = closing(self.tokens, at)
        if close is None or close >= high:
            raise Unsafe(self.tokens[at], "brackets that don't match")
        for index in range(at, close):
            token = self.tokens[index]
            if token.is_directive or token.text in JUMPS or token.text in _TWICE:
                raise Unsafe(token, "a directive or a jump in an expression")
            if token.text == "{" and self.tokens[index - 1].text == ")":
                raise Unsafe(token, "a compound literal")
        return close + 1

    def _semicolon(self, at: int, high: int) -> int:
        while at < high:
            token, text = self.tokens[at], self._text(at)
            if text in ("(", "[", "{"):
                if text == "{" and self._text(at - 1) == ")":
                    raise Unsafe(token, "a compound literal, or a macro with a body")
                at = self._brackets(at, high)
                continue
            if token.is_directive or text in JUMPS or text in HEADS or text in ("}", ")", "]") or text in _TWICE:
                raise Unsafe(token, "a statement without its semicolon")
            at += 1
            if text == ";":
                return at
        raise Unsafe(self.tokens[high - 1], "half of a statement")
