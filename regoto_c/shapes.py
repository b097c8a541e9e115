"""What a list of tokens is, looked at as a list of statements of C, without knowing any name."""

from __future__ import annotations

from enum import Enum

from .records import dataclass, field
from .words import HEADS, JUMPS, Token, closing

TYPES = frozenset('''auto char const double enum extern float inline int long register restrict short signed static
struct typedef union unsigned void volatile _Alignas _Atomic _Bool _Complex _Noreturn _Static_assert _Thread_local
__const __const__ __extension__ __inline __inline__ __int128 __label__ __restrict __signed__ __thread __typeof
__typeof__ __volatile__ typeof'''.split())


class End(Enum):
    """How a list of tokens ends."""

    WHOLE = "whole statements"
    EXPRESSION = "an expression without its semicolon"
    HEAD = "the head of a statement"
    UNBALANCED = "brackets that do not balance"


@dataclass
class Row:
    """The statements of one list, each from the index of its first token to the one behind its last.

    `first` is the index of the first token behind the list's `{`, `behind` that of its `}`.
    """

    first: int
    behind: int
    spans: list[tuple[int, int]]


@dataclass
class Shape:
    """What stands in a list of tokens: the first jump or label bound outside, the first declaration, the end."""

    end: End = End.WHOLE
    jump: Token | None = None
    label: Token | None = None
    declaration: Token | None = None
    half: Token | None = None  # an `else` or a closing bracket that belongs to what stands before
    items: int = 0
    taken: int = 0  # how many tokens were read
    rows: list[Row] = field(default_factory=list)

    @property
    def bears_jumps(self) -> bool:
        """Whether a jump or a label is bound outside."""
        return self.jump is not None or self.label is not None

    @property
    def holds_more(self) -> bool:
        """Whether a jump or label is bound outside, or these aren't whole statements."""
        return self.bears_jumps or not self.whole

    @property
    def whole(self) -> bool:
        """Whether these are whole statements."""
        return self.end is End.WHOLE and self.half is None


class _Stop(Exception):
    """The list ends in the midst of a statement."""

    def __init__(self, end: End) -> None:
        super().__init__(end.value)
        self.end = end


class _Reader:
    def __init__(self, sequence: list[Token]) -> None:
        self.tokens = sequence
        self.at = 0
        self.shape = Shape()

    def text(self, ahead: int = 0) -> str:
        index = self.at + ahead
        return self.tokens[index].text if index < len(self.tokens) else ""

    def jump(self) -> None:
        self.shape.jump = self.shape.jump or self.tokens[self.at]

    def label(self) -> None:
        self.shape.label = self.shape.label or self.tokens[self.at]

    def expect(self, text: str, end: End) -> None:
        if self.text() != text:
            raise _Stop(end if self.at >= len(self.tokens) else End.EXPRESSION)
        self.at += 1

    def brackets(self) -> None:
        """Read a part in brackets, and note the jumps in it."""
        close = closing(self.tokens, self.at)
        if close is None:
            self.scan(len(self.tokens))
            raise _Stop(End.UNBALANCED)
        self.scan(close + 1)

    def scan(self, to: int) -> None:
        """Note the jumps up to an index, but for those that stay within a statement expression."""
        while self.at < to:
            if self.text() == "(" and self.text(1) == "{":
                self.statement_expression()
            if self.text() in JUMPS:
                self.jump()
            self.at += 1

    def statement_expression(self) -> None:
        """Read a statement expression up to its last bracket, and note a jump in it where one may leave it."""
        close = closing(self.tokens, self.at + 1)
        if close is None:
            return
        inside = self.tokens[self.at + 2:close]
        found = shape(inside)
        if found.jump is not None or not found.whole:
            self.shape.jump = self.shape.jump or next((token for token in inside if token.text in JUMPS), None)
        self.at = close

    def statements(self, loop: bool, switch: bool, top: bool) -> None:
        row = Row(self.at, len(self.tokens), [])
        self.shape.rows.append(row)
        while self.at < len(self.tokens):
            start = self.at
            if self.text() == "}":
                if not top:
                    row.behind = self.at
                    return
                self.shape.half = self.shape.half or self.tokens[self.at]
                self.at += 1
                continue
            self.statement(loop, switch, top)
            row.spans.append((start, self.at))

    def body(self, loop: bool, switch: bool) -> None:
        while self.text() in ("case", "default"):
            self.jumping(self.text(), loop, switch)
        if self.at >= len(self.tokens):
            raise _Stop(End.HEAD)
        self.statement(loop, switch, False)

    def statement(self, loop: bool, switch: bool, top: bool) -> None:
        text = self.text()
        self.shape.items += top
        if text == "{":
            self.at += 1
            self.statements(loop, switch, False)
            self.expect("}", End.UNBALANCED)
        elif text in HEADS:
            self.headed(text, loop, switch)
        elif text in JUMPS:
            self.jumping(text, loop, switch)
        elif self.tokens[self.at].is_name and self.text(1) == ":" and text not in TYPES:
            self.label()
            self.at += 2
            if self.at < len(self.tokens) and self.text() != "}":
                self.statement(loop, switch, top)
        elif text == ";":
            self.at += 1
        else:
            self.simple(top)

    def headed(self, text: str, loop: bool, switch: bool) -> None:
        if text == "else":
            self.shape.half = self.shape.half or self.tokens[self.at]
        self.at += 1
        if text == "do":
            self.body(True, True)
            self.expect("while", End.HEAD)
        if text not in ("else", "do"):
            self.condition()
            self.body(loop or text in ("for", "while"), switch or text != "if")
        elif text == "else":
            self.body(loop, switch)
        else:
            self.condition()
            self.expect(";", End.EXPRESSION)
        if text == "if" and self.text() == "else":
            self.at += 1
            self.body(loop, switch)

    def condition(self) -> None:
        if self.text() != "(":
            raise _Stop(End.HEAD if self.at >= len(self.tokens) else End.EXPRESSION)
        self.brackets()

    def jumping(self, text: str, loop: bool, switch: bool) -> None:
        if text in ("case", "default"):
            if not switch:
                self.label()
            self.colon()
            return
        if not (text == "break" and (loop or switch) or text == "continue" and loop):
            self.jump()
        self.at += 1
        self.to_semicolon()

    def colon(self) -> None:
        """Read to the colon of a case label; a colon of `?:` is none."""
        self.at += 1
        questions = 0
        while self.at < len(self.tokens):
            text = self.text()
            if text in ("(", "[", "{"):
                self.brackets()
                continue
            self.at += 1
            questions += (text == "?") - (text == ":")
            if questions < 0:
                return
        raise _Stop(End.EXPRESSION)

    def simple(self, top: bool) -> None:
        """Read an expression statement or a declaration."""
        if top and self.shape.declaration is None and declares(self.tokens, self.at):
            self.shape.declaration = self.tokens[self.at]
        self.to_semicolon()

    def to_semicolon(self) -> None:
        while self.at < len(self.tokens):
            text = self.text()
            if text in ("(", "[", "{"):
                self.brackets()
                continue
            if text in HEADS or text in JUMPS or text == "}":
                return  # a macro that stands as a statement, without a semicolon
            if text in (")", "]"):
                raise _Stop(End.UNBALANCED)
            self.at += 1
            if text == ";":
                return
        raise _Stop(End.EXPRESSION)


def declares(sequence: list[Token], at: int) -> bool:
    """Return whether the statement at an index looks like a declaration; where both can be meant, it does."""
    def text(ahead: int) -> str:
        return sequence[at + ahead].text if at + ahead < len(sequence) else ""

    def name(ahead: int) -> bool:
        return at + ahead < len(sequence) and sequence[at + ahead].is_name

    if text(0) in TYPES or text(0) == "[" and text(1) == "[":
        return True
    if not name(0):
        return False
    stars = 1
    while text(stars) == "*" or text(stars) in TYPES:
        stars += 1
    if name(stars) and (stars > 1 or text(1) not in HEADS | JUMPS) and text(0) not in ("asm", "__asm__", "__asm"):
        return text(stars + 1) in ("=", ";", ",", "[", "(", ":", "") or text(stars + 1).startswith("__attr") or name(1)
    return text(1) == "(" and text(2) == "*" and name(3) and text(4) == ")" and text(5) == "("


def shape(sequence: list[Token]) -> Shape:
    """Return what stands in a list of tokens, taken as statements."""
    reader = _Reader(sequence)
    try:
        reader.statements(False, False, True)
    except _Stop as stop:
        reader.shape.end = stop.end
        reader.scan(len(sequence))
    reader.shape.taken = reader.at
    return reader.shape


def first(sequence: list[Token]) -> Shape:
    """Return what the first statement of a list of tokens is."""
    return covering(sequence, 1)


def covering(sequence: list[Token], count: int) -> Shape:
    """Return what the first statements of a list of tokens are, as many as hold its first tokens."""
    reader = _Reader([token for token in sequence if not token.is_directive])
    try:
        while reader.at < min(count, len(reader.tokens)):
            if reader.text() == "}":
                raise _Stop(End.UNBALANCED)
            reader.statement(False, False, True)
    except _Stop as stop:
        reader.shape.end = stop.end
    reader.shape.taken = reader.at
    return reader.shape
