"""The forms of statements: what a body is cut into, what goes to the core, and what comes back."""

from __future__ import annotations

from typing import Union

from .records import dataclass, field

# -- tests and selectors


@dataclass
class Ask:
    """The value of a piece, or in a result a part of a test that is none of the core's own."""

    piece: str


@dataclass
class Number:
    """A number that the core wrote."""

    value: int


@dataclass
class Guard:
    """A variable of the core: whether it is set, or with `off` whether it isn't."""

    name: str
    off: bool = False


@dataclass
class Equal:
    """Whether a variable of the core has a value."""

    name: str
    value: int


@dataclass
class Chain:
    """Tests joined by `&&` or `||`, from left to right."""

    mark: str
    parts: list["Test"]


@dataclass
class NotZero:
    """A test as 0 or 1."""

    test: "Test"


@dataclass
class Choose:
    """A value if a guard is set, else a selector."""

    guard: str
    value: int
    selector: "Value"


Test = Union[Ask, Number, Guard, Equal, Chain, NotZero]
Value = Union[Test, Choose]


def chained(mark: str, parts: list[Test]) -> Test:
    """Return tests joined by `mark`; a part that is joined by it too is laid out."""
    laid: list[Test] = []
    for part in parts:
        laid += part.parts if isinstance(part, Chain) and part.mark == mark else [part]
    return laid[0] if len(laid) == 1 else Chain(mark, laid)


# -- statements


@dataclass
class Do:
    """A piece that stands as statements."""

    piece: str


@dataclass
class Note:
    """A comment, by its number."""

    number: int


@dataclass
class Empty:
    """An empty statement."""


@dataclass
class Goto:
    label: str


@dataclass
class Label:
    name: str


@dataclass
class Break:
    pass


@dataclass
class Continue:
    pass


@dataclass
class Return:
    """`value` is the piece that is returned, or None in a function without values."""

    value: str | None


@dataclass
class If:
    test: Test
    then: "Items"
    other: "Items" = field(default_factory=list)


@dataclass
class While:
    test: Test
    body: "Items"


@dataclass
class DoWhile:
    body: "Items"
    test: Test


@dataclass
class For:
    """Each part is a piece or absent."""

    first: str | None
    test: str | None
    third: str | None
    body: "Items"


@dataclass
class Case:
    value: int


@dataclass
class Default:
    pass


@dataclass
class Switch:
    """`body` has the case labels between the statements."""

    selector: Value
    body: "Items"


@dataclass
class Declare:
    """A variable of the core."""

    type: str
    name: str
    value: int | None


@dataclass
class Set:
    """The core gives one of its variables a value."""

    name: str
    value: Value


Item = Union[Do, Note, Empty, Goto, Label, Break, Continue, Return, If, While, DoWhile, For, Case, Default, Switch,
             Declare, Set]
Items = list[Item]


def literal(value: int, kind: str) -> str:
    """Return a constant of the value in one of the kinds `int`, `unsigned`, `long` and `unsigned long`."""
    suffix = {"int": "", "unsigned": "U", "long": "L", "unsigned long": "UL"}[kind]
    if value >= 0:
        return f"{value}{suffix}"
    least = -(2 ** 31 if kind == "int" else 2 ** 63)
    return f"(-{-(value + 1)}{suffix} - 1)" if value == least else f"-{-value}{suffix}"


def skeleton_lines(items: Items, kinds: dict[str, str], kind: str = "int") -> list[str]:
    """Return the items as lines of C in which each piece is a call.

    `kinds` has the kind of each selector, and `kind` is that of the switch around the items.
    """
    return [line for item in items for line in _lines(item, kinds, kind)]


def _ask(test: object) -> str:
    if isinstance(test, Ask):
        return f"{test.piece}()"
    assert isinstance(test, Number)
    return str(test.value)


def _call(piece: str | None) -> str:
    return f"{piece}()" if piece else ""


def _lines(item: Item, kinds: dict[str, str], kind: str) -> list[str]:
    match item:
        case If(test, then, other):
            tail = ["} else {", *skeleton_lines(other, kinds, kind)] if other else []
            return [f"if ({_ask(test)}) {{", *skeleton_lines(then, kinds, kind), *tail, "}"]
        case While(test, inner):
            return [f"while ({_ask(test)}) {{", *skeleton_lines(inner, kinds, kind), "}"]
        case DoWhile(inner, test):
            return ["do {", *skeleton_lines(inner, kinds, kind), f"}} while ({_ask(test)});"]
        case For(first, test, third, inner):
            head = f"for ({_call(first)}; {_call(test)}; {_call(third)}) {{"
            return [head, *skeleton_lines(inner, kinds, kind), "}"]
        case Switch(selector, inner):
            assert isinstance(selector, Ask)
            return [f"switch ({_ask(selector)}) {{", *skeleton_lines(inner, kinds, kinds[selector.piece]), "}"]
    return [_line(item, kind)]


def _line(item: Item, kind: str) -> str:
    match item:
        case Do(piece):
            return f"{piece}();"
        case Note(number):
            return f"/*{number}*/"
        case Goto(label):
            return f"goto {label};"
        case Label(name):
            return f"{name}:"
        case Return(value):
            return f"return {_call(value)};"
        case Case(number):
            return f"case {literal(number, kind)}:"
        case Default():
            return "default:"
        case Empty():
            return ";"
        case Break():
            return "break;"
        case Continue():
            return "continue;"
    raise AssertionError(item)


def asked(value: Value | None) -> str | None:
    """Return the first piece whose value is asked for in a test or a selector, or None."""
    match value:
        case Ask(piece):
            return piece
        case NotZero(inner):
            return asked(inner)
        case Choose():
            return asked(value.selector)
        case Chain(_, parts):
            return next((piece for piece in map(asked, parts) if piece), None)
    return None


def asked_by(item: Item) -> str | None:
    """Return the first piece whose value an `if`, a loop or a `switch` asks for, or None."""
    match item:
        case If() | While() | DoWhile():
            return asked(item.test)
        case For():
            return item.test
        case Switch():
            return asked(item.selector)
    return None
