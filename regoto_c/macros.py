"""Macros that bear jumps: what an invocation stands for, and the expansion of those that hold more than one jump.

An invocation that is exactly a label, a `case`, a `default`, or one `goto`, `break`, `continue` or `return` stands for
that, and one without jumps is an ordinary part of a statement. Each other is expanded, and it alone.
"""

from __future__ import annotations

from typing import Any, Collection, NamedTuple, Sequence

from . import preprocessing, shapes
from .expanding import Body, Expander, Use
from .messages import Refused
from .plain_macros import macros_named, may_bear
from .preprocessing import Failed
from .reading import Edit, Function, Invocation, SourceFile
from .shapes import End
from .words import JUMPS, Token, texts


class Meaning(NamedTuple):
    """What an invocation stands for: its place in the file, its tokens when wholly expanded, and a kind.

    The kind is 'plain' (a part of a statement, or whole statements without jumps), 'nothing', 'label', 'case',
    'default', 'goto', 'break', 'continue' or 'return' (exactly that), or 'mixed' (more than that, or half of it).
    """

    name: str
    start: int
    end: int
    kind: str
    tokens: tuple[Token, ...]


def kind_of(sequence: Sequence[Token]) -> str:
    """Return what an invocation with this whole expansion stands for, looked at alone (`Meaning.kind`)."""
    found = list(sequence)
    if found and found[-1].text == ";" and found[0].text in ("goto", "break", "continue", "return"):
        found.pop()
    if not found:
        return "plain" if sequence else "nothing"
    first, text, shape = found[0].text, texts(found), shapes.shape(found)
    if first in ("break", "continue", "default"):
        simple = len(found) == 1 if first != "default" else text[1:] == [":"]
    elif first == "goto":
        simple = len(found) == 2 and found[1].is_name
    elif first == "return":
        simple = not JUMPS & set(text[1:]) and ";" not in text and shape.end is End.EXPRESSION
    elif first == "case":
        simple = text[-1] == ":" and text.count("case") == 1 and shapes.first(found).taken == len(found)
    else:
        first, simple = "label", len(found) == 2 and found[0].is_name and text[1] == ":"
    if simple:
        return first
    mixed = shape.bears_jumps or shape.half or shape.end in (End.UNBALANCED, End.HEAD)
    return "mixed" if mixed else "plain"


def meanings(body: Body) -> list[Meaning]:
    """Return what the uses in a body stand for (after `Expander.look`); a head before no jumps is plain."""
    tokens: list[Token] = []
    places, at, found = [], 0, []
    for use, expansion in zip(body.uses, body.expansions):
        tokens += body.sequence[at:use.first]
        places.append(len(tokens))
        tokens += expansion
        at = use.last + 1
    tokens += body.sequence[at:]
    for use, expansion, place in zip(body.uses, body.expansions, places):
        kind = kind_of(expansion)
        if kind == "mixed" and not shapes.covering(tokens[place:], len(expansion)).holds_more:
            kind = "plain"
        if kind == "nothing" and place and tokens[place - 1].text == ":":
            kind = "mixed"  # a label needs a statement
        start, end = body.sequence[use.first].start, body.sequence[use.last].end
        found.append(Meaning(use.name, body.place + start, body.place + end, kind, tuple(expansion)))
    return found


def kept(file: SourceFile) -> dict[Any, Any]:
    """Return what is kept of a file's macros and directives, so that it is found once."""
    found: dict[Any, Any] = vars(file).setdefault("_kept", {})
    return found


def expander_of(file: SourceFile) -> Expander:
    """Return the expander of a file. Raises `Failed` where no preprocessor takes the file."""
    if "expander" not in kept(file):
        programs = preprocessing.programs()
        if not programs:
            raise Failed("no compiler (clang or gcc) was found")
        try:
            made = Expander(programs[0], file.path, file.text, file.flags)
        except Failed:
            if len(programs) < 2:
                raise
            made = Expander(programs[1], file.path, file.text, file.flags)
        kept(file)["expander"] = made
    made = kept(file)["expander"]
    assert isinstance(made, Expander)
    return made


def meanings_in(file: SourceFile, function: Function) -> list[Meaning]:
    """Return what the invocations in a function stand for, but for those that are surely a part of an expression.

    Raises `Refused` where no preprocessor takes the file.
    """
    found: list[Meaning] | None = kept(file).get(("meanings", function.body))
    if found is None:
        found = kept(file)["meanings", function.body] = _meanings_in(file, function)
    return found


def _meanings_in(file: SourceFile, function: Function) -> list[Meaning]:
    if not may_bear(file, function, macros_named(file, function)):
        return []
    try:
        expander = expander_of(file)
        body = expander.body(function.body, function.end)
        expander.look([body])
    except Failed as failed:
        raise Refused(function.body, f"its macros can't be expanded: {failed}") from None
    return meanings(body)


def bearing(file: SourceFile, function: Function) -> list[Invocation]:
    """Return the invocations in a function that are no single label, case or jump, but bear one, or half a statement.

    Raises `Refused` where no preprocessor takes the file.
    """
    mixed = [each for each in meanings_in(file, function) if each.kind == "mixed"]
    found = {each.start: each for each in file.invocations}
    return [found.get(each.start) or Invocation(each.name, each.start, each.end, None) for each in mixed]


def expanded(file: SourceFile, function: Function, invocations: Collection[Invocation]) -> list[Edit]:
    """Return the edits that expand these invocations, and those that bear jumps in what comes out, and no other.

    Raises `Refused` where one can't be expanded.
    """
    result = expanded_functions(file, [(function, invocations)])[0]
    if isinstance(result, Refused):
        raise result
    return result


def expanded_functions(
        file: SourceFile, wanted: Sequence[tuple[Function, Collection[Invocation]]]) -> list[list[Edit] | Refused]:
    """Return for each function what `expanded` returns or raises; quicker than one by one."""
    starts = {invocation.start for _, invocations in wanted for invocation in invocations}
    names = {invocation.name for _, invocations in wanted for invocation in invocations}

    def choose(body: Body, number: int) -> list[Use]:
        seen = meanings(body)
        return [use for use, each in zip(body.uses, seen)
                if each.kind == "mixed" or number == 0 and each.start in starts]

    try:
        expander = expander_of(file)
        bodies = [expander.body(function.body, function.end, frozenset(names)) for function, _ in wanted]
        expander.expand(bodies, choose)
    except Failed as failed:
        return [Refused(function.body, f"its macros can't be expanded: {failed}") for function, _ in wanted]
    return [Refused(body.places.get(body.fault, body.place), f"the macro {body.fault} can't be expanded: {body.why}")
            if body.why else body.edits for body in bodies]
