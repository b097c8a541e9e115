"""Directives inside of functions: which stand as one unit with what is round them, and `--configured`.

A group from `#if` to `#endif` is a unit where, whichever branch is taken, whole statements stand there without jumps,
labels and declarations, or a part of an expression. Where it holds half of a statement, the unit is the least row of
statements round it that is whole for each branch. What a macro stands for is looked at in its place.
"""

from __future__ import annotations

from . import preprocessing
from .conditionals import Conditional, condition_of, word_of
from .judging import Body, Group, Judge, body_of
from .macros import kept
from .messages import Refused
from .reading import Edit, Function, SourceFile, edited
from .records import dataclass
from .words import Token

_FOR_THE_NEXT = ("omp", "acc", "unroll", "nounroll", "ivdep", "loop", "GCC unroll", "GCC ivdep", "clang loop")


@dataclass
class Resolution(Edit):
    """An edit that puts the branch that is taken in the place of a group, and a note that says so."""

    note: str


def groups(file: SourceFile, function: Function) -> list[Group]:
    """Return the units of directives in a function, in order, those in others left out.

    Raises `Refused` where the function's macros can't be read.
    """
    key = "groups", function.body
    if key not in kept(file):
        kept(file)[key] = _groups(file, function)
    found: list[Group] = kept(file)[key]
    return found


def _groups(file: SourceFile, function: Function) -> list[Group]:
    body = body_of(file, function)
    if body is None:
        return []
    if body.broken is not None:
        return [Group(body.broken.start, body.broken.end, "a conditional group that isn't whole in the function",
                      body.broken.start)]
    found = [_conditional(body, each) for each in body.groups]
    found += [_lone(body, directive) for directive in body.lone]
    found.sort(key=lambda group: (group.start, -group.end))
    outer: list[Group] = []
    for group in found:
        if outer and group.start < outer[-1].end:
            if group.end > outer[-1].end:  # two that overlap: neither is a unit
                outer[-1] = Group(outer[-1].start, group.end, "half of a statement stands in a conditional group",
                                  group.start, resolvable=True)
            continue
        outer.append(group)
    return outer


def _conditional(body: Body, conditional: Conditional) -> Group:
    """Return the unit of a conditional group."""
    start, end = conditional.start, conditional.end
    inside = [token for token in body.tokens if token.is_directive and start <= token.start < end]
    for directive in inside:
        if word_of(directive) == "include":
            return Group(start, end, "an #include in a function", directive.start, resolvable=True)
    judge = Judge(body, start, end)
    return judge.with_next(resolvable=True) if any(map(_is_for_the_next, inside)) else judge.group()


def _lone(body: Body, directive: Token) -> Group:
    """Return the unit of a directive that is no conditional one."""
    start, end, judge = directive.start, directive.end, Judge(body, directive.start, directive.end)
    if word_of(directive) == "include":
        return Group(start, end, "an #include in a function", start)
    if _is_for_the_next(directive):
        return judge.with_next(resolvable=False)
    if _pragma(directive).startswith("STDC") and start > body.first_statement:
        return Group(start, end, "a #pragma STDC behind the first statement", start)
    return Group(start, end, statements=judge.at_boundary, declarations=end <= body.first_statement)


def _pragma(directive: Token) -> str:
    """Return what a `#pragma` says; '' of another directive."""
    return " ".join(directive.text.lstrip("#%: \t").split()[1:]) if word_of(directive) == "pragma" else ""


def _is_for_the_next(directive: Token) -> bool:
    """Return whether a directive belongs to the statement behind it."""
    return _pragma(directive).startswith(_FOR_THE_NEXT)


def resolved(file: SourceFile, function: Function, named_at: int | None = None) -> list[Resolution]:
    """Return the edits that resolve the groups that can't be pieces, for the flags of the file.

    With `named_at` they resolve those of the unit in which that place lies. What stands in a branch that is taken is
    looked at again when the result is read. Raises `Refused` where a compiler at hand would take other branches, or the
    function's macros can't be read.
    """
    body = body_of(file, function)
    if body is None or body.broken is not None:
        return []
    faults = [group for group in groups(file, function)
              if (group.resolvable if named_at is None else group.start <= named_at < group.end)]
    chosen = [group for group in body.groups
              if any(fault.start <= group.start and group.end <= fault.end for fault in faults)]
    if not chosen:
        return []
    edits = [_resolution(file, group) for group in chosen]
    try:
        other = preprocessing.differs(file.path, file.text, edited(file.text, edits), file.flags)
    except preprocessing.Failed as failed:
        raise Refused(chosen[0].start, str(failed)) from None
    if other is not None:
        raise Refused(chosen[0].start, f"{other} takes another branch than libclang")
    return edits


def _resolution(file: SourceFile, group: Conditional) -> Resolution:
    """Return the edit that puts the branch that is taken in the place of its group, which has lines of its own."""
    start = file.text.rfind("\n", 0, group.start) + 1
    end = file.text.find("\n", group.end) + 1
    if file.text[start:group.start].strip() or file.text[group.end:end].strip():
        start, end = group.start, group.end
    asked = _asked(group.branches[0].directive)
    if group.taken is None:
        return Resolution(start, end, "", f"{asked} resolved: no branch is taken")
    branch = group.branches[group.taken]
    text = file.text[file.text.find("\n", branch.start) + 1:branch.end].rstrip(" \t")
    taken = _asked(branch.directive)
    return Resolution(start, end, text if end > group.end else text.rstrip("\r\n"),
                      f"{asked} resolved: {'its' if taken == asked else 'the'} "
                      f"{'first branch' if taken == asked else 'branch of ' + taken} is taken")


def _asked(directive: Token) -> str:
    """Return a directive on one line, without comments."""
    condition = condition_of(directive)
    if word_of(directive) in ("ifdef", "ifndef"):
        condition = condition.removeprefix("!").removeprefix("defined ")
    return f"#{word_of(directive)} {condition}".rstrip()
