"""The conditional groups of directives in a part of a file, and the text that stands for a choice of their branches."""

from __future__ import annotations

import re
from dataclasses import dataclass, field
from typing import Iterator, Sequence

from .reading import SourceFile
from .words import Token

_WORD = re.compile(r"(?:#|%:)(?:\s|\\\r?\n|/\*.*?\*/)*(\w*)", re.DOTALL)
_SPACE = re.compile(r"(?:\s|\\\r?\n|/\*.*?\*/|//[^\n]*)+", re.DOTALL)
_DEFINED = re.compile(r"^(!?)\s*defined\s*(?:\(\s*(\w+)\s*\)|(\w+))$")
_NEGATED = re.compile(r"^!\s*(\w+)$")


@dataclass
class Branch:
    """A branch: its directive, and its text from `start` to `end`."""

    directive: Token
    start: int
    end: int = 0
    inner: list[Conditional] = field(default_factory=list)


@dataclass
class Conditional:
    """A group from `#if` to `#endif`; `taken` is the branch that the flags choose, None where that is none."""

    start: int
    end: int
    branches: list[Branch]
    taken: int | None = None

    @property
    def key(self) -> tuple[str, ...]:
        """What decides which branch is taken; `#ifdef X` and `#ifndef X` have one key."""
        return self._decision[0]

    @property
    def _decision(self) -> tuple[tuple[str, ...], bool]:
        conditions = [condition_of(branch.directive) for branch in self.branches]
        if len(conditions) > 2 or len(conditions) == 2 and conditions[1]:
            return tuple(conditions), False
        found = _DEFINED.match(conditions[0])
        if found:
            return (f"defined {found.group(2) or found.group(3)}",), found.group(1) == "!"
        negated = _NEGATED.match(conditions[0])
        return (negated.group(1) if negated else conditions[0],), negated is not None

    def outcome(self, index: int | None) -> int:
        """Return the number of the decision that takes this branch: the same one for groups of the same key."""
        number = len(self.branches) if index is None else index
        return 1 - number if self._decision[1] and number < 2 else number

    def branch_for(self, outcome: int) -> int | None:
        """Return the branch that a decision takes."""
        number = 1 - outcome if self._decision[1] and outcome < 2 else outcome
        return number if number < len(self.branches) else None


Choice = dict[tuple[str, ...], int]


def word_of(directive: Token) -> str:
    """Return the name of a directive, '' of an empty one."""
    found = _WORD.match(directive.text)
    return found.group(1) if found else ""


def condition_of(directive: Token) -> str:
    """Return what a conditional directive asks, with single spaces; '' of `#else`."""
    found = _WORD.match(directive.text)
    rest = _SPACE.sub(" ", directive.text[found.end():] if found else "").strip()
    return {"ifdef": f"defined {rest}", "ifndef": f"!defined {rest}", "else": ""}.get(word_of(directive), rest)


def conditionals_in(sequence: Sequence[Token]) -> list[Conditional] | Token:
    """Return the outermost conditional groups among some tokens, or a directive whose group isn't whole."""
    outer: list[Conditional] = []
    stack: list[Conditional] = []
    for token in sequence:
        word = word_of(token) if token.is_directive else ""
        if word in ("if", "ifdef", "ifndef"):
            new = Conditional(token.start, 0, [Branch(token, token.end)])
            (stack[-1].branches[-1].inner if stack else outer).append(new)
            stack.append(new)
        elif word in ("elif", "else", "elifdef", "elifndef", "endif"):
            if not stack:
                return token
            stack[-1].branches[-1].end = token.start
            if word == "endif":
                stack.pop().end = token.end
            else:
                stack[-1].branches.append(Branch(token, token.end))
    return stack[0].branches[0].directive if stack else outer


def walk(groups: Sequence[Conditional]) -> Iterator[Conditional]:
    """Yield the groups and all groups in them."""
    for group in groups:
        yield group
        for branch in group.branches:
            yield from walk(branch.inner)


def decide(file: SourceFile, groups: Sequence[Conditional]) -> None:
    """Say of each group which branch the flags of the file take."""
    ranges = file.unit.skipped()
    for group in walk(groups):
        left = [index for index, branch in enumerate(group.branches)
                if not any(start <= branch.start < end for start, end in ranges)]
        group.taken = left[0] if len(left) == 1 else None


def under(sequence: Sequence[Token], groups: Sequence[Conditional], choice: Choice) -> list[Token]:
    """Return the tokens that are left by a choice of branches; a group without a choice takes what the flags take."""
    left: list[Token] = []
    hidden: list[tuple[int, int]] = []
    for group in walk(groups):
        outcome = choice.get(group.key)
        index = group.taken if outcome is None else group.branch_for(outcome)
        hidden += [(branch.start, branch.end) for number, branch in enumerate(group.branches) if number != index]
    hidden.sort()
    at, behind = 0, 0
    for token in sequence:
        while at < len(hidden) and hidden[at][0] <= token.start:
            behind = max(behind, hidden[at][1])
            at += 1
        if token.start >= behind and not token.is_directive:
            left.append(token)
    return left


def choices(groups: Sequence[Conditional], base: Choice | None = None) -> Iterator[Choice]:
    """Yield choices such that each branch of each group is taken in one, and each group left out that can be."""
    for group in groups:
        for index in [*range(len(group.branches)), None]:
            if index is None and word_of(group.branches[-1].directive) == "else":
                continue
            choice = {**(base or {}), group.key: group.outcome(index)}
            yield choice
            if index is not None:
                yield from choices(group.branches[index].inner, choice)
