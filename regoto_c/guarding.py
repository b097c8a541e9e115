"""Conditional groups with jumps, as groups without: one text that serves for each setting of the macros.

Where each branch of a group is whole statements without labels, its jumps are taken out of it: each branch says by a
variable where to go on, and the jumps stand behind the group, each under a test. So no directive holds a jump any more.
"""

from __future__ import annotations

from . import directives, libclang, syntax
from .branches import Branches, Names, Unsafe
from .conditionals import Conditional
from .guards import white_before
from .judging import Body, Judge, body_of
from .levels import new_name
from .lexing import TokenKind
from .messages import Unreadable
from .reading import Edit, Function, SourceFile, edited, read
from .shapes import TYPES
from .syntax import Node, Syntax

_CLASSES = frozenset("static extern inline __inline __inline__ _Noreturn".split())
_SPECIFIERS = TYPES | {"const", "volatile"}


def guarded(file: SourceFile, function: Function) -> list[Edit]:
    """Return the edits that take the jumps out of groups which can't be pieces because of them.

    Groups for which that can't be done surely are left. Raises `Refused` where the function's macros can't be read.
    """
    body = body_of(file, function)
    if body is None or body.broken is not None:
        return []
    faults = [group for group in directives.groups(file, function) if group.resolvable]
    chosen = [group for group in body.groups
              if any(fault.start <= group.start and group.end <= fault.end for fault in faults)]
    if not chosen:
        return []
    guard = _Guard(file, function, body)
    edits = [edit for group in chosen for edit in guard.group(group)]
    if not edits:
        return []
    edits = [*guard.declared(), *edits]
    try:
        read(file.path, edited(file.text, edits), file.flags)
    except Unreadable:
        return []  # as a `return` of a type that can't be assigned
    return edits


class _Guard:
    """Takes the jumps out of the groups of one function."""

    def __init__(self, file: SourceFile, function: Function, body: Body) -> None:
        self.file, self.function, self.body = file, function, body
        taken = set(file.all_words())
        self.names = Names(new_name("leave", taken), new_name("answer", taken))
        self.step = "\t" if "\n\t" in file.text[function.body:function.end] else "    "
        self.tree = Syntax(function.compound, False).body
        self.answers = self.leaves = False

    def group(self, group: Conditional) -> list[Edit]:
        """Return the edits of one group, none where it can't be done surely."""
        branches = Branches(self.file.text, self.body.tokens, self.names, self.step)
        try:
            if edits := self._parted(group, branches):
                return edits
            if not self._stands_alone(group):
                return []
            branches.read(group)
        except Unsafe:
            return []
        may_stand = all(self._may_stand(what, group) for what in branches.exits)
        if not may_stand or not all(self._is_own(*each) for each in branches.declared):
            return []
        self.answers = self.answers or branches.answers
        self.leaves = self.leaves or bool(branches.exits)
        return [*branches.edits, *(self._around(group, branches.exits) if branches.exits else [])]

    def declared(self) -> list[Edit]:
        """Return the edit that declares the variables at the top of the function."""
        if not self.leaves:
            return []
        place = self.function.body + 1
        text = f"\n{self.step}int {self.names.leave};"
        if self.answers:
            text += f"\n{self.step}{self._result()}{self.names.answer};"
        return [Edit(place, place, text)]

    def _parted(self, group: Conditional, branches: Branches) -> list[Edit]:
        """Return the edit that makes two groups of one at the top of the body: its declarations, which stay, and the rest.

        There is none for a group of another form.
        """
        if len(group.branches) > 1 or group.branches[0].inner or not group.start < self.body.first_statement:
            return []
        end = branches.declarations(group.branches[0])
        if end is None:
            return []
        text, directive = self.file.text, group.branches[0].directive
        line = text.find("\n", end)
        return [Edit(line, line, f"\n#endif\n{text[directive.start:directive.end].rstrip()}")]

    # -- what has to hold

    def _stands_alone(self, group: Conditional) -> bool:
        """Return whether the group stands among the statements of a list, whatever branch is taken."""
        judge = Judge(self.body, group.start, group.end)
        if not judge.at_boundary or judge.behind and judge.behind[0].text == "else":
            return False
        if judge.before[-1].text == ":":
            return True
        rows = judge.rows()
        if not rows:
            return False
        taken = self.body.taken
        spans = [(taken[first].start, taken[behind - 1].end) for first, behind in rows[0].spans]
        return all(end <= group.start or start >= group.end or group.start <= start and end <= group.end
                   for start, end in spans)

    def _may_stand(self, what: str, group: Conditional) -> bool:
        """Return whether a jump can stand behind the group, whatever branches are taken elsewhere."""
        if what.startswith("return"):
            return not what.endswith(" " + self.names.answer) or self._result() != ""
        if what.startswith("goto "):
            places = [node.start for node in _all(self.tree)
                      if node.kind == syntax.LABEL and libclang.spelling(node.cursor) == what.removeprefix("goto ")]
            return bool(places) and not any(
                each.start <= place < each.end for place in places for each in self.body.groups)
        kinds = syntax.LOOPS if what == "continue" else (*syntax.LOOPS, syntax.SWITCH)
        return any(node.kind in kinds and node.start < group.start and group.end <= libclang.extent(node.cursor)[1]
                   for node in _all(self.tree))

    def _is_own(self, name: str, start: int, end: int) -> bool:
        """Return whether a name that is declared in a branch, from `start` to `end`, is used in it alone, as a value."""
        tokens = self.file.tokens
        for at in range(tokens.first_from(self.function.start), tokens.first_from(self.function.end)):
            if tokens.spellings[at] == name:
                if not start <= tokens.offsets[at] < end or tokens.spellings[at - 1] == "&":
                    return False
        return name not in self.file.words_behind(self.file.words_in(self.function))

    def _result(self) -> str:
        """Return the type that the function returns, as it is written; '' where it isn't plainly written."""
        tokens, found = self.file.tokens, []
        at, word = tokens.first_from(self.function.start), ""
        while at < len(tokens) and tokens.offsets[at] < self.function.name_offset:
            word = tokens.spellings[at]
            if tokens.kinds[at] not in (TokenKind.COMMENT, TokenKind.CONTINUATION) and word not in _CLASSES:
                is_name = tokens.kinds[at] is TokenKind.NAME
                if word != "*" and not is_name or word in self.file.macros:
                    return ""
                found.append(word)
            at += 1
        follows = tokens.spellings[at + 1] if at + 1 < len(tokens) else ""
        if follows != "(" or found in ([], ["void"]) or found[-1] == "const" or self.function.name in found:
            return ""
        return " ".join(found).replace("* *", "**") + ("" if found[-1] == "*" else " ")

    # -- what is written

    def _around(self, group: Conditional, exits: list[str]) -> list[Edit]:
        """Return the edits that set the variable before a group, and put the jumps behind it."""
        text, leave = self.file.text, self.names.leave
        start = text.rfind("\n", 0, group.start) + 1
        end = text.find("\n", group.end)
        white = self._white(group)
        tests = [f"\n{white}if ({leave}{f' == {number}' if len(exits) > 1 else ''}) {what};"
                 for number, what in enumerate(exits, 1)]
        return [Edit(start, start, f"{white}{leave} = 0;\n"), Edit(end, end, "".join(tests))]

    def _white(self, group: Conditional) -> str:
        """Return the white space before the first statement in the group."""
        for token in self.body.tokens:
            if token.start > group.start and not token.is_directive:
                return white_before(self.file.text, token.start)
        return ""


def _all(node: Node) -> list[Node]:
    """Return a statement and all in it."""
    return [node, *(below for child in node.children for below in _all(child))]
