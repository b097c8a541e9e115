"""Functions with more gotos than the core takes, done in levels from inside.

A run of statements into which no jump leads becomes a function of its own: each jump that leaves it is written
`leave = k; goto leave_end;`. When that function is restructured, its statements take the run's place, and
`if (leave == k)` with the jump stand behind them. So the run's jumps are one for each place to which they lead.
"""

from __future__ import annotations

from typing import Callable, Sequence

from . import libclang
from .messages import Refused
from .reading import Edit, Function, SourceFile, edited
from .runs import Finder, Run, found_in
from .syntax import Node, Syntax
from .words import closing, texts, words

AIM = 115  # jumps that are left, which the core will take

Restructure = Callable[[str, Sequence[str]], str]


def _text_of(file: SourceFile, node: Node) -> str:
    """Return the text of a declaration with its semicolon."""
    start, end = node.start, libclang.extent(node.cursor)[1]
    if not file.text[start:end].endswith(";"):
        end = file.text.index(";", end) + 1
    return file.text[start:end]


def _in_force(scope: Sequence[Node]) -> list[Node]:
    """Return the declarations of which a name isn't declared again by those behind them."""
    seen: set[str] = set()
    found = []
    for node in reversed(scope):
        names = {libclang.spelling(child) for child in libclang.children(node.cursor)} - {""}
        if not names or not names <= seen:
            found.append(node)
        seen |= names
    return found[::-1]


class _Level:
    """Writes the functions of some runs, and puts what they become in the place of the runs."""

    def __init__(self, file: SourceFile, function: Function, runs: Sequence[Run]) -> None:
        self.file, self.function, self.runs = file, function, runs
        taken = set(file.all_words())
        self.leave = new_name("leave", taken)
        self.label = new_name("leave_end", taken)
        self.step = "\t" if "\n\t" in file.text[function.body:function.end] else "    "
        self.names = [new_name(f"{function.name}_part_{number}", taken) for number, _ in enumerate(runs, 1)]

    def text(self) -> str:
        """Return the file with a function for each run behind the function itself."""
        parts = [self._function(run, name) for run, name in zip(self.runs, self.names)]
        return "\n".join([self.file.text[:self.function.end], *parts, ""])

    def _function(self, run: Run, name: str) -> str:
        function, text = self.function, self.file.text
        at = function.name_offset
        if not text.startswith(function.name, at) or not function.start <= at < function.body:
            raise Refused(at, "the function's name stands in a macro")
        head = text[function.start:at] + name + text[at + len(function.name):function.body]
        white = self._white(run.start)
        inner = white + self.step
        return (f"{head}{self._front(run)}\n{inner}{self.leave} = 0;\n{inner}{self._inside(run)}\n"
                f"{inner}{self.label}:;\n{white}}}")

    def _white(self, offset: int) -> str:
        """Return the white space at the front of the line in which an offset lies."""
        line = self.file.text[self.file.text.rfind("\n", 0, offset) + 1:offset]
        return line[:len(line) - len(line.lstrip(" \t"))]

    def _front(self, run: Run) -> str:
        """Return what stands before the statements of a run: the declarations that are in force there."""
        inner = "\n" + self._white(run.start) + self.step
        declared = [f"int {self.leave};", *(_text_of(self.file, node) for node in _in_force(run.scope))]
        return "{" + "".join(inner + text for text in declared)

    def _inside(self, run: Run) -> str:
        """Return the text of a run in which each jump that leaves it goes to its end."""
        exits = run.exits
        edits = [Edit(jump.start - run.start, jump.end - run.start,
                      f"{{ {self.leave} = {exits.index(jump.what) + 1}; goto {self.label}; }}") for jump in run.leaving]
        inside = edited(self.file.text[run.start:run.end], edits)
        self._check(run, inside)
        return inside

    def _check(self, run: Run, inside: str) -> None:
        """Raise `Refused` where the run's text isn't that of the source with jumps in the place of jumps."""
        back: list[str] = []
        found, jumps = texts(words(inside)), iter(run.leaving)
        while found:
            jump = next(jumps) if found[:2] == ["{", self.leave] else None
            if jump is None:
                back.append(found.pop(0))
                continue
            number = str(run.exits.index(jump.what) + 1)
            if found[:9] != ["{", self.leave, "=", number, ";", "goto", self.label, ";", "}"]:
                break
            back += texts(words(self.file.text, jump.start, jump.end))
            del found[:9]
        if found or back != texts(words(self.file.text, run.start, run.end)):
            raise Refused(run.start, "a part of the function can't be done by itself")

    def edits(self, result: str) -> list[Edit]:
        """Return the edits of the file that put the restructured runs in the place of the runs."""
        edits = []
        for run, name in zip(self.runs, self.names):
            body = _body(result, name)
            front = self._front(run)
            if body is None or not body.startswith(front) or "goto" in texts(words(body)):
                continue
            tests = [f"if ({self.leave} == {number}) {what};" for number, what in enumerate(run.exits, 1)]
            white = self._white(run.start)
            begins = self.file.text.endswith("\n" + white, 0, run.start)
            lines = [*([] if begins else [""]), "{" + body[len(front):], *tests]
            edits.append(Edit(run.start, run.end, ("\n" + white).join(lines)))
        place = self.function.body + 1
        return [Edit(place, place, f"\n{self.step}int {self.leave};"), *edits] if edits else []


def new_name(name: str, taken: set[str]) -> str:
    """Return the name, or one with a number behind it that isn't taken."""
    number = 2
    new = name
    while new in taken:
        new, number = f"{name}_{number}", number + 1
    return new


def _body(text: str, name: str) -> str | None:
    """Return the body, from its `{` to its `}`, of the function with a name that stands nowhere else."""
    found = words(text, text.index(name))
    depth = 0
    for index, token in enumerate(found):
        depth += (token.text == "(") - (token.text == ")")
        if token.text == "{" and depth == 0:
            close = closing(found, index)
            return None if close is None else text[token.start:found[close].end]
    return None


def reduced(file: SourceFile, function: Function, restructure: Restructure, level: int) -> list[Edit]:
    """Return edits that leave fewer jumps in a function that the core finds too tangled.

    `restructure` gives the text of a file with the functions of these names restructured. `level` counts the calls
    for one function. There are none where nothing is left to be done by itself. Raises `Refused` where a part can't be
    read, or has more in it than jumps in the place of jumps.
    """
    finder = Finder(file, function)
    runs = sorted(finder.run(), key=lambda run: -run.gain)
    left = finder.whole.jumps
    chosen: list[Run] = []
    for run in runs:
        if left > AIM - 20 * level or not chosen:
            chosen.append(run)
            left -= run.gain
    edits: list[Edit] = []
    if chosen:
        made = _Level(file, function, sorted(chosen, key=lambda run: run.start))
        edits = made.edits(restructure(made.text(), made.names))
    return edits


def too_many(file: SourceFile, function: Function) -> str:
    """Return how many gotos and labels a function has, and how many there may be."""
    found = found_in([Syntax(function.compound, False).body])
    labels = len(set(found.labels))
    return (f"{len(found.gotos)} gotos and {labels} label{'s' if labels != 1 else ''} are too many for one function; "
            "there may be some 130 jumps, and 60 labels")
