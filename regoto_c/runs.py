"""Runs: statements of a function that follow each other, into which no jump leads from outside."""

from __future__ import annotations

from dataclasses import dataclass, field
from typing import Iterator, Sequence

from . import libclang, syntax
from .ground import Ground, NeedsExpansion
from .messages import Refused
from .reading import Function, SourceFile
from .syntax import Node

MOST_JUMPS = 110  # of a run; the core takes some 130
MOST_LABELS = 45


@dataclass
class Jump:
    """A jump out of a run: its bytes with its semicolon, and what it is ('goto x', 'break' or 'continue')."""

    start: int
    end: int
    what: str


@dataclass
class Run:
    """Statements that follow each other, from `start` to `end`, and how many jumps they have.

    `scope` are the declarations, in order, that are in force there.
    """

    start: int
    end: int
    jumps: int
    leaving: list[Jump]
    scope: list[Node]

    @property
    def exits(self) -> list[str]:
        """The different jumps that leave it."""
        return list(dict.fromkeys(jump.what for jump in self.leaving))

    @property
    def gain(self) -> int:
        """How many jumps less there are when it is done by itself."""
        return self.jumps - len(self.exits)


@dataclass
class Found:
    """What stands in some statements."""

    gotos: list[Node] = field(default_factory=list)
    labels: list[str] = field(default_factory=list)
    leaving: list[Node] = field(default_factory=list)  # break and continue that are bound outside
    bound: int = 0  # break and continue that are bound inside, in what holds jumps, and cases

    @property
    def jumps(self) -> int:
        """How many jumps the core may count here, at most."""
        return len(self.gotos) + len(self.leaving) + self.bound


@dataclass
class _Row:
    """Statements that follow each other in a list that ends at a unit, and the declarations in force there."""

    nodes: list[Node]
    scope: list[Node]
    end: int


def _target(node: Node) -> str:
    """Return the label of a goto."""
    return libclang.spelling(libclang.children(node.cursor)[0])


def _look(node: Node, found: Found, loop: bool, switch: bool) -> None:
    """Gather what stands in a statement, in a loop or switch of its own or not."""
    if node.kind == syntax.GOTO:
        found.gotos.append(node)
    elif node.kind == syntax.LABEL:
        found.labels.append(libclang.spelling(node.cursor))
    elif node.kind == syntax.BREAK and not switch or node.kind == syntax.CONTINUE and not loop:
        found.leaving.append(node)
    elif node.kind in (syntax.BREAK, syntax.CONTINUE, syntax.CASE, syntax.DEFAULT):
        found.bound += 1
    if node.is_opaque and not node.jumps:
        return
    loops = node.kind in syntax.LOOPS
    for child in node.children:
        _look(child, found, loop or loops, switch or loops or node.kind == syntax.SWITCH)


def found_in(nodes: Sequence[Node]) -> Found:
    """Return what stands in some statements."""
    found = Found()
    for node in nodes:
        _look(node, found, False, False)
    return found


class Finder:
    """Finds the runs of a function that may be done by themselves; `whole` is what stands in the function."""

    def __init__(self, file: SourceFile, function: Function) -> None:
        self.ground = Ground(file, function)
        self.whole = found_in([self.ground.syntax.body])
        self.runs: list[Run] = []

    def run(self) -> list[Run]:
        """Return the runs, none of which lies in another."""
        self._list(self.ground.syntax.body, [])
        return self.runs

    def _list(self, block: Node, scope: list[Node]) -> None:
        """Look at the statements of a block."""
        at = self.ground.unit_of(block)
        if not self.ground.is_token(at, "{"):
            return
        scope, row = list(scope), _Row([], scope, self.ground.units.mates[at])
        for node in block.children:
            if node.kind == syntax.DECLARATION:
                self._row(row)
                scope = [*scope, node]
                row = _Row([], scope, row.end)
            elif node.cases or self._is_entered([node], block.children):
                self._row(row)
                self._into(node, scope)
                row = _Row([], scope, row.end)
            else:
                row.nodes.append(node)
        self._row(row)

    def _is_entered(self, nodes: Sequence[Node], around: Sequence[Node]) -> bool:
        """Whether a jump from outside of `around` leads into some of its statements."""
        labels = found_in(nodes).labels
        inside = {id(goto) for goto in found_in(around).gotos}
        return any(_target(goto) in labels and id(goto) not in inside for goto in self.whole.gotos)

    def _into(self, node: Node, scope: list[Node]) -> None:
        """Look at the blocks in a statement."""
        for child in node.children:
            if child.kind == syntax.DECLARATION:
                scope = [*scope, child]
            elif child.kind == syntax.COMPOUND:
                self._list(child, scope)
            else:
                self._into(child, scope)

    def _row(self, row: _Row) -> None:
        """Take statements into which no jump leads from outside, in parts that aren't too long."""
        part: list[Node] = []
        size = 0
        for atom in _atoms(row.nodes):
            weight = sum(map(_weight, atom))
            if size + weight > MOST_JUMPS:
                self._take(part, row)
                part, size = [], 0
            if weight > MOST_JUMPS:
                self._inside(atom, row)
            else:
                part, size = [*part, *atom], size + weight
        self._take(part, row)

    def _inside(self, nodes: list[Node], row: _Row) -> None:
        """Take parts of statements that belong together and are too long: those into which no jump leads."""
        if len(nodes) == 1:
            self._into(nodes[0], row.scope)
            return
        part: list[Node] = []
        for node in nodes:
            if self._is_entered([node], [node]):
                self._row(_Row(part, row.scope, row.end))
                self._into(node, row.scope)
                part = []
            else:
                part.append(node)
        self._row(_Row(part, row.scope, row.end))

    def _take(self, nodes: list[Node], row: _Row) -> None:
        """Take the part of some statements that jumps, where that makes the jumps fewer."""
        while nodes and not _jumps(nodes[0]):
            nodes = nodes[1:]
        while nodes and not _jumps(nodes[-1]):
            nodes = nodes[:-1]
        if not nodes:
            return
        try:
            run = self._run(nodes, row)
        except (NeedsExpansion, Refused):
            return
        if run.gain > 0:
            self.runs.append(run)

    def _run(self, nodes: list[Node], row: _Row) -> Run:
        """Return the run of these statements.

        Raises `NeedsExpansion` or `Refused` where it can't be told where one ends.
        """
        found = found_in(nodes)
        leaving = [goto for goto in found.gotos if _target(goto) not in found.labels] + found.leaving
        first = self.ground.unit_of(nodes[0])
        behind = self.ground.finish(nodes[-1], self.ground.unit_of(nodes[-1]), row.end)
        jumps = sorted((self._jump(node, row.end) for node in leaving), key=lambda jump: jump.start)
        units = self.ground.units
        return Run(units.starts[first], units.ends[behind - 1], found.jumps, jumps, row.scope)

    def _jump(self, node: Node, end: int) -> Jump:
        at = self.ground.unit_of(node)
        behind = self.ground.finish(node, at, end)
        if not self.ground.is_token(behind - 1, ";"):
            raise Refused(node.start, "a jump without a semicolon")
        word = {syntax.BREAK: "break", syntax.CONTINUE: "continue"}.get(node.kind)
        units = self.ground.units
        return Jump(units.starts[at], units.ends[behind - 1], word or f"goto {_target(node)}")


def _atoms(nodes: Sequence[Node]) -> Iterator[list[Node]]:
    """Yield the least parts of some statements such that no jump leads from one into another."""
    founds = [found_in([node]) for node in nodes]
    places = {label: number for number, found in enumerate(founds) for label in found.labels}
    farthest = list(range(len(nodes)))
    for number, found in enumerate(founds):
        for goto in found.gotos:
            place = places.get(_target(goto), number)
            farthest[min(place, number)] = max(farthest[min(place, number)], place, number)
    start, end = 0, 0
    for number in range(len(nodes)):
        end = max(end, farthest[number])
        if end == number:
            yield list(nodes[start:number + 1])
            start = end = number + 1


def _weight(node: Node) -> int:
    """Return how many jumps a statement has, or as many as its labels weigh."""
    found = found_in([node])
    return max(found.jumps, len(found.labels) * MOST_JUMPS // MOST_LABELS)


def _jumps(node: Node) -> bool:
    """Whether a jump or a label stands in a statement; a return alone doesn't count."""
    return node.jumps or node.breaks or node.continues
