"""Calls of regoto-c, and what it says of the functions with goto."""
from __future__ import annotations

import re
import shlex
from collections.abc import Sequence
from dataclasses import dataclass, field
from pathlib import Path

from .commands import LONGEST, Ran, run

TOP = Path(__file__).resolve().parents[2]
LEFT = re.compile(r'^(?P<place>[^\n:]+:\d+:\d+): (?:warning|error): not restructured: (?P<why>.*)$', re.M)
UNREAD = re.compile(r'^(?P<file>[^\n:]+):\d+:\d+: error: (?!not restructured)', re.M)
LAST = re.compile(r'(\d+) functions? with goto: (\d+) [a-z ]+, (\d+) ')


@dataclass
class Count:
    """How many functions have a goto, how many were restructured, and where and why the others were left."""
    functions: int = 0
    restructured: int = 0
    left: list[tuple[str, str]] = field(default_factory=list)
    faults: list[str] = field(default_factory=list)

    def add(self, other: Count) -> None:
        """Take the figures of another count into this one."""
        self.functions += other.functions
        self.restructured += other.restructured
        self.left += other.left
        self.faults += other.faults


@dataclass(frozen=True)
class Restructurer:
    """The command regoto-c with the core that it is to use."""
    core: str | None

    @property
    def words(self) -> list[str]:
        """The words that call it."""
        return [str(TOP / 'regoto-c'), *(['--core', self.core] if self.core else [])]

    @property
    def as_compiler(self) -> str:
        """The value of CC with which it stands in gcc's place."""
        return shlex.join([*self.words, '--cc', 'gcc'])

    def run(self, words: Sequence[str | Path], folder: Path, seconds: float = LONGEST) -> tuple[Ran, Count]:
        """Run it, and count by what it says."""
        ran = run([*self.words, *map(str, words)], folder, seconds)
        return ran, counted(ran)


def counted(ran: Ran) -> Count:
    """The figures that a run of regoto-c gave; a run with another status than 0 and 1 is a fault."""
    count = Count(left=[(match['place'], match['why']) for match in LEFT.finditer(ran.output)])
    last = LAST.search(ran.output)
    if last:
        count.functions, count.restructured = int(last[1]), int(last[2])
    if ran.status not in (0, 1):
        count.faults.append(f'exit status {ran.status}: {ran.output.strip()[-400:]}')
    return count


def unread(ran: Ran) -> list[tuple[str, str]]:
    """The files that clang didn't read in a run of regoto-c, each with why it was left."""
    files = {match['file'] for match in UNREAD.finditer(ran.output)}
    return [(file, "a file that clang doesn't read") for file in sorted(files)]


def logged(log: str) -> Count:
    """The figures of the log that regoto-c keeps in a compiler's place."""
    count = Count()
    for place, text in re.findall(r'^(.*?): (.*)$', log, re.M):
        found = re.match(r'(\d+) functions? with goto, (\d+) restructured$', text)
        if found:
            count.functions += int(found[1])
            count.restructured += int(found[2])
        else:
            count.left.append((place, text.removeprefix('not restructured: ')))
    return count
