"""Single programs that are run before and after: gcc's own tests, and random programs of csmith."""
from __future__ import annotations

import re
import shutil
import signal
from collections.abc import Callable, Sequence
from concurrent.futures import ThreadPoolExecutor
from dataclasses import dataclass, field
from pathlib import Path

from .commands import LONGEST, Ran, run, say
from .restructurer import Count, Restructurer
from .sources import Sources

FIRST = '-O0'
NUMBER = 500
SECONDS = 5


@dataclass
class Programs:
    """What came of a set of programs: those with goto by what was seen of them, the functions, and the faults."""
    name: str
    count: Count = field(default_factory=Count)
    seen: dict[str, int] = field(default_factory=dict)
    faults: list[str] = field(default_factory=list)


@dataclass(frozen=True)
class Tried:
    """One program: what was seen, and the figures of regoto-c."""
    program: Path
    seen: str
    count: Count
    detail: str = ''


def runs(program: Path, made: Path, level: str, flags: Sequence[str]) -> Ran | None:
    """What a program does that is compiled at a level, in some seconds of a processor; None where it isn't compiled."""
    if not run(['gcc', '-w', level, *flags, str(program), '-o', str(made), '-lm'], made.parent, LONGEST).is_ok:
        return None
    found = run(['sh', '-c', f'ulimit -t {SECONDS}; exec "$0"', str(made)], made.parent, LONGEST)
    made.unlink()
    return Ran(None, found.output) if found.status in (-signal.SIGXCPU, -signal.SIGKILL) else found


def attempt(program: Path, folder: Path, flags: Sequence[str], levels: Sequence[str],
            restructurer: Restructurer) -> Tried:
    """Compile and run a program as it is, and what was made of it at each of `levels`."""
    made = folder / f'{program.stem}.program'
    before = runs(program, made, FIRST, flags)
    if before is None:
        return Tried(program, 'not compiled before', Count())
    if before.status is None:
        return Tried(program, 'ran on before', Count())
    result = folder / f'{program.stem}.restructured.c'
    _, count = restructurer.run(['-o', result, program, '--', '-w', *flags], folder)
    if count.faults and 'exit status 3:' in count.faults[0]:
        return Tried(program, 'not read by clang', Count())
    if count.faults:
        return Tried(program, 'fault', count, count.faults[0])
    if count.restructured == 0:
        return Tried(program, 'left as it is', count)
    for level in levels:
        after = runs(result, made, level, flags)
        if after != before and (level == FIRST or after != runs(program, made, level, flags)):
            return Tried(program, 'wrong', count, f'{level}: before {before}, after {after}'[:600])
    return Tried(program, 'same', count)


def attempt_all(name: str, programs: Sequence[Path], one: Callable[[Path], Tried], jobs: int) -> Programs:
    """Try programs, several at a time."""
    all_of_them = Programs(name)
    with ThreadPoolExecutor(jobs) as pool:
        for number, tried in enumerate(pool.map(one, programs), 1):
            all_of_them.seen[tried.seen] = all_of_them.seen.get(tried.seen, 0) + 1
            all_of_them.count.add(tried.count)
            if tried.seen in ('wrong', 'fault'):
                all_of_them.faults.append(f'{tried.program.name}: {tried.seen}: {tried.detail}')
            if number % 50 == 0:
                say(f'{name}: {number} of {len(programs)}: {all_of_them.seen}')
    return all_of_them


def torture(folder: Path, sources: Sources, restructurer: Restructurer, jobs: int) -> Programs:
    """The files of gcc.c-torture/execute with a goto. Raises NotFetched."""
    place = folder / 'torture'
    place.mkdir(parents=True, exist_ok=True)
    programs = [file for file in sorted(sources.torture_tests().glob('**/*.c'))
                if re.search(r'\bgoto\b', file.read_text('latin-1'))]
    return attempt_all('gcc torture', programs, lambda it: attempt(it, place, [], (FIRST, '-O2'), restructurer), jobs)


def csmith(folder: Path, sources: Sources, restructurer: Restructurer, jobs: int) -> Programs:
    """The programs with a goto among the first NUMBER of csmith. Raises NotFetched."""
    generator = sources.package('csmith') / 'usr/bin/csmith'
    headers = next((sources.package('libcsmith-dev') / 'usr/include').glob('csmith*'))
    flags = [f'-I{headers if headers.is_dir() else headers.parent}']
    place = folder / 'csmith'
    place.mkdir(parents=True, exist_ok=True)
    programs = []
    for seed in range(1, NUMBER + 1):
        program = place / f'{seed}.c'
        if not program.exists():
            made = run([str(generator), '--seed', str(seed)], place, 60)
            program.write_text(made.output if made.is_ok else '')
        if re.search(r'\bgoto\b', program.read_text()):
            programs.append(program)
    return attempt_all('csmith', programs, lambda it: attempt(it, place, flags, ('-O2',), restructurer), jobs)


def is_ready() -> str:
    """What is missing for the programs, or an empty text."""
    return '' if shutil.which('gcc') else 'missing: gcc'
