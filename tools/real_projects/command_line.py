"""The words of tools/real-projects."""
from __future__ import annotations

import argparse
import os
import sys
import tempfile
from collections.abc import Callable
from pathlib import Path

from . import programs, projects
from .commands import say
from .recipes import RECIPES
from .restructurer import TOP, Restructurer
from .sources import NotFetched, Sources
from .table import table

TRIAL_OF_SET = Callable[[Path, Sources, Restructurer, int], programs.Programs]
SETS: dict[str, TRIAL_OF_SET] = {'torture': programs.torture, 'csmith': programs.csmith}


def words() -> argparse.Namespace:
    """What the command was given. Ends the program with status 2 at wrong words."""
    parser = argparse.ArgumentParser(prog='tools/real-projects')
    parser.epilog = 'Status 0: all is as it was before; 1: there are faults; 2: words; 3: something is missing.'
    names = [*RECIPES, *SETS]
    parser.description = ('Restructure the C files of projects of Debian, build them and run their own tests before '
                          "and after; likewise gcc's tests with goto, and programs of csmith.")
    parser.add_argument('--core', metavar='PROGRAM', help='the proved program that regoto-c calls')
    parser.add_argument('--only', metavar='NAME', nargs='+', choices=names, default=names, help=', '.join(names))
    parser.add_argument('--jobs', metavar='N', type=int, default=os.cpu_count() or 1, help='how many at a time')
    parser.add_argument('--csmith', metavar='N', type=int, default=500, help='how many programs of csmith are made')
    parser.add_argument('--keep', metavar='FOLDER', type=Path, help='work there, and leave sources, trees and logs')
    parser.add_argument('--out', metavar='TABLE', type=Path, help='write the table to this file too')
    return parser.parse_args()


def trials(given: argparse.Namespace, folder: Path) -> int:
    """Do all trials that were asked for, and write the table; the exit status."""
    sources = Sources(folder / 'sources')
    core = str(Path(given.core).resolve()) if given.core else None
    restructurer = Restructurer(core)
    outcomes: list[projects.Outcome] = []
    sets: list[programs.Programs] = []
    text = ''
    for name in given.only:
        try:
            if name in RECIPES:
                (folder / name).mkdir(exist_ok=True)
                outcomes.append(projects.Trial(name, folder, sources, restructurer, given.jobs).run())
            else:
                sets.append(SETS[name](folder, sources, restructurer, given.jobs))
        except NotFetched as error:
            print(f'tools/real-projects: {error}', file=sys.stderr)
            return 3
        text = table(outcomes, sets)
        if given.out:
            given.out.write_text(text)
    print(text)
    return 0 if '\n0 faults\n' in text else 1


def main() -> int:
    """Run the command; the exit status."""
    given = words()
    programs.NUMBER = given.csmith
    missing = projects.is_ready() or programs.is_ready()
    if not missing and not (TOP / 'regoto-c').exists():
        missing = 'missing: ./regoto-c'
    if missing:
        print(f'tools/real-projects: {missing}', file=sys.stderr)
        return 3
    if given.keep:
        given.keep.mkdir(parents=True, exist_ok=True)
        return trials(given, given.keep.resolve())
    with tempfile.TemporaryDirectory(prefix='real-projects.') as folder:
        say(f'working in {folder}')
        return trials(given, Path(folder))
