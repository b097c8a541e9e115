"""The command line: what is asked for, file by file, and what is said about it."""

from __future__ import annotations

import argparse
import os
import sys
from functools import partial
from pathlib import Path
from typing import Iterator

from . import loading
from .core_program import NoCore, find_core, is_tried
from .flags import Database
from .messages import Message
from .options import Options
from .results import DONE, FAULT, LEFT, UNREADABLE, WORDS, Request, Result, difference, replace

_VERSION = Path(__file__).resolve().parent.parent / "VERSION"

_STATUSES = """\
exit status:
  0   each function with a goto was restructured
  1   a function was left as it is; with --check, a function has a goto that could go
  2   the words fit no use
  3   a file can't be read or written, clang finds errors in it, or there is no proved program
  70  a fault of regoto-c itself; nothing was written
  with --cc it is the compiler's own: 128 and the signal's number where a signal ended it, 127 where it can't be
  started; 2 and 3 are regoto-c's only where it doesn't get so far as to start it
"""
_TRIED = ("the program runs before its proofs, which takes a minute or more for each file; what comes out isn't proved "
          "(./regoto --build proves and builds it)")
_FLAGS = ("a file that is included isn't found: the compiler's flags stand behind --, as in `regoto-c -d FILE -- -Iinclude`, "
          "or in BUILD/compile_commands.json for -p BUILD")


def parser() -> argparse.ArgumentParser:
    """Return the parser of the command line."""
    made = argparse.ArgumentParser(
        "regoto-c", usage="regoto-c [options] FILE.. [-- COMPILER FLAGS]\n       regoto-c [options] --cc COMPILER ..",
        description="Eliminates the gotos of C functions, by the proved program regoto on their control flow.\n"
                    "Without -o, -i, -d or --check it says which functions it would restructure.",
        epilog=_STATUSES, formatter_class=argparse.RawDescriptionHelpFormatter)
    made.add_argument("files", nargs="+", metavar="FILE", type=Path, help="a C file, or a preprocessed one (.i)")
    where = made.add_mutually_exclusive_group()
    where.add_argument("-o", metavar="OUT", dest="out", help="write the one file to OUT; '-' is the standard output")
    where.add_argument("-i", "--in-place", action="store_true", help="replace each file that changes")
    where.add_argument("-d", "--diff", action="store_true", help="show what would change, as a unified diff")
    where.add_argument("--check", action="store_true", help="change nothing; exit 1 if a goto could go")
    made.add_argument("-p", metavar="BUILD", dest="build", type=Path,
                      help="take the flags of each file from BUILD/compile_commands.json")
    made.add_argument("--functions", metavar="NAMES", default="", help="only these functions, with commas between")
    made.add_argument("--configured", action="store_true",
                      help="resolve #if groups that bear jumps, for these flags, in functions that are rewritten")
    made.add_argument("--tidy", action="store_true", help="turn guards of single loops back into break and continue")
    made.add_argument("--strict", action="store_true", help="write nothing where a function is left; an error then")
    made.add_argument("--report", metavar="FILE", type=Path, help="write the moves, function by function, to FILE")
    made.add_argument("--core", metavar="PROGRAM", type=Path, help="take this program as the proved one")
    made.add_argument("--try-core", action="store_true",
                      help="use ./regoto, which runs its sources before any proof where it isn't built")
    made.add_argument("--cc", metavar="COMPILER ..", help="stand in for a compiler: make CC='regoto-c --cc gcc'")
    made.add_argument("--jobs", metavar="N", type=int, default=len(os.sched_getaffinity(0)),
                      help="work with N processes; by default with as many as there are processors")
    made.add_argument("--quiet", action="store_true", help="say nothing but warnings and errors")
    made.add_argument("--version", action="version", version=_version())
    return made


def _version() -> str:
    return f"regoto-c {_VERSION.read_text().strip()}" if _VERSION.is_file() else "regoto-c"


def main(words: list[str]) -> int:
    """Do what the words of the command line ask for; return the exit status."""
    if "--cc" in words:
        return _stand_in(words)
    loading.begin()
    cut = words.index("--") if "--" in words else len(words)
    made = parser()
    asked = made.parse_args(words[:cut])
    if asked.out is not None and len(asked.files) > 1:
        made.error("-o takes one file")
    try:
        core = find_core(asked.core, asked.try_core)
    except NoCore as why:
        print(f"regoto-c: {why}", file=sys.stderr)
        return UNREADABLE
    if is_tried(core):
        print(f"regoto-c: {_TRIED}", file=sys.stderr, flush=True)
    functions = frozenset(name for name in asked.functions.split(",") if name)
    share = asked.jobs if len(asked.files) == 1 else 1  # of several files each has one process
    options = Options(core, functions, asked.configured, asked.tidy, share, asked.report is not None)
    try:
        requests = list(_requests(asked, words[cut + 1:], options))
    except (OSError, ValueError, KeyError) as why:
        print(f"regoto-c: {asked.build / 'compile_commands.json'}: {why}", file=sys.stderr)
        return WORDS
    return _finish(asked, list(_results(asked, requests)), functions)


def _stand_in(words: list[str]) -> int:
    """Stand in for the compiler behind `--cc`."""
    from .compiler import stand_in

    cut = words.index("--cc")
    asked = parser().parse_args([*words[:cut], "-"])
    try:
        core = find_core(asked.core, asked.try_core)
    except NoCore as why:
        print(f"regoto-c: {why}", file=sys.stderr)
        return UNREADABLE
    return stand_in(words[cut + 1:], Options(core, configured=asked.configured, tidy=asked.tidy))


def _requests(asked: argparse.Namespace, flags: list[str], options: Options) -> Iterator[Request]:
    database = Database(asked.build) if asked.build else None
    for path in asked.files:
        known = database.flags_of(path) if database else None
        if database and known is None:
            print(f"regoto-c: {path} isn't in compile_commands.json; it is read with the other flags", file=sys.stderr)
        yield Request(path, [*(known or []), *flags], options)


def _results(asked: argparse.Namespace, requests: list[Request]) -> Iterator[Result]:
    """Do the work, and say of each file what became of it."""
    from .work import carry_out

    shows = sys.stderr.isatty() and not asked.quiet and len(requests) > 1
    if asked.jobs > 1 and len(requests) > 1:
        from concurrent.futures import ProcessPoolExecutor  # slow to load

        from . import alone  # noqa: F401  # once, before there are several processes

        with ProcessPoolExecutor(min(asked.jobs, len(requests))) as pool:
            yield from _shown(pool.map(carry_out, requests), requests, shows, asked)
    else:
        yield from _shown(map(carry_out, requests), requests, shows, asked)


def _shown(
    results: Iterator[Result], requests: list[Request], shows: bool, asked: argparse.Namespace
) -> Iterator[Result]:
    say = partial(print, file=sys.stderr, flush=True)
    for number, request in enumerate(requests):
        if shows:
            say(f"\r\x1b[K[{number + 1}/{len(requests)}] {request.path}", end="")
        result = next(results)
        if shows:
            say("\r\x1b[K", end="")
        for message in result.messages:
            if message.kind != "note" or not asked.quiet:
                say(_as_asked(message, asked))
        yield result
    for _ in results:
        pass


def _as_asked(message: Message, asked: argparse.Namespace) -> Message:
    if asked.strict and message.kind == "warning":
        message.kind = "error"
    return message


# -- what is written


def _finish(asked: argparse.Namespace, results: list[Result], functions: frozenset[str]) -> int:
    """Write what was asked for; return the exit status."""
    status = max(result.status for result in results)
    if asked.check and status <= LEFT:
        status = LEFT if any(result.done for result in results) else DONE
    good = [result for result in results if result.text is not None]
    writes = status != FAULT and not (asked.strict and status != DONE)
    try:
        if writes:
            _write(asked, good)
        if asked.report and writes:
            lines = [line for result in good for line in [f"# {result.path}", *result.report]]
            asked.report.write_text("".join(line + "\n" for line in lines), "latin-1")
    except OSError as why:
        print(f"regoto-c: {why}", file=sys.stderr)
        return UNREADABLE
    for name in sorted(functions - {name for result in results for name in result.names}):
        print(f"regoto-c: no function {name} with a goto", file=sys.stderr)
        status = max(status, WORDS)
    if not asked.quiet:
        _say(asked, results, writes)
    return status


def _write(asked: argparse.Namespace, results: list[Result]) -> None:
    for result in results:
        assert result.text is not None
        if asked.out == "-":
            sys.stdout.buffer.write(result.text.encode("latin-1"))
        elif asked.out is not None:
            Path(asked.out).write_bytes(result.text.encode("latin-1"))
        elif asked.in_place and result.text != result.source:
            replace(result.path, result.text)
        elif asked.diff:
            sys.stdout.buffer.write(difference(result).encode("latin-1"))


def _say(asked: argparse.Namespace, results: list[Result], writes: bool) -> None:
    """Say what was done, or what would be done."""
    only_says = not (asked.out or asked.in_place or asked.diff)
    if any(message.text.endswith(" file not found") for result in results for message in result.messages):
        print(f"regoto-c: {_FLAGS}", file=sys.stderr)
    for result in results:
        if only_says:
            for note in result.notes:
                print(note, file=sys.stderr)
    found, done = sum(result.found for result in results), sum(result.done for result in results)
    files = f"{len(results)} file{'' if len(results) == 1 else 's'}"
    functions = f"{found} function{'' if found == 1 else 's'} with goto"
    verb = "restructured" if writes and not only_says else "could be restructured" if only_says else "not written"
    print(f"{files}, {functions}: {done} {verb}, {found - done} refused", file=sys.stderr)
