"""One file from its bytes to its bytes without goto: read, prepare, cut, restructure, put back, compare.

What needs libclang is loaded here, when what can be done before is done.
"""

from __future__ import annotations

from pathlib import Path

from .background import Background
from .messages import Fault, Unreadable
from .options import Options, Outcome
from .scanning import scan

__all__ = ["Options", "Outcome", "restructured"]

_FEWEST_SHARED = 8  # functions with goto of a file that several processes share


def restructured(path: Path, text: str, flags: list[str], options: Options) -> Outcome:
    """Restructure the file at `path`, whose bytes are `text` (latin-1).

    Raises `Unreadable` where libclang finds errors in it, and `Fault` where the result isn't what was proved.
    """
    if options.jobs > 1 and not options.functions and text.count("goto") >= _FEWEST_SHARED:
        if (outcome := _by_several(path, text, flags, options)) is not None:
            return outcome
    from . import clang_units, reading

    clang_units.let_go()
    source = Background(lambda: reading.read(path, text, flags))
    from . import alone  # with all that it needs slow to load

    return alone.restructured(source.result(), options)


def _by_several(path: Path, text: str, flags: list[str], options: Options) -> Outcome | None:
    """Let several processes restructure a file; None where one process has to do it.

    One has libclang read the whole file; the others read it without the bodies of functions that have no goto.
    """
    found = scan(text)
    if found is None or found.gotos < _FEWEST_SHARED:
        return None
    bodies = found.bodies
    from . import clang_units, reading
    from .processes import Helper, Lost

    clang_units.let_go()
    helpers: list[Helper] = []
    try:
        helpers.append(Helper(lambda line: line.say(reading.bodies_in(path, text, flags))))
        source = Background(lambda: reading.read_without(path, text, flags, bodies))
        from . import several  # with all that it needs slow to load

        outcome = several.restructured(source.result(), options, helpers)
        return outcome if set(bodies) <= set(helpers[0].hear()) else None
    except (Fault, Lost, OSError, Unreadable):
        return None
    finally:
        for helper in helpers:
            helper.end()
