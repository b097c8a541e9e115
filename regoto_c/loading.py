"""libclang is found, and loaded in a thread: that takes as long as to load all of Python that is needed before it."""

from __future__ import annotations

import sys
from ctypes import CDLL
from threading import Thread

_OLDEST, _NEWEST = 14, 30
_found: list[str] = []


def _names() -> list[str]:
    numbers = range(_OLDEST, _NEWEST)
    several = [f"libclang-{number}.so.{end}" for number in numbers for end in (1, number)]
    return [*several, *(f"/usr/lib/llvm-{number}/lib/libclang.so" for number in numbers), "libclang.so"]


def _load() -> None:
    for name in _names():
        try:
            CDLL(name)
        except OSError:
            continue
        _found.append(name)
        return


_thread = Thread(target=_load)


def begin() -> None:
    """Begin to load libclang, which goes on in a thread."""
    if _thread.ident is None:
        _thread.start()


def library() -> str:
    """Return the name by which libclang is found; it is loaded then.

    Ends the program where it is missing.
    """
    begin()
    _thread.join()
    if not _found:
        sys.exit("regoto-c: libclang is missing; on Debian: apt-get install python3-clang")
    return _found[0]
