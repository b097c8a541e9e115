"""libclang itself: what its structures look like, and how its functions are called."""

from __future__ import annotations

from ctypes import CDLL, PyDLL, Structure, c_char_p, c_int, c_uint, c_void_p
from typing import Any

from .loading import library


class Cursor(Structure):
    """Something that was read; `unit` is the address of its unit."""

    _fields_ = [("kind", c_int), ("extra", c_int), ("first", c_void_p), ("second", c_void_p), ("unit", c_void_p)]


class Location(Structure):
    """A place; `number` is the offset in the main file and a constant more, or it is in a header or in a macro."""

    _fields_ = [("first", c_void_p), ("second", c_void_p), ("number", c_uint)]


class Range(Structure):
    """Two places, by their numbers."""

    _fields_ = [("first", c_void_p), ("second", c_void_p), ("start", c_uint), ("end", c_uint)]


class RawType(Structure):
    """A type."""

    _fields_ = [("kind", c_int), ("first", c_void_p), ("second", c_void_p)]


class String(Structure):
    """A string that libclang gives."""

    _fields_ = [("data", c_void_p), ("flags", c_uint)]


_NAME = library()
_quick, _slow = PyDLL(_NAME), CDLL(_NAME)


def function(name: str, result: Any, *arguments: Any, takes_long: bool = False) -> Any:
    """Return a function of libclang; while one that takes long is at work, other threads may go on."""
    found = getattr(_slow if takes_long else _quick, name)
    found.restype = result
    found.argtypes = arguments
    return found


_c_string = function("clang_getCString", c_char_p, String)
_dispose = function("clang_disposeString", None, String)


def text_in(string: String) -> str:
    """Return what stands in a string, and give it back."""
    text = (_c_string(string) or b"").decode("latin-1")
    if string.flags:  # else it is libclang's own
        _dispose(string)
    return text
