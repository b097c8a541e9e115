"""A file as libclang has parsed it: its unit, its errors, the files that it includes, and what directives leave out."""

from __future__ import annotations

from ctypes import CFUNCTYPE, POINTER, Structure, byref, c_char_p, c_int, c_size_t, c_uint, c_ulong, c_void_p, string_at
from typing import NamedTuple

from .clang_library import Cursor, Location, Range, String, function, text_in

BASE = 2  # the number of the first place of a main file
_DETAILED = 1


class _Unsaved(Structure):
    _fields_ = [("name", c_char_p), ("contents", c_char_p), ("length", c_ulong)]


class _Ranges(Structure):
    _fields_ = [("count", c_uint), ("ranges", POINTER(Range))]


_INCLUSION = CFUNCTYPE(None, c_void_p, POINTER(Location), c_uint, c_void_p)

_create_index = function("clang_createIndex", c_void_p, c_int, c_int)
_parse = function("clang_parseTranslationUnit", c_void_p, c_void_p, c_char_p, POINTER(c_char_p), c_int,
                  POINTER(_Unsaved), c_uint, c_uint, takes_long=True)
_dispose = function("clang_disposeTranslationUnit", None, c_void_p)
_unit_cursor = function("clang_getTranslationUnitCursor", Cursor, c_void_p)
_count = function("clang_getNumDiagnostics", c_uint, c_void_p)
_diagnostic = function("clang_getDiagnostic", c_void_p, c_void_p, c_uint)
_dispose_diagnostic = function("clang_disposeDiagnostic", None, c_void_p)
_severity = function("clang_getDiagnosticSeverity", c_int, c_void_p)
_message = function("clang_getDiagnosticSpelling", String, c_void_p)
_place = function("clang_getDiagnosticLocation", Location, c_void_p)
_expansion = function("clang_getExpansionLocation", None, Location, *[c_void_p] * 4)
_file = function("clang_getFile", c_void_p, c_void_p, c_char_p)
_file_name = function("clang_getFileName", String, c_void_p)
_contents = function("clang_getFileContents", c_void_p, c_void_p, c_void_p, POINTER(c_size_t))
_inclusions = function("clang_getInclusions", None, c_void_p, _INCLUSION, c_void_p)
_range_start = function("clang_getRangeStart", Location, Range)
_range_end = function("clang_getRangeEnd", Location, Range)
_at_offset = function("clang_getLocationForOffset", Location, c_void_p, c_void_p, c_uint)
_skipped = function("clang_getSkippedRanges", POINTER(_Ranges), c_void_p, c_void_p)
_dispose_ranges = function("clang_disposeSourceRangeList", None, POINTER(_Ranges))


class Diagnostic(NamedTuple):
    """What libclang says of a file; `file` is None where it belongs to no place."""

    severity: int
    text: str
    file: str | None
    line: int
    column: int


class UnitError(Exception):
    """libclang gave no unit."""


_index: int | None = None
_alive: list[Unit] = []  # to give back the last file's memory takes time, and the program ends anyway
sizes: dict[int, int] = {}  # of the main files whose places have numbers that are offsets and BASE


class Unit:
    """A file that was parsed, and its text."""

    def __init__(self, path: str, content: bytes, flags: list[str], detailed: bool) -> None:
        """Parse `content` as the file at `path`; `detailed` says with the macros that it names.

        Raises `UnitError` where that can't be begun.
        """
        global _index
        if _index is None:
            _index = _create_index(0, 0)
        name = path.encode(errors="surrogateescape")
        unsaved = _Unsaved(name, content, len(content))
        words = [flag.encode(errors="surrogateescape") for flag in flags]
        self.address = _parse(_index, name, (c_char_p * len(words))(*words), len(words), byref(unsaved), 1,
                              _DETAILED if detailed else 0)
        if not self.address:
            raise UnitError
        self.file = _file(self.address, name)
        self.cursor: Cursor = _unit_cursor(self.address)
        first, last = (_at_offset(self.address, self.file, offset).number for offset in (0, len(content)))
        _alive.append(self)
        sizes[self.address] = len(content) if (first, last) == (BASE, BASE + len(content)) else -1

    def __del__(self) -> None:
        if getattr(self, "address", None) and sizes.pop(self.address, None) is not None:
            _dispose(self.address)

    def diagnostics(self) -> list[Diagnostic]:
        """Return what libclang says of the file."""
        found = []
        for number in range(_count(self.address)):
            one = _diagnostic(self.address, number)
            file, line, column = c_void_p(), c_uint(), c_uint()
            _expansion(_place(one), byref(file), byref(line), byref(column), None)
            name = _name_of(file) if file else None
            found.append(Diagnostic(_severity(one), text_in(_message(one)), name, line.value, column.value))
            _dispose_diagnostic(one)
        return found

    def includes(self, word: bytes) -> bool:
        """Return whether a word stands in a file that is included."""
        found = False

        def look(file: int, _stack: object, depth: int, _data: None) -> None:
            nonlocal found
            found = found or depth > 0 and word in content(self.address, file)

        _inclusions(self.address, _INCLUSION(look), None)
        return found

    def skipped(self) -> list[tuple[int, int]]:
        """Return the parts of the file that conditional directives leave out."""
        found = _skipped(self.address, self.file)
        if not found:
            return []
        spans = [found.contents.ranges[index] for index in range(found.contents.count)]
        places = [(_offset(_range_start(span)), _offset(_range_end(span))) for span in spans]
        _dispose_ranges(found)
        return places


def let_go() -> None:
    """Give back what isn't used any more."""
    _alive.clear()


def content(unit: int, file: int | c_void_p, first: int = 0, behind: int | None = None) -> bytes:
    """Return the bytes of a file that was read, or a part of them."""
    size = c_size_t()
    start = _contents(unit, file, byref(size))
    last = size.value if behind is None else behind
    return string_at(start + first, last - first) if start else b""


def _name_of(file: c_void_p) -> str:
    return text_in(_file_name(file))


def _offset(place: Location) -> int:
    offset = c_uint()
    _expansion(place, None, None, None, byref(offset))
    return offset.value
