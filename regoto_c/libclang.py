"""libclang's C interface, by prototypes of its own: the cursors of a file that was parsed, and where they stand."""

from __future__ import annotations

from ctypes import CFUNCTYPE, byref, c_int, c_longlong, c_uint, c_void_p
from typing import Any, Callable

from .clang_library import Cursor, Location, Range, String, function, text_in
from .clang_units import BASE, content, sizes


class Kind:
    """The kinds of cursors that are looked for, as libclang numbers them; statements have 200 to 399."""

    STRUCT_DECL, UNION_DECL, ENUM_DECL = 2, 3, 5
    FUNCTION_DECL, VAR_DECL, PARM_DECL, TYPEDEF_DECL = 8, 9, 10, 20
    TYPE_REF = 43
    UNEXPOSED_EXPR, DECL_REF_EXPR, MEMBER_REF_EXPR, PAREN_EXPR, UNARY_OPERATOR = 100, 101, 102, 111, 112
    ARRAY_SUBSCRIPT_EXPR, BINARY_OPERATOR, CONDITIONAL_OPERATOR, COMPOUND_LITERAL_EXPR = 113, 114, 116, 118
    INIT_LIST_EXPR = 119
    ADDR_LABEL_EXPR, STATEMENT_EXPRESSION = 120, 121
    UNEXPOSED_STMT, LABEL_STMT, COMPOUND_STMT, CASE_STMT, DEFAULT_STMT, IF_STMT, SWITCH_STMT = range(200, 207)
    WHILE_STMT, DO_STMT, FOR_STMT, GOTO_STMT, INDIRECT_GOTO_STMT, CONTINUE_STMT, BREAK_STMT = range(207, 214)
    RETURN_STMT, ASM_STMT, NULL_STMT, DECL_STMT = 214, 215, 230, 231
    UNEXPOSED_ATTR, ASM_LABEL_ATTR = 400, 407
    MACRO_DEFINITION, MACRO_INSTANTIATION = 501, 502


_VISITOR = CFUNCTYPE(c_int, Cursor, Cursor, c_void_p)

_visit_children = function("clang_visitChildren", c_uint, Cursor, _VISITOR, c_void_p)
_location = function("clang_getCursorLocation", Location, Cursor)
_extent = function("clang_getCursorExtent", Range, Cursor)
_range_start = function("clang_getRangeStart", Location, Range)
_range_end = function("clang_getRangeEnd", Location, Range)
_file_location = function("clang_getFileLocation", None, Location, *[c_void_p] * 4)
_expansion = function("clang_getExpansionLocation", None, Location, *[c_void_p] * 4)
_from_main_file = function("clang_Location_isFromMainFile", c_int, Location)
_referenced = function("clang_getCursorReferenced", Cursor, Cursor)
_is_definition = function("clang_isCursorDefinition", c_uint, Cursor)
_hash = function("clang_hashCursor", c_uint, Cursor)
_spelling = function("clang_getCursorSpelling", String, Cursor)
_storage_class = function("clang_Cursor_getStorageClass", c_int, Cursor)
_canonical = function("clang_getCanonicalCursor", Cursor, Cursor)
_pretty = function("clang_getCursorPrettyPrinted", String, Cursor, c_void_p)
_evaluate = function("clang_Cursor_Evaluate", c_void_p, Cursor)
_result_kind = function("clang_EvalResult_getKind", c_int, c_void_p)
_result_value = function("clang_EvalResult_getAsLongLong", c_longlong, c_void_p)
_dispose_result = function("clang_EvalResult_dispose", None, c_void_p)

_GO_ON, _RECURSE = 1, 2
_INTEGER = 1
_IN_MACROS = 1 << 31  # the numbers of places in macros begin here
_NULL = 70  # the kind of no cursor

# -- walks

_found: list[Cursor] = []
_wants: Callable[[Cursor, Cursor], bool] | None = None


def _gather_one(child: Cursor, _parent: Cursor, _data: None) -> int:
    _found.append(child)
    return _GO_ON


def _ask_one(child: Cursor, parent: Cursor, _data: None) -> int:
    return _RECURSE if _wants and _wants(child, parent) else _GO_ON


_gather = _VISITOR(_gather_one)  # one for all walks: to make one takes longer than a short walk
_ask = _VISITOR(_ask_one)


def children(cursor: Cursor) -> list[Cursor]:
    """Return the children of a cursor, in order."""
    global _found
    outer, _found = _found, []
    _visit_children(cursor, _gather, None)
    found, _found = _found, outer
    return found


def descend(cursor: Cursor, wants_children: Callable[[Cursor, Cursor], bool]) -> None:
    """Call `wants_children` with each cursor below `cursor` and its parent, in text order.

    Where it returns False, what is below that cursor is left out.
    """
    global _wants
    outer, _wants = _wants, wants_children
    _visit_children(cursor, _ask, None)
    _wants = outer


def holds(cursor: Cursor, kinds: tuple[int, ...]) -> bool:
    """Return whether a cursor of one of these kinds stands below a cursor."""
    found = False

    def look(child: Cursor, _parent: Cursor) -> bool:
        nonlocal found
        found = found or child.kind in kinds
        return not found

    descend(cursor, look)
    return found


# -- places

_number = c_uint()
_number_place = byref(_number)


def _offset(call: Any, place: Location) -> int:
    call(place, None, None, None, _number_place)
    return _number.value


def is_in_main_file(cursor: Cursor) -> bool:
    """Return whether the cursor stands in the file that was parsed, not in an included one.

    A place in a macro counts as none, so the name, the beginning and the end are looked at.
    """
    place, last = _location(cursor), BASE + sizes[cursor.unit]
    if BASE <= place.number <= last:
        return True
    span = _extent(cursor)
    if BASE <= span.start <= last or BASE <= span.end <= last:
        return True
    if last >= BASE and place.number < _IN_MACROS and span.start < _IN_MACROS and span.end < _IN_MACROS:
        return False
    return bool(_from_main_file(place) or _from_main_file(_range_start(span)) or _from_main_file(_range_end(span)))


def name_offset(cursor: Cursor) -> int:
    """Return the offset of a cursor's name.

    In an argument of a macro that is where it is written, elsewhere in a macro where the macro is named.
    """
    place = _location(cursor)
    offset: int = place.number - BASE
    return offset if 0 <= offset <= sizes[cursor.unit] else _offset(_file_location, place)


def start_offset(cursor: Cursor) -> int:
    """Return where a cursor begins; in an argument of a macro where it is written, else where the macro is named."""
    span = _extent(cursor)
    offset: int = span.start - BASE
    return offset if 0 <= offset <= sizes[cursor.unit] else _offset(_file_location, _range_start(span))


def extent(cursor: Cursor) -> tuple[int, int]:
    """Return where a cursor begins and ends; where that is in a macro, the place at which the macro is named."""
    span = _extent(cursor)
    start, end, size = span.start - BASE, span.end - BASE, sizes[cursor.unit]
    if not 0 <= start <= size:
        start = _offset(_expansion, _range_start(span))
    if not 0 <= end <= size:
        end = _offset(_expansion, _range_end(span))
    return start, end


def text_of(cursor: Cursor) -> str:
    """Return the text of a cursor that stands in no macro, in whatever file it is."""
    span, file = _extent(cursor), c_void_p()
    _expansion(_range_start(span), byref(file), None, None, _number_place)
    start, end = _number.value, _offset(_expansion, _range_end(span))
    return content(cursor.unit, file, start, end).decode("latin-1")


# -- what is said of a cursor


def referenced(cursor: Cursor) -> Cursor | None:
    """Return the declaration that a cursor names, or None."""
    found: Cursor = _referenced(cursor)
    return None if found.kind == _NULL else found


def identity(cursor: Cursor) -> int:
    """Return a number that all cursors of one entity share, whichever of its declarations they are."""
    return int(_hash(_canonical(cursor)))


def is_definition(cursor: Cursor) -> bool:
    """Return whether a cursor is the definition of something, not another declaration."""
    return bool(_is_definition(cursor))


def spelling(cursor: Cursor) -> str:
    """Return the name of a cursor."""
    return text_in(_spelling(cursor))


def printed(cursor: Cursor) -> str:
    """Return a declaration as clang prints it, with its attributes."""
    return text_in(_pretty(cursor, None))


def storage_class(cursor: Cursor) -> int:
    """Return the storage class of a declaration, as libclang numbers them."""
    return int(_storage_class(cursor))


def constant_value(cursor: Cursor) -> int | None:
    """Return the value of a constant expression of integer type, or None where libclang finds none."""
    result = _evaluate(cursor)
    if not result:
        return None
    value = _result_value(result) if _result_kind(result) == _INTEGER else None
    _dispose_result(result)
    return value
