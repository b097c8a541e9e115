"""Types, as libclang has them; each is canonical, without names that typedefs give."""

from __future__ import annotations

from ctypes import CFUNCTYPE, c_int, c_longlong, c_uint, c_void_p

from .clang_library import Cursor, String, RawType, function, text_in


class TypeKind:
    """The kinds of types that are looked for, as libclang numbers them."""

    BOOL, UINT, ULONG, ULONGLONG, UINT128 = 3, 9, 10, 11, 12
    POINTER, RECORD, ENUM = 101, 105, 106
    CONSTANTARRAY, INCOMPLETEARRAY, VARIABLEARRAY = 112, 114, 115


_FIELD_VISITOR = CFUNCTYPE(c_int, Cursor, c_void_p)
_NEXT = 1

_cursor_type = function("clang_getCursorType", RawType, Cursor)
_canonical = function("clang_getCanonicalType", RawType, RawType)
_spelling = function("clang_getTypeSpelling", String, RawType)
_pointee = function("clang_getPointeeType", RawType, RawType)
_element = function("clang_getArrayElementType", RawType, RawType)
_count = function("clang_getArraySize", c_longlong, RawType)
_size = function("clang_Type_getSizeOf", c_longlong, RawType)
_is_const = function("clang_isConstQualifiedType", c_uint, RawType)
_is_volatile = function("clang_isVolatileQualifiedType", c_uint, RawType)
_declaration = function("clang_getTypeDeclaration", Cursor, RawType)
_of_enum = function("clang_getEnumDeclIntegerType", RawType, Cursor)
_of_typedef = function("clang_getTypedefDeclUnderlyingType", RawType, Cursor)
_visit_fields = function("clang_Type_visitFields", c_uint, RawType, _FIELD_VISITOR, c_void_p)


class Type:
    """A type; `kind` is one of `TypeKind` or another number."""

    __slots__ = ("raw", "kind")

    def __init__(self, raw: RawType) -> None:
        self.raw: RawType = _canonical(raw)
        self.kind: int = self.raw.kind

    @property
    def spelling(self) -> str:
        """Its name."""
        return text_in(_spelling(self.raw))

    @property
    def size(self) -> int:
        """How many bytes it has, less than 0 where that isn't known."""
        return int(_size(self.raw))

    @property
    def element(self) -> Type:
        """The type of an array's elements."""
        return Type(_element(self.raw))

    @property
    def count(self) -> int:
        """How many elements an array has."""
        return int(_count(self.raw))

    @property
    def of_enumeration(self) -> Type:
        """The integer type that an enumeration has."""
        return Type(_of_enum(_declaration(self.raw)))

    @property
    def is_volatile(self) -> bool:
        """Whether it is volatile, or for an array its elements, or has a member that is."""
        if self.kind == TypeKind.RECORD and any(field.is_volatile for field in _fields(self)):
            return True
        return bool(_is_volatile(self.raw)) or self.kind == TypeKind.CONSTANTARRAY and self.element.is_volatile

    @property
    def is_const(self) -> bool:
        """Whether a variable of it can't be assigned."""
        type_ = self
        while type_.kind == TypeKind.CONSTANTARRAY:
            if _is_const(type_.raw):
                return True
            type_ = type_.element
        return bool(_is_const(type_.raw))

    @property
    def is_variable(self) -> bool:
        """Whether it has an array of variable length in it."""
        if self.kind == TypeKind.VARIABLEARRAY:
            return True
        if self.kind == TypeKind.POINTER:
            return Type(_pointee(self.raw)).is_variable
        return self.kind in (TypeKind.CONSTANTARRAY, TypeKind.INCOMPLETEARRAY) and self.element.is_variable

    @property
    def has_const_member(self) -> bool:
        """Whether it has a member that is const."""
        type_ = self
        while type_.kind == TypeKind.CONSTANTARRAY:
            type_ = type_.element
        if type_.kind != TypeKind.RECORD:
            return False
        return any(field.is_const or field.has_const_member for field in _fields(type_))


def _fields(record: Type) -> list[Type]:
    found: list[Type] = []

    def visit(field: Cursor, _data: None) -> int:
        found.append(type_of(field))
        return _NEXT

    _visit_fields(record.raw, _FIELD_VISITOR(visit), None)
    return found


def type_of(cursor: Cursor) -> Type:
    """Return the type of a cursor."""
    return Type(_cursor_type(cursor))


def type_behind(typedef: Cursor) -> Type:
    """Return the type that a typedef names."""
    return Type(_of_typedef(typedef))
