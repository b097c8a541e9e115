"""The flags of each file: those of the command line, or those of a compile_commands.json."""

from __future__ import annotations

import re
from pathlib import Path

_WITH_WORD = frozenset("-I -D -U -isystem -iquote -idirafter -include -imacros -iprefix -isysroot -x -target".split())
_KEPT = ("-I", "-D", "-U", "-isystem", "-iquote", "-idirafter", "-include", "-imacros", "-isysroot", "-std=", "-x",
         "--target=", "--sysroot=", "-O")
_WHOLE = frozenset("""
    -ansi -m32 -m64 -mx32 -nostdinc -pthread -undef -trigraphs -fsigned-char -funsigned-char -fno-signed-char
    -fshort-enums -fshort-wchar -fms-extensions -fplan9-extensions -fopenmp -fgnu89-inline -ffreestanding
    -fno-builtin -fblocks -funsigned-bitfields -fsigned-bitfields -mlong-double-64 -mlong-double-128
    -msse -msse2 -msse3 -mssse3 -msse4 -msse4.1 -msse4.2 -mavx -mavx2 -maes -mpclmul""".split())

# What gcc's preprocessed headers have that libclang doesn't know; only libclang's reading sees these.
_FLOATS = {"_Float32": "float", "_Float64": "double", "_Float128": "__float128", "_Float32x": "double",
           "_Float64x": "long double", "_Float16": "float"}
_OTHERS = ["-D__malloc__(...)=__malloc__", "-D__builtin_va_arg_pack()=0", "-D__builtin_va_arg_pack_len()=0",
           "-D_mm_prefetch=regoto_c_mm_prefetch"]


def for_libclang(text: str) -> list[str]:
    """Return the flags with which libclang reads a preprocessed text; types that it defines itself stay."""
    types = [f"-D{name}={meaning}" for name, meaning in _FLOATS.items()
             if not re.search(rf"\btypedef\b[^;]*\b{name}\s*;", text)]
    return [*types, *_OTHERS]


def kept(words: list[str]) -> list[str]:
    """Return the flags among a compiler's words that say how a file is read."""
    found: list[str] = []
    rest = list(words)
    while rest:
        word = rest.pop(0)
        if word in _WITH_WORD and rest:
            found += [word, rest.pop(0)]
        elif word in _WHOLE or (word.startswith(_KEPT) and word not in _WITH_WORD):
            found.append(word)
        elif word.startswith("-march="):
            found.append(word)
        elif word == "-o" and rest:
            rest.pop(0)
    return found


class Database:
    """A compile_commands.json: the flags of each file in it."""

    def __init__(self, folder: Path) -> None:
        """Read the database in a folder; raises `OSError` or `ValueError` where there is none."""
        import json
        import shlex

        self.flags: dict[Path, list[str]] = {}
        for entry in json.loads((folder / "compile_commands.json").read_text()):
            directory = Path(entry["directory"])
            words = entry.get("arguments") or shlex.split(entry["command"])
            path = (directory / entry["file"]).resolve()
            self.flags.setdefault(path, [f"-working-directory={directory.resolve()}", *kept(words[1:])])

    def flags_of(self, path: Path) -> list[str] | None:
        """Return the flags of a file, or None where the database doesn't have it."""
        return self.flags.get(path.resolve())
