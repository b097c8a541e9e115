"""The core's program: where it is."""

from __future__ import annotations

import os
from pathlib import Path

_TOP = Path(__file__).resolve().parent.parent
_SCRIPT = _TOP / "regoto"
_BUILT = _TOP / "crates" / "regoto_cli" / "out" / "regoto_cli"
_OTHERS = "--try-core runs its sources, --core names another program"


class NoCore(Exception):
    """There is no program to call, and what to do about it."""


def find_core(given: Path | None, may_try: bool = False) -> Path:
    """Return the core: the given program, else the one that is built here, else ./regoto if it may be tried.

    Raises `NoCore` where there is none, or where a source is newer.
    """
    if given is not None:
        if not given.is_file():
            raise NoCore(f"no program {given}")
        return given.resolve()
    if not (_TOP / "crates").is_dir() and _SCRIPT.is_file():
        return _SCRIPT
    why = _why_not_built()
    if why and not may_try:
        raise NoCore(f"{why} ({_OTHERS})")
    if why and not any(os.access(os.path.join(folder, "rt"), os.X_OK) for folder in os.get_exec_path()):
        raise NoCore("--try-core needs Rattle's toolchain, whose command rt isn't on the path")
    return _SCRIPT if why else _BUILT


def is_tried(core: Path) -> bool:
    """Return whether this core runs its sources before any proof."""
    return core == _SCRIPT and (_TOP / "crates").is_dir()


def _why_not_built() -> str:
    """Return why there is no proved program of these sources, and what to do about it; '' where there is one."""
    if not _BUILT.is_file():
        return "the proved program isn't built; ./regoto --build proves and builds it"
    newer = _newer_source(_BUILT.stat().st_mtime)
    return f"{newer} is newer than the proved program; ./regoto --build builds it" if newer else ""


def _newer_source(built: float) -> str:
    """Return the name of a source that was written after a time, '' where there is none."""
    if (_TOP / "crates.txt").stat().st_mtime > built:
        return "crates.txt"
    folders = [str(_TOP / "crates")]
    while folders:
        for entry in os.scandir(folders.pop()):
            if entry.is_dir():
                if entry.name != "out":
                    folders.append(entry.path)
            elif entry.stat().st_mtime > built:
                return os.path.relpath(entry.path, _TOP)
    return ""
