"""Other programs, each with a folder of its own; the modules subprocess and tempfile take long to load."""

from __future__ import annotations

import os
from typing import TypeVar

_Self = TypeVar("_Self", bound="Running")
_WROTE, _SAID = ".regoto-c-wrote", ".regoto-c-said"


class Running:
    """A program, from the folder that is made for it to the end, when that folder is taken away.

    For use with `with`. Only its owner may read the folder.
    """

    def __init__(self) -> None:
        place = os.path.abspath(os.environ.get("TMPDIR") or "/tmp")
        while True:
            self.folder = f"{place}/regoto-c-{os.urandom(6).hex()}"
            try:
                os.mkdir(self.folder, 0o700)
            except FileExistsError:
                continue
            break
        self.child = 0

    def __enter__(self: _Self) -> _Self:
        return self

    def __exit__(self, *_: object) -> None:
        if self.child:
            self.end()
        for name in os.listdir(self.folder):
            os.unlink(f"{self.folder}/{name}")
        os.rmdir(self.folder)

    def begin(self, words: list[str], given: str = os.devnull) -> None:
        """Begin the program; it reads the file `given`. What it writes and what it says goes to files of the folder."""
        create = os.O_WRONLY | os.O_CREAT | os.O_TRUNC
        files = [(os.POSIX_SPAWN_OPEN, 0, given, os.O_RDONLY, 0),
                 (os.POSIX_SPAWN_OPEN, 1, f"{self.folder}/{_WROTE}", create, 0o600),
                 (os.POSIX_SPAWN_OPEN, 2, f"{self.folder}/{_SAID}", create, 0o600)]
        self.child = os.posix_spawn(words[0], words, os.environ, file_actions=files)

    def end(self) -> int:
        """Wait for the end of the program; return its exit status, less than 0 where a signal ended it."""
        child, self.child = self.child, 0
        _, status = os.waitpid(child, 0)
        return os.waitstatus_to_exitcode(status)

    @property
    def wrote(self) -> str:
        """What the program wrote to its standard output."""
        return self.read(_WROTE)

    @property
    def said(self) -> str:
        """What it wrote to its error output."""
        return self.read(_SAID)

    def write(self, name: str, text: str) -> str:
        """Write a text (latin-1) to a file of the folder; return its path."""
        path = f"{self.folder}/{name}"
        with open(path, "w", encoding="latin-1", newline="") as file:
            file.write(text)
        return path

    def read(self, name: str) -> str:
        """Return the text of a file of the folder."""
        with open(f"{self.folder}/{name}", encoding="latin-1", newline="") as file:
            return file.read()
