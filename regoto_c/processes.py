"""Processes that go on from here, each with a pipe to it and one from it."""

from __future__ import annotations

import marshal
import os
import signal
from typing import Any, BinaryIO, Callable

_SIZE = 8


class Lost(Exception):
    """The process at the other end is gone, or could not do its work."""


class Line:
    """Both ends of a talk; what is said are numbers, strings, lists, tuples, dictionaries and None."""

    def __init__(self, reads: int, writes: int) -> None:
        self.reads: BinaryIO = os.fdopen(reads, "rb")
        self.writes: BinaryIO = os.fdopen(writes, "wb")

    def say(self, what: Any) -> None:
        """Tell the other end something. Raises `Lost`."""
        said = marshal.dumps(what)
        try:
            self.writes.write(len(said).to_bytes(_SIZE, "little") + said)
            self.writes.flush()
        except OSError:
            raise Lost from None

    def hear(self) -> Any:
        """Return what the other end says. Raises `Lost`."""
        size = self.reads.read(_SIZE)
        said = self.reads.read(int.from_bytes(size, "little"))
        if len(size) < _SIZE or not said:
            raise Lost
        return marshal.loads(said)

    def close(self) -> None:
        """End the talk."""
        for end in (self.reads, self.writes):
            try:
                end.close()
            except OSError:
                pass


class Helper(Line):
    """A process that goes on from here with some work; it ends when that is done, or when it is ended."""

    def __init__(self, work: Callable[[Line], None]) -> None:
        """Begin the work. Raises `OSError` where there can't be another process."""
        (here, told), (hears, there) = os.pipe(), os.pipe()
        self.process = os.fork()
        if not self.process:
            os.close(here)
            os.close(there)
            _do(work, hears, told)
        os.close(told)
        os.close(hears)
        super().__init__(here, there)

    def end(self) -> None:
        """End the process, if it is still there."""
        self.close()
        os.kill(self.process, signal.SIGKILL)
        os.waitpid(self.process, 0)


def _do(work: Callable[[Line], None], reads: int, writes: int) -> None:
    """Do the work and end the process, without what else its program would do at its end."""
    try:
        work(Line(reads, writes))
        status = 0
    except BaseException:  # the other end hears nothing more, and does the work itself
        status = 1
    os._exit(status)
