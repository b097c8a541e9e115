"""Work in a thread: while libclang reads, which needs no Python, modules that are slow to load are loaded."""

from __future__ import annotations

import sys
from threading import Thread
from typing import Callable, Generic, TypeVar

_Made = TypeVar("_Made")
_LAST_TO_LOAD = "regoto_c.finishing"


class Background(Generic[_Made]):
    """Work that is done in a thread; at once where all modules are loaded already."""

    def __init__(self, work: Callable[[], _Made]) -> None:
        self.work = work
        self.made: _Made
        self.fault: BaseException | None = None
        self.thread = Thread(target=self._run)
        if _LAST_TO_LOAD in sys.modules:
            self._run()
        else:
            self.thread.start()

    def _run(self) -> None:
        try:
            self.made = self.work()
        except BaseException as fault:
            self.fault = fault

    def result(self) -> _Made:
        """Return what the work made, or raise what it raised."""
        if self.thread.ident is not None:
            self.thread.join()
        if self.fault is not None:
            raise self.fault
        return self.made
