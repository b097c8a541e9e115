"""Commands that are run within a bounded time, with what they wrote."""
from __future__ import annotations

import os
import signal
import subprocess
import sys
import time
from collections.abc import Mapping, Sequence
from dataclasses import dataclass
from pathlib import Path

LONGEST = 3600  # seconds that a build or a test takes at most, on a busy machine too


@dataclass(frozen=True)
class Ran:
    """What a command did: its exit status (None if its time ran out), and all that it wrote on both outputs."""
    status: int | None
    output: str

    @property
    def is_ok(self) -> bool:
        """Whether it ended with status 0."""
        return self.status == 0


def run(words: Sequence[str], folder: Path, seconds: float, changes: Mapping[str, str] | None = None) -> Ran:
    """Run a command in a folder; after `seconds` it is ended with all that it started.

    `changes` are the variables of the environment that differ. Returns what it did; a command that can't be started has
    status 127 and the reason as its output.
    """
    environment = {**os.environ, 'LC_ALL': 'C', **(changes or {})}
    try:
        process = subprocess.Popen(words, cwd=folder, env=environment, stdin=subprocess.DEVNULL, stdout=subprocess.PIPE,
                                   stderr=subprocess.STDOUT, start_new_session=True)
    except OSError as error:
        return Ran(127, str(error))
    try:
        output, _ = process.communicate(timeout=seconds)
        status: int | None = process.returncode
    except subprocess.TimeoutExpired:
        os.killpg(process.pid, signal.SIGKILL)
        output, _ = process.communicate()
        status = None
    return Ran(status, output.decode('utf-8', 'replace'))


def say(text: str) -> None:
    """Write a line of progress to the error output, with the time of day."""
    print(f'{time.strftime("%H:%M:%S")} {text}', file=sys.stderr, flush=True)
