"""In a compiler's place: C files with a goto are preprocessed, restructured and compiled; all else is handed on.

The command runs first as it is: so its messages, its exit status and its dependency files are what they always were.
Then it runs once more, quietly, on what was restructured. A file for which that can't be done stays compiled as it is,
with a line in the log that REGOTO_LOG names.
"""

from __future__ import annotations

import os
import subprocess
import sys
import tempfile
from pathlib import Path
from typing import Sequence

from .commands import Command, Source, read_command
from .line_markers import prepare
from .flags import for_libclang
from .restructuring import Options, restructured


class LeftAsItIs(Exception):
    """A file that is compiled as it is, and why."""


def stand_in(words: Sequence[str], options: Options) -> int:
    """Run a compiler's command, then again with its C files restructured; return the compiler's exit status."""
    status = _run(words)
    try:
        command = read_command(words)
    except (OSError, ValueError):
        return status
    if status or not command.compiles or any(source.path.name.startswith("conftest") for source in command.sources):
        return status
    with tempfile.TemporaryDirectory(prefix="regoto-c-") as folder:
        replaced: dict[Source, Path] = {}
        done: list[tuple[Path, str]] = []
        for number, source in enumerate(command.sources):
            try:
                made = _restructured(command, source, Path(folder, str(number)), options, done)
            except LeftAsItIs as left:
                _log(source.path, f"compiled as it is: {left}")
                continue
            if made is not None:
                replaced[source] = made
        return _compiled(command, words, replaced, done) if replaced else status


def _run(words: Sequence[str]) -> int:
    """Run a command; return its exit status as a shell has it."""
    sys.stdout.flush()
    try:
        status = subprocess.call(words)
    except OSError as error:
        print(f"regoto-c: {words[0]}: {error.strerror}", file=sys.stderr)
        return 127
    return status if status >= 0 else 128 - status


def _log(path: Path, text: str) -> None:
    """Add a line to the log, if there is one."""
    name = os.environ.get("REGOTO_LOG")
    if name:
        with open(name, "a", encoding="utf-8") as log:
            log.write(f"{path}: {' '.join(text.split())}\n")


def _restructured(command: Command, source: Source, folder: Path, options: Options,
                  done: list[tuple[Path, str]]) -> Path | None:
    """Return the preprocessed file, restructured, or None where it has no goto; add what is to be said to `done`.

    Raises `LeftAsItIs` where it can't be restructured.
    """
    folder.mkdir()
    made = folder / (source.path.stem + ".i")
    language = ["-x", source.language] if source.language else []
    ended = subprocess.run([*command.program, *command.preprocessing(), "-w", "-E", *language, str(source.path), "-o",
                            str(made)], check=False, capture_output=True)
    if ended.returncode:
        return None
    prepared = prepare(made.read_text("latin-1"))
    if not prepared.has_goto:
        return None
    try:
        flags = [*command.reading(), *for_libclang(prepared.text)]
        outcome = restructured(folder / (source.path.stem + ".c"), prepared.text, flags, options)
    except Exception as error:  # whatever it is, the file is compiled
        raise LeftAsItIs(f"{type(error).__name__}: {error}") from error
    if outcome.text is None or not outcome.done:
        why = "; ".join(message.text for message in outcome.messages)
        raise LeftAsItIs(f"{outcome.found} functions with goto, none restructured: {why}")
    done += [(source.path, message.text) for message in outcome.messages]
    done.append((source.path, f"{outcome.found} functions with goto, {outcome.done} restructured"))
    made.write_text(prepared.whole(outcome.text), "latin-1")
    return made


def _compiled(command: Command, words: Sequence[str], replaced: dict[Source, Path],
              done: list[tuple[Path, str]]) -> int:
    """Compile once more, with files replaced, or as it was where that fails; return the exit status."""
    ended = subprocess.run([*command.program, *command.compiling(replaced), "-w"], check=False, capture_output=True)
    if ended.returncode == 0:
        for path, text in done:
            _log(path, text)
        return 0
    first = next((line for line in ended.stderr.decode("latin-1").split("\n") if "error" in line), "")
    for source in replaced:
        _log(source.path, f"compiled as it is: what was restructured didn't compile: {first}")
    return subprocess.run(words, check=False, capture_output=True).returncode  # its messages were shown before
