"""What all tests of regoto-c use: the command with the core, run in this process."""
from __future__ import annotations

import os
import shutil
import sys
from collections.abc import Callable
from dataclasses import dataclass
from pathlib import Path

import pytest

TOP = Path(__file__).resolve().parents[2]
sys.path[:0] = [str(TOP), '/usr/lib/python3/dist-packages']


@dataclass(frozen=True)
class Ran:
    """What a run of the command gave."""
    status: int
    out: str
    error: str


Command = Callable[..., Ran]


def core() -> Path:
    """The core: the program that REGOTO_CORE names, else the one that was built here."""
    named = os.environ.get('REGOTO_CORE')
    return Path(named) if named else TOP / 'crates/regoto_cli/out/regoto_cli'


@pytest.fixture(name='command')
def command_fixture(capfd: pytest.CaptureFixture[str], tmp_path: Path, monkeypatch: pytest.MonkeyPatch) -> Command:
    """A function that runs regoto-c with the core and some words, in a folder of its own."""
    from regoto_c import command_line
    monkeypatch.chdir(tmp_path)

    def run(*words: str | Path) -> Ran:
        capfd.readouterr()
        try:
            status = command_line.main(['--core', str(core()), *map(str, words)])
        except SystemExit as ended:
            status = ended.code if isinstance(ended.code, int) else 1
        out, error = capfd.readouterr()
        return Ran(status, out, error)
    return run


def pytest_collection_modifyitems(items: list[pytest.Item]) -> None:
    """Skip all where there is no core."""
    if not core().is_file():
        for item in items:
            item.add_marker(pytest.mark.skip(reason='no core: REGOTO_CORE names none, and none is built'))


def check_text(command: Command, folder: Path, before: str, after: str) -> None:
    """A file with the first text becomes the second."""
    source = folder / 'a.c'
    source.write_text(before)
    ran = command('-o', '-', source)
    assert ran.status == 0, ran.error
    assert ran.out == after


def has(*programs: str) -> bool:
    """Whether programs are installed."""
    return all(shutil.which(program) for program in programs)
