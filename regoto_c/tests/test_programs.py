"""All forms of statements, declarations and macros: programs of many functions, compiled and run before and after."""
from __future__ import annotations

import re
import subprocess
from collections.abc import Sequence
from pathlib import Path

import pytest

from .conftest import TOP, core, has
from .programs import COMPILERS, ROWS, lines_of, names_of, outputs, program

SETS = sorted(file.stem for file in ROWS.glob('*.c'))
OPTIONS: tuple[tuple[str, ...], ...] = ((), ('--tidy',))


class Seen:
    """The program of one set before and after, with what it prints by each compiler."""

    def __init__(self, folder: Path, name: str, options: Sequence[str]) -> None:
        """Restructure, compile and run."""
        rows = (ROWS / f'{name}.c').read_text()
        self.names = names_of(rows)
        source, result = folder / f'{name}.c', folder / f'{name}.restructured.c'
        source.write_text(program(rows))
        words = [str(TOP / 'regoto-c'), '--core', str(core()), *options, '-o', str(result), str(source), '--',
                 '-std=gnu11', '-w', f'-I{ROWS}']
        ran = subprocess.run(words, capture_output=True, text=True, check=False, timeout=300)
        self.status, self.said = ran.returncode, ran.stderr
        self.text = result.read_text() if result.exists() else ''
        self.compilers: Sequence[Sequence[str]] = COMPILERS[1:3] if options else COMPILERS
        self.before, self.after = outputs([source, result], self.compilers) if self.text else [[], []]


@pytest.mark.skipif(not has('gcc', 'clang'), reason='gcc or clang is missing')
@pytest.mark.parametrize('options', OPTIONS, ids=' '.join)
@pytest.mark.parametrize('name', SETS)
def test_forms(tmp_path: Path, name: str, options: tuple[str, ...]) -> None:
    """Every function is restructured, and prints the same by each compiler."""
    it = Seen(tmp_path, name, options)
    assert it.status == 0, it.said
    assert not re.search(r'\bgoto\b', re.sub(r'"[^"]*"|#.*|SAY\(.*?\);', '', it.text))
    for number, compiler in enumerate(it.compilers):
        before, after = it.before[number], it.after[number]
        for function in it.names:
            assert len(lines_of(function, before)) == 8, before[-2000:]
            assert lines_of(function, before) == lines_of(function, after), f'{function} by {" ".join(compiler)}'
        assert before == after
