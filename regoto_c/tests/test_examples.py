"""The files of examples/real: what regoto-c makes of them, and that both do the same."""
from __future__ import annotations

import os
import subprocess
from pathlib import Path

import pytest

from .conftest import TOP, Command, has
from .programs import outputs

EXAMPLES = sorted(it for it in (TOP / 'examples/real').glob('*.c') if not it.name.endswith('.restructured.c'))


@pytest.mark.parametrize('example', EXAMPLES, ids=lambda it: it.stem)
def test_result(command: Command, example: Path) -> None:
    """The result that stands beside an example is what regoto-c writes; with REGOTO_WRITE=1 it is written anew."""
    ran = command('-o', '-', example)
    assert ran.status == 0, ran.error
    result = example.with_suffix('.restructured.c')
    if os.environ.get('REGOTO_WRITE'):
        result.write_text(ran.out)
    assert ran.out == result.read_text()


@pytest.mark.skipif(not has('gcc', 'clang'), reason='gcc or clang is missing')
@pytest.mark.parametrize('example', EXAMPLES, ids=lambda it: it.stem)
def test_warnings(example: Path) -> None:
    """An example and its result are compiled without a warning."""
    for file in (example, example.with_suffix('.restructured.c')):
        for compiler in ('gcc', 'clang'):
            words = [compiler, '-Wall', '-Wextra', '-O2', '-c', '-o', '/dev/null', str(file)]
            ran = subprocess.run(words, capture_output=True, text=True, check=False)
            assert (ran.returncode, ran.stderr) == (0, '')


@pytest.mark.skipif(not has('gcc', 'clang'), reason='gcc or clang is missing')
@pytest.mark.parametrize('example', [it for it in EXAMPLES if 'int main' in it.read_text()], ids=lambda it: it.stem)
def test_run(example: Path, tmp_path: Path) -> None:
    """An example and its result print the same by each compiler."""
    copies = []
    for file in (example, example.with_suffix('.restructured.c')):
        copies.append(tmp_path / file.name)
        copies[-1].write_text(f'#line 1 "example.c"\n{file.read_text()}')
    before, after = outputs(copies)
    assert before == after
    assert all('not compiled' not in it for it in before)
