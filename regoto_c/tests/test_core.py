"""The core: a program that is named, or the one of the sources before any proof."""
from __future__ import annotations

import os
import shutil
import subprocess
import sys
from pathlib import Path

import pytest

from .conftest import TOP, core

GOOD = 'int f(int n) {\n    if (n) goto end;\n    n = 2;\nend:\n    return n;\n}\n'


def test_no_core(tmp_path: Path) -> None:
    """A core that isn't there is said, with how to build it."""
    (tmp_path / 'good.c').write_text(GOOD)
    words = [str(TOP / 'regoto-c'), '--core', str(tmp_path / 'nothing'), 'good.c']
    ran = subprocess.run(words, capture_output=True, text=True, check=False, cwd=tmp_path)
    assert ran.returncode not in (0, 1)
    assert 'nothing' in ran.stderr


@pytest.mark.parametrize('path', ['', 'tools'], ids=['no toolchain', 'a toolchain'])
def test_tried_core(tmp_path: Path, path: str) -> None:
    """--try-core says that what comes out isn't proved, or that the toolchain is missing."""
    (tmp_path / 'good.c').write_text(GOOD)
    (tmp_path / 'crates').mkdir()
    (tmp_path / 'tools').mkdir()
    shutil.copytree(TOP / 'regoto_c', tmp_path / 'regoto_c', ignore=shutil.ignore_patterns('tests', '__pycache__'))
    shutil.copy(TOP / 'regoto-c', tmp_path / 'regoto-c')
    for program, text in (('regoto', f'exec {core()} "$@"'), ('tools/rt', '')):
        (tmp_path / program).write_text(f'#!/bin/sh\n{text}\n')
        (tmp_path / program).chmod(0o700)
    words = [sys.executable, str(tmp_path / 'regoto-c'), '--try-core', '-o', 'out.c', 'good.c']
    environment = {**os.environ, 'PATH': str(tmp_path / (path or 'nothing'))}
    ran = subprocess.run(words, cwd=tmp_path, capture_output=True, text=True, check=False, env=environment)
    assert ran.returncode == (0 if path else 3), ran.stderr
    assert ("isn't proved" if path else "rt isn't on the path") in ran.stderr
    assert (tmp_path / 'out.c').exists() == bool(path)
