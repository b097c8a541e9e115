"""Groups of directives with jumps: one text that does the same as the source for each setting of the macros."""
from __future__ import annotations

import itertools
import subprocess
from concurrent.futures import ThreadPoolExecutor
from pathlib import Path

import pytest

from regoto_c import guarding
from regoto_c.reading import edited, read

from .conftest import Command, has
from .programs import ROWS, SANITIZED, output, program

SETTINGS: list[list[str]] = [[], ['-DX'], ['-DY'], ['-DX', '-DY']]
GROUPS = Path(__file__).parent / 'settings' / 'groups.c'


def outputs(sources: list[Path]) -> list[list[str]]:
    """What each program prints with each setting, by gcc and, with sanitizers, by clang."""
    compilers = [[*compiler, *setting] for compiler in (('gcc', '-O1'), ('clang', *SANITIZED)) for setting in SETTINGS]
    jobs = [(source, compiler) for source in sources for compiler in compilers]
    with ThreadPoolExecutor(4) as pool:
        found = list(pool.map(lambda job: output(*job), jobs))
    size = len(compilers)
    return [found[at:at + size] for at in range(0, len(found), size)]


@pytest.mark.skipif(not has('gcc', 'clang'), reason='gcc or clang is missing')
def test_settings(command: Command, tmp_path: Path) -> None:
    """What is made under each setting does the same as the source under all of them."""
    source = tmp_path / 'a.c'
    source.write_text(program(GROUPS.read_text()))
    results = [tmp_path / f'b{number}.c' for number, _ in enumerate(SETTINGS)]
    for result, setting in zip(results, SETTINGS):
        ran = command('-o', result, source, '--', '-w', '-std=gnu11', f'-I{ROWS}', *setting)
        assert ran.status == 0, ran.error
    before, *after = outputs([source, *results])
    assert all(one.endswith('status 0\n') for one in before), before
    for found in after:
        assert found == before


HEAD = """#define FAIL goto out
#define FAIL_IF(x) if (x) goto out
struct s { int a; };
int g(int);
int f(int a) {
  int b = 0;
"""
TAIL = """
  if (a > 100) goto out;
  b += a;
out:
  return b;
}
"""
DONE = ['goto out;', 'int c = a, *d; d = c ? &b : 0; if (!d) goto out;\n  b += c;', 'if (a) return 1;', 'if (a) return b + 1;',
        'if (a) goto out; else b = 3;\n  b++;',
        'while (a--) { if (a == 4) goto out; }\n  b = 5;', 'for (;;) switch (a) { case 1: goto out; default: a--; }',
        '{ int c = a; if (c) goto out; int d = c; b += d; }', '#ifdef Y\n  goto out;\n#else\n  b++;\n#endif\n  b--;']
LEFT = [
    ('out2: goto out;', 'a label'),
    ('int c[2] = {a}; if (c[0]) goto out;', 'an array'),
    ('int c = a, *d = &c; if (*d) goto out;', 'an address'),
    ('int a = 1; if (a) goto out;', 'a name that has another meaning too'),
    ('struct s c = {a}; if (c.a) goto out;', 'a structure'),
    ('b = ({ goto out; 1; });', ''),
    ('if (a)', 'half'), ('} goto out; {', 'half'), ('else goto out;', 'half'), ('FAIL;', 'a jump of a macro'),
    ('EACH(b) goto out;', 'a macro that may be a head'), ('EACH(b) { goto out; }', 'a macro that may be a head'),
    ('goto *a;', 'computed'), ('goto none;', 'no such label'), ('break;', 'no loop'), ('continue;', 'no loop'),
    ('if (g(a)) goto out; setjmp(b);', 'twice'), ('if (a) goto out; p = &(struct s){1};', 'a compound literal'),
    ('#define N 1\n  goto out;', 'a directive'), ('#pragma GCC unroll 4\n  goto out;', 'a directive'),
    ('case 1: goto out;', 'a label'), ('if (a\n#ifdef Y\n  > 3\n#endif\n  ) goto out;', 'a directive in a test'),
    ('goto inner;', 'a label in a group'), ('goto inner;\n#endif\n#ifdef X\ninner: b++;', 'a label in a group')]


@pytest.mark.parametrize('branch', DONE)
@pytest.mark.parametrize('kind', ['#ifdef X\n  {}\n#endif', '#ifndef X\n  b++;\n#else\n  {}\n#endif'])
def test_done(tmp_path: Path, branch: str, kind: str) -> None:
    """The group holds no jump, and what was made compiles for each setting."""
    file = read(tmp_path / 'a.c', HEAD + kind.format(branch) + TAIL, [])
    text = edited(file.text, guarding.guarded(file, file.functions[-1]))
    assert 'leave' in text
    group = text[text.index('#if'):text.rindex('#endif')]
    assert 'goto' not in group and 'return' not in group
    for chosen in itertools.product(('-DX', '-UX'), ('-DY', '-UY')):
        subprocess.run(['gcc', '-fsyntax-only', *chosen, '-x', 'c', '-'], input=text, text=True, check=True)


@pytest.mark.parametrize('branch, why', LEFT)
def test_left(tmp_path: Path, branch: str, why: str) -> None:
    """A group for which it isn't sure is left."""
    file = read(tmp_path / 'a.c', HEAD + f'#ifdef X\n  {branch}\n#endif' + TAIL, [])
    assert guarding.guarded(file, file.functions[-1]) == [], why


@pytest.mark.parametrize('before, behind', [('if (a)\n', '\n  b++;'), ('if (a) b++;\n', '\n  else b--;'),
                                            ('do\n', '\n  while (a--);')])
def test_not_among_statements(tmp_path: Path, before: str, behind: str) -> None:
    """A group that stands in a statement is left."""
    group = '#ifndef X\n  b++;\n#else\n  goto out;\n#endif'
    middle = group if 'else' not in behind else '#ifdef X\n  goto out;\n#endif'
    file = read(tmp_path / 'a.c', HEAD + before + middle + behind + TAIL, [])
    assert guarding.guarded(file, file.functions[-1]) == []


@pytest.mark.parametrize('before, after', [
    ('  if (a) goto out;\n  b--;\n \tb++;\n  b = g(\n  \t a);',
     '  if (!leave) {\n      b--;\n \t    b++;\n      b = g(\n  \t     a);\n  }'),
    ('\tif (a) goto out;\n    if (b) goto out;\n    b++;',
     '    if (!leave) {\n\t    if (b) leave = 1;\n\t    if (!leave) {\n\t\t    b++;\n\t    }\n    }')])
def test_tabs(tmp_path: Path, before: str, after: str) -> None:
    """A line moves by a whole step where spaces stand before a tab, and none are put there."""
    file = read(tmp_path / 'a.c', HEAD + f'#ifdef X\n{before}\n#endif' + TAIL, [])
    text = edited(file.text, guarding.guarded(file, file.functions[-1]))
    assert after in text
