"""The words of regoto-c, its messages and exit statuses."""
from __future__ import annotations

import json
import os
import re
import stat
import subprocess
from pathlib import Path

import pytest

from .conftest import TOP, Command, core

GOOD = 'int f(int n) {\n    if (n) goto end;\n    n = 2;\nend:\n    return n;\n}\n'
LEFT = 'int g(int n) {\n    void *p = &&end;\n    if (n) goto *p;\n    n = 2;\nend:\n    return n;\n}\n'
CLEAN = 'int h(int n) {\n    return n; /* no goto */\n}\n'


@pytest.fixture(name='files')
def files_fixture(tmp_path: Path) -> dict[str, Path]:
    """Three files: one that can be done, one of which a function is left, and one without goto."""
    found = {name: tmp_path / f'{name}.c' for name in ('good', 'left', 'clean')}
    for name, text in (('good', GOOD), ('left', GOOD + LEFT), ('clean', CLEAN)):
        found[name].write_text(text)
    return found


def test_dry(command: Command, files: dict[str, Path]) -> None:
    """Without -o, -i, -d or --check it says what it would do, and changes nothing."""
    ran = command(*files.values())
    assert ran.status == 1
    assert ran.error.splitlines()[-1] == '3 files, 3 functions with goto: 2 could be restructured, 1 refused'
    assert files['good'].read_text() == GOOD
    assert sorted(it.name for it in files['good'].parent.iterdir()) == ['clean.c', 'good.c', 'left.c']


def test_last_line_of_one(command: Command, files: dict[str, Path]) -> None:
    """The last line counts in the singular too."""
    last = command(files['good']).error.splitlines()[-1]
    assert last == '1 file, 1 function with goto: 1 could be restructured, 0 refused'


def test_output(command: Command, files: dict[str, Path], tmp_path: Path) -> None:
    """-o writes one file; '-' is the standard output, and holds nothing but the text."""
    assert command('-o', 'out.c', files['good']).status == 0
    text = (tmp_path / 'out.c').read_text()
    assert 'goto end' not in text
    assert command('-o', '-', files['good']).out == text
    assert files['good'].read_text() == GOOD


def test_output_of_two(command: Command, files: dict[str, Path]) -> None:
    """-o with two files is refused."""
    assert command('-o', 'out.c', files['good'], files['left']).status == 2


def test_output_to_nowhere(command: Command, files: dict[str, Path]) -> None:
    """A file that can't be written is an error that names it."""
    ran = command('-o', 'no/such/folder/out.c', files['good'])
    assert ran.status not in (0, 1, 70)
    assert 'no/such/folder/out.c' in ran.error


def test_in_place(command: Command, files: dict[str, Path]) -> None:
    """-i replaces files that change, with their rights, and leaves no other file; files without goto aren't touched."""
    files['good'].chmod(0o754)
    os.utime(files['clean'], (1, 1))
    ran = command('-i', *files.values())
    assert ran.status == 1
    assert 'goto end' not in files['good'].read_text()
    assert stat.S_IMODE(files['good'].stat().st_mode) == 0o754
    assert files['left'].read_text().endswith(LEFT)
    assert files['clean'].stat().st_mtime == 1
    assert sorted(it.name for it in files['good'].parent.iterdir()) == ['clean.c', 'good.c', 'left.c']
    assert command('-i', files['good']).status == 0


def test_in_place_through_a_link(command: Command, files: dict[str, Path], tmp_path: Path) -> None:
    """-i of a symbolic link changes the file and keeps the link."""
    link = tmp_path / 'link.c'
    link.symlink_to('good.c')
    assert command('-i', link).status == 0
    assert link.is_symlink()
    assert 'goto end' not in files['good'].read_text()


def test_diff(command: Command, files: dict[str, Path], tmp_path: Path) -> None:
    """-d writes a unified diff that patch takes, and changes nothing."""
    ran = command('-d', files['good'].name)
    assert ran.status == 0
    assert files['good'].read_text() == GOOD
    assert re.match(r'--- (a/)?good.c', ran.out)
    wanted = command('-o', '-', files['good']).out
    (tmp_path / 'good.diff').write_text(ran.out)
    words = ['patch', '-p1' if ran.out.startswith('--- a/') else '-p0', '-i', 'good.diff']
    subprocess.run(words, cwd=tmp_path, check=True, capture_output=True)
    assert files['good'].read_text() == wanted


def test_compile_commands(command: Command, tmp_path: Path) -> None:
    """-p takes the flags of each file, and the folder in which they hold."""
    below = tmp_path / 'src'
    (below / 'include').mkdir(parents=True)
    (below / 'include/it.h').write_text('#ifndef WITH\n#error no\n#endif\n#define END end\n')
    source = below / 'a.c'
    source.write_text('#include <it.h>\n' + GOOD)
    assert command(source).status == 3
    forms: list[dict[str, object]] = [{'arguments': ['cc', '-DWITH=1', '-Iinclude', '-c', 'a.c', '-o', 'a.o']},
                                      {'command': 'cc "-DWITH=1" -Iinclude -c a.c -o a.o'}]
    for entry in forms:
        (tmp_path / 'compile_commands.json').write_text(json.dumps([{'directory': str(below), 'file': 'a.c', **entry}]))
        ran = command('-p', tmp_path, source)
        assert ran.status == 0, ran.error


def test_compile_commands_missing(command: Command, files: dict[str, Path], tmp_path: Path) -> None:
    """-p of a folder without that file is refused."""
    ran = command('-p', tmp_path, files['good'])
    assert ran.status in (2, 3)
    assert 'compile_commands.json' in ran.error


def test_flags(command: Command, tmp_path: Path) -> None:
    """Flags behind -- are those of the compiler."""
    source = tmp_path / 'a.c'
    source.write_text('#ifndef WITH\n#error no\n#endif\n' + GOOD)
    assert command(source, '--', '-DWITH').status == 0


def test_functions(command: Command, tmp_path: Path) -> None:
    """--functions takes some functions alone."""
    source = tmp_path / 'a.c'
    source.write_text(GOOD + GOOD.replace('f(', 'g(').replace('end', 'last') + LEFT.replace('g(', 'k('))
    ran = command('-o', '-', '--functions', 'g', source)
    assert ran.status == 0, ran.error
    assert 'goto end' in ran.out and 'goto last' not in ran.out
    ran = command('-o', '-', '--functions', 'f,g', source)
    assert 'goto end' not in ran.out and 'goto last' not in ran.out


def test_check(command: Command, files: dict[str, Path]) -> None:
    """--check changes nothing; status 1 says that a goto could go."""
    assert command('--check', files['good']).status == 1
    assert files['good'].read_text() == GOOD
    assert command('--check', files['clean']).status == 0
    command('-i', files['left'])
    assert command('--check', files['left']).status == 0


CONFIGURED = '''int g(int);
int f(int n) {
    {
        int i = g(1);
#ifdef A
        g(i);
#endif
        if (i == 4) goto e;
    }
    {
        int i = 0;
#ifdef A
        g(i);
#else
        g(i + 2);
#endif
        if (g(n)) goto e;
#ifndef B
        if (n) goto e; else
#endif
        n += i;
    }
e:
    return n;
}
'''


def test_configured(command: Command, tmp_path: Path) -> None:
    """--configured resolves the groups that stand in the way, and says so of each; other groups stay."""
    source = tmp_path / 'a.c'
    source.write_text(CONFIGURED)
    left = command(source)
    assert left.status == 1
    assert '(--configured resolves it)' in left.error
    ran = command('--configured', '-o', '-', source)
    assert ran.status == 0, ran.error
    assert re.findall(r'^.*a\.c:(\d+):1: note: (.*)$', ran.error, re.MULTILINE) == [
        ('18', '#ifndef B resolved: its first branch is taken'), ('12', '#ifdef A resolved: the branch of #else is taken')]
    assert re.findall(r'^#.*$', ran.out, re.MULTILINE) == ['#ifdef A', '#endif']
    assert command('--configured', '--quiet', '-o', '-', source).error == ''


def test_pragma(command: Command, tmp_path: Path) -> None:
    """A #pragma for a loop that holds a jump isn't resolved, and the message doesn't say so; elsewhere it stays."""
    loop = '#pragma GCC unroll 4\n    for (int i = 0; i < n; i++) {\n        if (i == %s) %s;\n    }\n'
    source = tmp_path / 'a.c'
    source.write_text('int f(int n) {\n    if (n > 9) goto e;\n' + loop % (3, 'goto e') + 'e:\n    return n;\n}\n'
                      'int g(int n) {\n    if (n > 9) goto e;\n' + loop % (4, 'n--') + 'e:\n    return n;\n}\n')
    for word in ('--quiet', '--configured'):
        ran = command('-o', '-', word, source)
        assert ': warning: not restructured: a #pragma for a statement with a jump\n' in ran.error
        assert '#pragma GCC unroll 4\n        for (int i = 0; i < n; i++) {\n            if (i == 4) n--;\n' in ran.out


def test_strict(command: Command, files: dict[str, Path]) -> None:
    """--strict writes nothing where a function is left, and calls it an error."""
    ran = command('--strict', '-i', files['left'])
    assert ran.status == 1
    assert files['left'].read_text() == GOOD + LEFT
    assert ': error: not restructured: ' in ran.error


def test_report(command: Command, files: dict[str, Path], tmp_path: Path) -> None:
    """--report writes the moves with the names of functions and labels."""
    assert command('--report', 'moves', '-o', 'out.c', files['good']).status == 0
    report = (tmp_path / 'moves').read_text()
    assert re.search(r'\bf\b.*\bend\b', report)


def test_tidy(command: Command, tmp_path: Path) -> None:
    """--tidy turns the guard of a single loop into a break."""
    source = tmp_path / 'a.c'
    source.write_text('int f(int n) {\n    while (n) {\n        if (n == 3) goto end;\n        n--;\n    }\n'
                      'end:\n    return n;\n}\n')
    assert 'goto_end' in command('-o', '-', source).out
    tidied = command('-o', '-', '--tidy', source).out
    assert 'goto_end' not in tidied and 'break;' in tidied


def test_quiet(command: Command, files: dict[str, Path]) -> None:
    """--quiet says nothing but what was left and errors."""
    assert command('--quiet', files['good']).error == ''
    assert 'not restructured' in command('--quiet', files['left']).error


def test_errors_of_clang(command: Command, tmp_path: Path) -> None:
    """A file that clang doesn't read without errors is refused with clang's messages, and nothing is written."""
    source = tmp_path / 'bad.c'
    source.write_text('int f(int n) {\n    if (n) goto end;\n    n = undeclared;\nend:\n    return n;\n}\n')
    ran = command('-o', 'out.c', source)
    assert ran.status == 3
    said = r"bad\.c:3:9: error: use of undeclared identifier 'undeclared'\n    n = undeclared;\n        \^"
    assert re.search(said, ran.error)
    assert not (tmp_path / 'out.c').exists()


def test_missing_header(command: Command, tmp_path: Path) -> None:
    """Where an included file isn't found, a line says where the flags of the compiler stand."""
    source = tmp_path / 'far.c'
    source.write_text('#include "far.h"\n' + GOOD)
    assert 'flags stand behind --' in command(source).error
    (tmp_path / 'include').mkdir()
    (tmp_path / 'include' / 'far.h').write_text('')
    ran = command(source, '--', '-Iinclude')
    assert ran.status == 0
    assert 'flags' not in ran.error


def test_missing_file(command: Command) -> None:
    """A file that isn't there has status 3 and its name in the message."""
    ran = command('nowhere.c')
    assert ran.status == 3
    assert 'nowhere.c' in ran.error


def test_one_bad_of_two(command: Command, files: dict[str, Path], tmp_path: Path) -> None:
    """A file that can't be read doesn't keep the others from being done."""
    ran = command('-i', 'nowhere.c', files['good'])
    assert ran.status == 3
    assert 'goto end' not in files['good'].read_text()


@pytest.mark.parametrize('words', [[], ['--no-such-word', 'a.c'], ['-i', '-o', 'x.c', 'a.c'], ['--jobs', 'x', 'a.c']],
                         ids=['none', 'unknown', 'two outputs', 'no number'])
def test_words(command: Command, words: list[str]) -> None:
    """Wrong words have status 2."""
    assert command(*words).status == 2


def test_help(command: Command) -> None:
    """--help names every word, and the exit statuses."""
    ran = command('--help')
    assert ran.status == 0
    for word in ('-o', '-i', '--in-place', '-d', '--diff', '-p', '--functions', '--configured', '--tidy', '--report',
                 '--cc', '--check', '--strict', '--jobs', '--quiet', '--version', '--core', 'exit status'):
        assert word in ran.out.lower() or word in ran.out, word
    statuses = ran.out[ran.out.index('exit status'):]
    for word in ('--check', '--cc', '127', '128'):
        assert word in statuses, word


def test_version(command: Command) -> None:
    """--version says the name."""
    ran = command('--version')
    assert ran.status == 0
    assert 'regoto-c' in ran.out


def test_jobs(command: Command, tmp_path: Path) -> None:
    """Several files at a time come out as one by one, with the messages in their order."""
    files = []
    for number in range(7):
        files.append(tmp_path / f'{number}.c')
        files[-1].write_text(GOOD + (LEFT if number % 2 else ''))
    one, four = command('--jobs', '1', *files), command('--jobs', '4', *files)
    assert one == four
    assert one.error.splitlines()[-1] == '7 files, 10 functions with goto: 7 could be restructured, 3 refused'


def test_script(files: dict[str, Path], tmp_path: Path) -> None:
    """The script at the top runs from any folder, by any of the machine's python3."""
    words = [str(TOP / 'regoto-c'), '--core', str(core()), '-d', 'good.c']
    ran = subprocess.run(words, cwd=tmp_path, capture_output=True, text=True, check=False)
    assert ran.returncode == 0, ran.stderr
    assert '-    if (n) goto end;' in ran.stdout


def test_again(command: Command, files: dict[str, Path]) -> None:
    """What was written has no goto, and is left as it is the second time."""
    first = command('-o', '-', files['good']).out
    files['good'].write_text(first)
    ran = command('-o', '-', files['good'])
    assert ran.out == first
    assert '0 functions with goto' in ran.error
