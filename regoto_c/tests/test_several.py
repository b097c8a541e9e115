"""Long files: several processes share the functions, and most readings leave bodies of functions without goto out."""
from __future__ import annotations

import re
from pathlib import Path

import pytest

from regoto_c import processes, putting_back, restructuring, several
from regoto_c.hollow import may_go, without
from regoto_c.scanning import scan

from .conftest import Command
from .programs import ROWS

JUMPING = '''int fN(int n) {
    int total = N;
again:
    if (n > 9) goto end;
    for (int i = 0; i < n; i++) { int total = i; if (total == 7) goto end; }
    n += gN(total);
    goto again;
end:
    return total;
}
'''
PLAIN = '''static int gN(int n) {
    /* goto is no word here: } */
    return n > 3 ? '{' : "}}"[0];
}
'''
HEAD = '#define LEAVE goto end\n'


def long_text(body: str = JUMPING, plain: str = PLAIN) -> str:
    """A file of twelve functions with goto and as many without."""
    return HEAD + ''.join(re.sub(r'(?<=[fg=])(| )N\b', rf'\g<1>{number}', plain + body) for number in range(12))


def outputs(command: Command, file: Path, *words: str) -> list[tuple[int, str, str, str]]:
    """What comes of a file with one process and with four."""
    report = Path('report')
    found = []
    for jobs in ('1', '4'):
        report.write_text('')
        ran = command('--jobs', jobs, '--report', report, *words, '-o', '-', file)
        found.append((ran.status, ran.out, ran.error, report.read_text()))
    return found


@pytest.mark.parametrize('words', [(), ('--tidy',), ('--configured',)])
@pytest.mark.parametrize('name', ['declarations.c', 'macros.c', 'statements.c'])
def test_same_bytes(command: Command, name: str, words: tuple[str, ...]) -> None:
    """The text, the messages and the report are the same whatever the number of processes."""
    one, four = outputs(command, ROWS / name, *words)
    assert one == four


@pytest.fixture(name='shared')
def shared_fixture(monkeypatch: pytest.MonkeyPatch) -> list[object]:
    """What came of the attempts to share a file; None stands where one process did it."""
    found: list[object] = []
    by_several = restructuring._by_several

    def noted(*given: object) -> object:
        found.append(by_several(*given))  # type: ignore[arg-type]
        return found[-1]
    monkeypatch.setattr(restructuring, '_by_several', noted)
    return found


def test_shared(command: Command, shared: list[object], tmp_path: Path) -> None:
    """A long file is shared, and new names are the same then."""
    (tmp_path / 'a.c').write_text(long_text())
    one, four = outputs(command, tmp_path / 'a.c')
    assert one == four and one[0] == 0 and 'total_13' in one[1] and one[1].count('goto_end') > 12
    assert len(shared) == 1 and shared[0] is not None


@pytest.mark.parametrize('plain', [
    PLAIN.replace('n > 3', 'nowhere'),  # an error where most processes don't look
    PLAIN.replace('return n', 'LEAVE; end: return n'),  # a goto in a macro
    PLAIN + '}\n'])
def test_left_to_one(command: Command, tmp_path: Path, plain: str) -> None:
    """What isn't as usual is the same with one process."""
    (tmp_path / 'a.c').write_text(long_text(plain=plain))
    one, four = outputs(command, tmp_path / 'a.c')
    assert one == four and (one[0] == 3) == ('LEAVE' not in plain)


def test_header_with_goto(command: Command, shared: list[object], tmp_path: Path) -> None:
    """A function whose only goto is that of a header's macro is found."""
    (tmp_path / 'a.h').write_text('#define OUT goto end\n')
    plain = PLAIN.replace('return n', 'if (n == 2) OUT; n++; end: return n')
    (tmp_path / 'a.c').write_text('#include "a.h"\n' + long_text(plain=plain))
    one, four = outputs(command, tmp_path / 'a.c')
    assert one == four and one[2].endswith('24 functions with goto: 24 restructured, 0 refused\n')
    assert shared == [None]


def test_fault(command: Command, monkeypatch: pytest.MonkeyPatch, tmp_path: Path) -> None:
    """A fault of the step that puts back is found, and nothing is written."""
    (tmp_path / 'a.c').write_text(long_text())
    body = putting_back.Writer.body
    monkeypatch.setattr(putting_back.Writer, 'body', lambda self, items: re.sub('n > 9', 'n > 8', body(self, items)))
    one, four = outputs(command, tmp_path / 'a.c')
    assert one == four and one[0] == 70 and one[1] == ''


def test_lost_process(command: Command, shared: list[object], monkeypatch: pytest.MonkeyPatch, tmp_path: Path) -> None:
    """Where a process ends without an answer, one does the work."""
    (tmp_path / 'a.c').write_text(long_text())

    def lost(_self: object, _line: object) -> None:
        raise processes.Lost
    monkeypatch.setattr(several.Part, 'work', lost)
    one, four = outputs(command, tmp_path / 'a.c')
    assert one == four and one[0] == 0 and shared == [None]


@pytest.mark.parametrize('text, found', [
    ('int f(void) { return 1; }', True), ('int f(a) int a; { return a; }', False),
    ('int f(void) {\n#if X\n#endif\n}', False), ('int f(void) { _Pragma("pack(1)") }', False),
    ('int f(void)\n{\n}\r\n', True), ('int f(void) /* no */ { }', False)])
def test_may_go(text: str, found: bool) -> None:
    """Which bodies may be left out."""
    assert may_go(text, text.index('{'), text.rindex('}') + 1) is found


def test_without() -> None:
    """Offsets and lines stay."""
    text = 'f() { 1;\n2; }\ng() {}'
    assert without(text, [(4, 13), (18, 20)]) == 'f() ;       \n\ng() ; '


@pytest.mark.parametrize('text, count', [
    ('struct s { int a; }; int f(void) { }', 1), ('int a[] = { 1 }; int *p = (int[]) { 1 };', 0),
    ('struct __attribute__((packed)) { int a; } s;', 0), ('int f(void) { x: goto x; }', 0),
    ('#define J goto x\nint f(void) { x: J; } int g(void) { }', 1), ('char c = \'{\'; int f(void) { "}"; /* } */ }', 1)])
def test_scan(text: str, count: int) -> None:
    """Which blocks are taken for bodies of functions without goto."""
    found = scan(text)
    assert found is not None and len(found.bodies) == count


def test_scan_without_mates() -> None:
    """Nothing is taken where brackets have no mates."""
    assert scan('int f(void) {') is None and scan('}') is None
