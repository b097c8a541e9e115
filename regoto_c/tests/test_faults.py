"""Faults put into the step that puts pieces back: the comparison finds each, and nothing is written."""
from __future__ import annotations

import re
from collections.abc import Callable
from pathlib import Path
from typing import Any

import pytest

from regoto_c import forms, layout, putting_back

from .conftest import Command

SOURCE = '''int g(int, int);
int f(int n, int m) {
    int total = 0;
    if (n > 9) goto end;
    while (n > 0 || m > 3) {
        int part = g(n, 1), other[2] = {n, 7};
        if (part == 4) goto end;
        total += part + other[1];
        g(total, 2);
        switch (m) {
        case 5: if (n == 2) goto end; g(n, m); break;
        default: m--;
        }
        n--;
    }
    g(0, 0);
end:
    return total * 2;
}
'''


def changed(monkeypatch: pytest.MonkeyPatch, owner: Any, name: str, change: Callable[..., Any]) -> None:
    """Let `change` make the result of a method; it gets the method, the object and the arguments."""
    before = getattr(owner, name)

    def method(self: Any, *given: Any, **named: Any) -> Any:
        return change(lambda *others: before(self, *(others or given), **named), self, *given)
    monkeypatch.setattr(owner, name, method)


def in_text(owner: Any, name: str, old: str, new: str) -> Callable[[pytest.MonkeyPatch], None]:
    """A fault that puts one text in the place of another wherever a method returns it."""
    def fault(monkeypatch: pytest.MonkeyPatch) -> None:
        changed(monkeypatch, owner, name, lambda method, *_: re.sub(old, new, method()))
    return fault


def lost_piece(monkeypatch: pytest.MonkeyPatch) -> None:
    """The statement g(total, 2) is not written."""
    def item(method: Any, writer: Any, one: Any) -> None:
        if not (isinstance(one, forms.Do) and 'g(0, 0)' in text_of(writer, one)):
            method()
    changed(monkeypatch, putting_back.Writer, 'item', item)


def text_of(writer: Any, item: Any) -> str:
    """The bytes of a statement."""
    piece = writer.cutter.pieces[item.piece]
    return str(writer.cutter.file.text[piece.start:piece.end])


def written_twice(monkeypatch: pytest.MonkeyPatch) -> None:
    """The statement g(0, 0) is written twice."""
    def item(method: Any, writer: Any, one: Any) -> None:
        method()
        if isinstance(one, forms.Do) and 'g(0, 0)' in text_of(writer, one):
            method()
    changed(monkeypatch, putting_back.Writer, 'item', item)


def exchanged(letter: str, number: int) -> Callable[[pytest.MonkeyPatch], None]:
    """Two pieces of one form stand in each other's place."""
    def fault(monkeypatch: pytest.MonkeyPatch) -> None:
        def body(method: Any, writer: Any, *_: Any) -> Any:
            names = [name for name in writer.cutter.pieces if name.startswith(letter)]
            one, two = names[number:number + 2]
            pieces = dict(writer.cutter.pieces)
            writer.cutter.pieces = {**pieces, one: pieces[two], two: pieces[one]}
            text = method()
            writer.cutter.pieces = pieces
            return text
        changed(monkeypatch, putting_back.Writer, 'body', body)
    return fault


WRITER, RENDERER = putting_back.Writer, layout.Renderer
FAULTS: dict[str, Callable[[pytest.MonkeyPatch], None]] = {
    'a lost piece': lost_piece,
    'a piece twice': written_twice,
    'two statements exchanged': exchanged('s', 0),
    'two tests exchanged': exchanged('t', 0),
    'a changed token in a statement': in_text(WRITER, 'body', r'g\(total, 2\)', 'g(total, 3)'),
    'a changed token in a test': in_text(WRITER, 'body', 'part == 4', 'part == 5'),
    'a changed mark in a test': in_text(WRITER, 'body', r'n > 0 \|\| m', 'n > 0 && m'),
    'a changed constant of a case': in_text(WRITER, 'body', 'case 5:', 'case 6:'),
    'a changed value': in_text(WRITER, 'body', r'total \* 2', 'total * 3'),
    'another name': in_text(WRITER, 'body', r'g\(n, m\)', 'g(m, m)'),
    'brackets lost': in_text(WRITER, 'body', r'\(n > 0 \|\| m > 3\)', 'n > 0 || m > 3'),
    'a guard turned': in_text(WRITER, 'body', r'if \(!goto_end\)', 'if (goto_end)'),
    'a guard set to another value': in_text(WRITER, 'body', 'goto_end = 0', 'goto_end = 1'),
    'a guard not set back': in_text(WRITER, 'body', '    goto_end = 0;\n', ''),
    'a break lost': in_text(WRITER, 'body', 'break;', ''),
    'a default lost': in_text(WRITER, 'body', 'default:', ''),
    'a loop that runs once': in_text(WRITER, 'body', r'while \(', 'if ('),
    'an initialiser lost': in_text(WRITER, 'body', 'part = g', 'g'),
    'another initialiser': in_text(WRITER, 'body', r'part = g\(n, 1\)', 'part = g(n, 2)'),
    'another type of a variable': in_text(WRITER, 'body', r'int part\b', 'short part'),
    'another length of an array': in_text(WRITER, 'body', r'other\[2\];', 'other[3];'),
    'a declaration lost at the top': in_text(WRITER, 'body', 'int total = 0;', 'int total;'),
    'a declaration more': in_text(WRITER, 'body', 'int total = 0;', 'int total = 0; int more = g(1, 1);'),
    'an empty loop': in_text(WRITER, 'body', r'g\(0, 0\);', 'while (1) ; g(0, 0);'),
    'a jump': in_text(WRITER, 'body', r'g\(0, 0\);', 'goto away; g(0, 0); away: ;'),
    'a token lost on both sides': in_text(RENDERER, 'plain', r', 2\)', ')'),
    'a token changed on both sides': in_text(RENDERER, 'plain', r'g\(total', 'g(n'),
    'a name changed on both sides': in_text(RENDERER, 'plain', r'\btotal\b', 'n'),
    'text that is no C': in_text(WRITER, 'body', r'g\(0, 0\);', 'g(0, 0;'),
}


@pytest.mark.parametrize('fault', FAULTS.values(), ids=[name.replace(' ', '-') for name in FAULTS])
def test_found(command: Command, tmp_path: Path, monkeypatch: pytest.MonkeyPatch,
               fault: Callable[[pytest.MonkeyPatch], None]) -> None:
    """The fault is found: status 70, its message, and nothing is written."""
    source = tmp_path / 'a.c'
    source.write_text(SOURCE)
    with monkeypatch.context() as patch:
        fault(patch)
        ran = command('-i', source)
    assert ran.status == 70, ran.error + source.read_text()
    assert 'fault of regoto-c' in ran.error
    assert source.read_text() == SOURCE


def test_none(command: Command, tmp_path: Path) -> None:
    """Without a fault the same file is restructured, so that each fault above is really one."""
    source = tmp_path / 'a.c'
    source.write_text(SOURCE)
    assert command('-i', source).status == 0
    text = source.read_text()
    for needed in ('int part', 'other[2];', 'goto_end = 0;\n', 'if (!goto_end)', 'case 5:', 'break;', 'part = g(n, 1)',
                   'while ('):
        assert needed in text
