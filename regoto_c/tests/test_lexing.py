"""Tokens, each with its kind and its place."""
from __future__ import annotations

import pytest

from regoto_c.lexing import tokens_of, words_of

# a text, and its tokens with the first letters of their kinds
TOKENS = [
    ('a1+=$b\xe9', 'N:a1 M:+= N:$b\xe9'),
    ('1e+5 .5 0x1p-3 1.f 5.e', 'U:1e+5 U:.5 U:0x1p-3 U:1.f U:5.e'),
    ('L"a\\"b" u8"c" U\'d\' u\'\\\'\' L u8', 'S:L"a\\"b" S:u8"c" C:U\'d\' C:u\'\\\'\' N:L N:u8'),
    ('L8"a" u8\'b\' u8"c', 'N:L8 S:"a" N:u8 C:\'b\' N:u8 O:" N:c'),
    ('/* a\n * b **/x/ /*', 'K:/*_a\n_*_b_**/ N:x M:/ M:/ M:*'),
    ('a // b  \n  c//\\\n d\n', 'N:a K://_b__ N:c K://\\\n_d'),
    ('a\n  # define x \\\n 1 /* \n */ \t\nb # c ## d', 'N:a D:#_define_x_\\\n_1_/*_\n_*/_\t N:b M:# N:c M:## N:d'),
    ('%: if 1\r\n%:%: x\r\n<% %> <: :> % %= ...', 'D:%:_if_1 D:%:%:_x M:<% M:%> M:<: M::> M:% M:%= M:...'),
    ('a \\ \n b \\ c', 'N:a W:\\_\n N:b O:\\ N:c'),
    ('\\u00e9x \f\v\n\fy\n\n', 'N:\\u00e9x N:y'),
    ('', ''),
]
LETTERS = {'NUMBER': 'U', 'COMMENT': 'K', 'CONTINUATION': 'W'}


@pytest.mark.parametrize('text, expected', TOKENS, ids=range(len(TOKENS)))
def test_tokens(text: str, expected: str) -> None:
    """A text has these tokens, and each stands where it is said to stand."""
    found = tokens_of(text)
    kinds = [LETTERS.get(kind.name, kind.name[0]) for kind in found.kinds]
    assert ' '.join(f'{kind}:{word}'.replace(' ', '_') for kind, word in zip(kinds, found.spellings)) == expected
    assert [text[start:end] for start, end in zip(found.offsets, found.ends)] == found.spellings


def test_spans() -> None:
    """Tokens of some spans have the places that they have in the whole text."""
    text = 'int a;\nint b; /* c */\nint d;'
    whole, found = tokens_of(text), tokens_of(text, [(0, 6), (text.index('int d'), len(text))])
    assert found.offsets == [offset for offset in whole.offsets if not 6 < offset < text.index('int d')]


def test_words() -> None:
    """The words of a text are its names and numbers, in comments and strings too."""
    assert words_of('a_1->b["c d"] /* e */ + 0x1f $\xe9') == {'a_1', 'b', 'c', 'd', 'e', '0x1f', '$\xe9'}
