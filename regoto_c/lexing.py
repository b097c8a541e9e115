"""The tokens of a C text, with comments and directives, by one regular expression."""

from __future__ import annotations

import re
from bisect import bisect_left, bisect_right
from enum import IntEnum
from itertools import accumulate
from operator import add

from .records import dataclass


class TokenKind(IntEnum):
    """What a token is; a comment and a whole directive are tokens too."""

    UNKNOWN = 0
    NAME = 1
    NUMBER = 2
    STRING = 3
    CHARACTER = 4
    MARK = 5
    COMMENT = 6
    DIRECTIVE = 7
    CONTINUATION = 8
    OTHER = 9


# the first alternatives are those of most tokens; the last is white space that none of them took with it
_TOKEN = re.compile(
    r"""
    (?: (?:[A-KM-TV-Za-tv-z_$\x80-\xff]|[LU](?!["'])|u(?!8?"|')|\\u[0-9a-fA-F]{4}|\\U[0-9a-fA-F]{8})
            [\w$\x80-\xff]*(?:\\(?:u[0-9a-fA-F]{4}|U[0-9a-fA-F]{8})[\w$\x80-\xff]*)*
    | \.?[0-9][\w.]*(?:(?<=[eEpP])[+-][\w.]*)*
    | ^[ \t]*(?:\#|%:)
            (?:\\[ \t]*\r?\n|/\*.*?\*/|//(?:\\\r?\n|[^\n])*|"(?:\\[^\n]|[^"\\\n])*"|'(?:\\[^\n]|[^'\\\n])*'|[^\n])*
    | /\*[^*]*\*+(?:[^/*][^*]*\*+)*/|//(?:\\\r?\n|[^\n])*
    | (?:u8|[LuU])?"[^"\\\n]*(?:\\(?:\r\n|.)[^"\\\n]*)*"
    | [LuU]?'[^'\\\n]*(?:\\(?:\r\n|.)[^'\\\n]*)*'
    | u8|[LuU]
    | \\[ \t]*\r?\n
    | %:%:|\.\.\.|<<=|>>=|<%|%>|<:|:>|%:|->|\+\+|--|<<|>>|<=|>=|==|!=|&&|\|\||[-+*/%&|^]=|\#\#|\S
    )
    [ \t\r]*(?:\n[ \t]*(?![ \t\#%]))*  # white space up to the next token, but not in front of a directive
    | \s
    """,
    re.VERBOSE | re.DOTALL | re.ASCII | re.MULTILINE,
)
_WHITE = " \t\r\n"
_MARKS = frozenset("""%:%: ... <<= >>= <% %> <: :> %: -> ++ -- << >> <= >= == != && || -= += *= /= %= &= |= ^= ## # ] [ ( ) { }
. & * + - ~ ! / % < > ^ | ? : ; = , @ `""".split())
_LETTERS = frozenset("ABCDEFGHIJKLMNOPQRSTUVWXYZabcdefghijklmnopqrstuvwxyz_$")
_LOOK = TokenKind.UNKNOWN  # what its text alone doesn't say
# what ends with a line, without white space behind it
_OF_LINES = r"""[ \t]*(?:\#|%:)
    (?:\\[ \t]*\r?\n|/\*.*?\*/|//(?:\\\r?\n|[^\n])*|"(?:\\[^\n]|[^"\\\n])*"|'(?:\\[^\n]|[^'\\\n])*'|[^\n])*
    | //(?:\\\r?\n|[^\n])* | \\[ \t]*\r?\n"""


_NO_WORDS = bytes(byte if byte >= 128 or chr(byte).isalnum() or chr(byte) in "_$" else 32 for byte in range(256))


class _Kinds(dict[str, TokenKind]):
    """The kinds of tokens by their text, found once."""

    def __missing__(self, word: str) -> TokenKind:
        kind = self[word] = _kind_of(word)
        return kind


_kinds = _Kinds({"": _LOOK, "\f": _LOOK, "\v": _LOOK, "\\": _LOOK, **dict.fromkeys(("%", "%=", "%>"), TokenKind.MARK)})


def _kind_of(word: str) -> TokenKind:
    first = word[0]
    if first in " \t#%" or word.startswith("//"):
        return _LOOK
    if len(word) > 1 and word[-1] in "\"'" and first in "\"'LuU":
        return TokenKind.STRING if word[-1] == '"' else TokenKind.CHARACTER
    if first in _LETTERS or first >= "\x80" or first == "\\":
        return TokenKind.NAME
    if first in "0123456789" or first == "." and word not in _MARKS:
        return TokenKind.NUMBER
    if word.startswith("/*"):
        return TokenKind.COMMENT
    return TokenKind.MARK if word in _MARKS else TokenKind.OTHER


@dataclass
class Tokens:
    """The tokens of a text in order, as parallel lists."""

    offsets: list[int]
    ends: list[int]
    kinds: list[TokenKind]
    spellings: list[str]

    def __len__(self) -> int:
        return len(self.offsets)

    def first_from(self, offset: int) -> int:
        """Return the index of the first token that begins at `offset` or behind it."""
        return bisect_left(self.offsets, offset)

    def at(self, offset: int) -> int:
        """Return the index of the token in which `offset` lies, or of the last that begins before it."""
        return bisect_right(self.offsets, offset) - 1


def tokens_of(text: str, spans: list[tuple[int, int]] | None = None) -> Tokens:
    """Return the tokens of `text`, whose characters are the bytes of a file (latin-1), or of some spans of it.

    A span begins and ends where tokens do.
    """
    found = Tokens([], [], [], [])
    for first, behind in spans or [(0, len(text))]:
        parts = _TOKEN.findall(text, first, behind)  # with the white space behind each; together they are the span
        words = [part.rstrip(_WHITE) for part in parts]
        offsets = list(accumulate(map(len, parts[:-1]), initial=first)) if parts else []
        found.offsets += offsets
        found.ends += map(add, offsets, map(len, words))
        found.spellings += words
    found.kinds += map(_kinds.__getitem__, found.spellings)
    if _LOOK in found.kinds:
        for at in [at for at, kind in enumerate(found.kinds) if kind is _LOOK][::-1]:
            _look_again(found, at, text)
    return found


def _look_again(found: Tokens, at: int, text: str) -> None:
    """Set right a directive, a comment up to the end of its line, or a continuation; take out what is no token."""
    start, word = found.offsets[at], found.spellings[at]
    if not word.strip("\f\v"):
        del found.offsets[at], found.ends[at], found.kinds[at], found.spellings[at]
        return
    begins_line = start == 0 or text[start - 1] == "\n"
    match = re.compile(_OF_LINES, re.VERBOSE | re.DOTALL).match(text, start)
    if match is None or word in _MARKS and not begins_line:
        found.kinds[at] = TokenKind.MARK if word in _MARKS else TokenKind.OTHER
        return
    end = match.end()
    if word[0] == "/":
        found.kinds[at] = TokenKind.COMMENT
    elif word[0] == "\\":
        found.kinds[at] = TokenKind.CONTINUATION
    else:
        found.kinds[at] = TokenKind.DIRECTIVE
        start += len(word) - len(word.lstrip(" \t"))
        end -= text[end - 1] == "\r"
    found.offsets[at], found.ends[at], found.spellings[at] = start, end, text[start:end]


def words_of(text: str) -> set[str]:
    """Return the words of a text: names, numbers, and those in comments and strings too."""
    return {word.decode("latin-1") for word in set(text.encode("latin-1").translate(_NO_WORDS).split())}
