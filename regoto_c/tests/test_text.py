"""The text of results: what stays byte for byte, comments, brackets, indentation, labels of cases."""
from __future__ import annotations

from pathlib import Path

import pytest

from .conftest import Command, check_text

# a name, the file before, the file after
TEXTS = [
    ('only what has a goto', '''#include <stddef.h>
#define  ODD( x )  ( x )   /* kept */
static int other( int n ){ return ODD( n ) ; }  // kept
int f(int n) {
    if (n) goto end;
    n = other(2);
end:
    return n;
}
/* the end, without a new line */''', '''#include <stddef.h>
#define  ODD( x )  ( x )   /* kept */
static int other( int n ){ return ODD( n ) ; }  // kept
int f(int n) {
    int goto_end = 0;
    goto_end = n != 0;
    if (!goto_end) {
        n = other(2);
    }
    goto_end = 0;
    return n;
}
/* the end, without a new line */'''),
    ('comments on falling through', '''int f(int n, int *p) {
    switch (n) {
    case 0:
        n++;
        /* FALLTHROUGH */
    case 1:
        if (!p)
            goto out;
        // falls through
    two:
    case 2:
        /* twice */
        while (*p)
            if (*p++ == 7)
                goto two;
        /* fall through */
    default:
        n = *p;
    }
out:
    return n;
}
''', '''int f(int n, int *p) {
    int goto_two = 0;
    int goto_out = 0;
    switch (n) {
    case 0:
        n++;
        /* FALLTHROUGH */
    case 1:
        goto_out = !p;
        // falls through
    case 2:
        if (!goto_out) {
            do {
                goto_two = 0;
                /* twice */
                while (!goto_two && *p) {
                    goto_two = *p++ == 7;
                }
            } while (goto_two);
        }
        /* fall through */
    default:
        if (!goto_out) {
            n = *p;
        }
    }
    goto_out = 0;
    return n;
}
'''),
]


@pytest.mark.parametrize('before, after', [row[1:] for row in TEXTS], ids=[row[0].replace(' ', '-') for row in TEXTS])
def test_text(command: Command, tmp_path: Path, before: str, after: str) -> None:
    """The result is this text."""
    check_text(command, tmp_path, before, after)


def result_of(command: Command, folder: Path, text: bytes, *flags: str) -> bytes:
    """What a file becomes, as bytes."""
    source, result = folder / 'a.c', folder / 'b.c'
    source.write_bytes(text)
    ran = command('-o', result, source, *(['--', *flags] if flags else []))
    assert ran.status == 0, ran.error
    return result.read_bytes()


def test_line_ends(command: Command, tmp_path: Path) -> None:
    """A file with CR LF keeps these, and has no other."""
    text = (b'int g(int);\r\nint f(int n)\r\n{\r\n\tif (n)\r\n\t\tgoto end;\r\n\tn = g(\r\n\t\t2);\r\n'
            b'end:\r\n\treturn n;\r\n}\r\n')
    after = result_of(command, tmp_path, text)
    assert after.count(b'\n') == after.count(b'\r\n')
    assert b'\tn = g(\r\n' in after


def test_tabs(command: Command, tmp_path: Path) -> None:
    """A function that is indented by tabs stays so."""
    after = result_of(command, tmp_path, b'int f(int n)\n{\n\tif (n)\n\t\tgoto end;\n\tn = 2;\nend:\n\treturn n;\n}\n')
    assert b'\n\t\tn = 2;\n' in after
    assert b'  ' not in after


def test_two_spaces(command: Command, tmp_path: Path) -> None:
    """A function that is indented by two spaces stays so."""
    after = result_of(command, tmp_path, b'int f(int n) {\n  if (n)\n    goto end;\n  n = 2;\nend:\n  return n;\n}\n')
    assert b'\n    n = 2;\n' in after


def test_bytes_of_no_encoding(command: Command, tmp_path: Path) -> None:
    """Bytes that are no UTF-8 stay, in comments and texts of functions that change too."""
    text = (b'/* \xe4\xff */ int puts(const char *);\nint f(int n) {\n    if (n) goto end; /* \xf6 */\n'
            b'    puts("\xfc \xc3\xa4");\nend:\n    return n;\n}\n')
    after = result_of(command, tmp_path, text)
    for kept in (b'/* \xe4\xff */', b'/* \xf6 */', b'puts("\xfc \xc3\xa4");'):
        assert after.count(kept) == 1


COMMENTS = '''int g(int);
/* before f */
int f(int n /* the number */) { // at the head
    /* before a */ int a = 1; // behind a
    // before the jump
    if (n /* in the test */ > a) goto end; // behind the jump
    {
        int b = 2; /* behind b */
        /* before g
           in two lines */
        g(b /* in a piece */);
    }
    /* before the label */
end: // behind the label
    return n; /* behind the return */
    /* at the end */
}
'''


def test_comments(command: Command, tmp_path: Path) -> None:
    """Every comment stays once, in order; one behind an `if` goes before it, one behind a declaration with that."""
    after = result_of(command, tmp_path, COMMENTS.encode()).decode()
    places = []
    for kept in ('/* before f */', '/* the number */', '// at the head', '/* before a */', '// behind a',
                 '// before the jump', '// behind the jump', '/* in the test */', '/* before g',
                 '/* in a piece */', '/* before the label */',
                 '// behind the label', '/* behind the return */', '/* at the end */'):
        assert after.count(kept) == 1, kept
        places.append(after.index(kept))
    assert places == sorted(places)
    assert after.count('/* behind b */') == 1


BRACKETS = '''int f(int a, int b, char *p) {
    while (a) {
        if (a < b) goto end;
        if (a == 1 || b) goto end;
        if (a ? b : 2) goto end;
        if ((a = b)) goto end;
        if (p) goto end;
        if (!p) goto end;
        if (a & 1) goto end;
        a--;
    }
    if (a || b) { end: a = 2; }
    return a;
}
'''


def test_brackets(command: Command, tmp_path: Path) -> None:
    """Brackets stand only where they are needed, and a guard is set to a comparison as it is."""
    after = result_of(command, tmp_path, BRACKETS.encode()).decode()
    for line in ('goto_end = a < b;', 'goto_end = a == 1 || b;', 'goto_end = (a ? b : 2) != 0;',
                 'goto_end = (a = b) != 0;', 'goto_end = p != 0;', 'goto_end = !p;',
                 'goto_end = (a & 1) != 0;', 'while (!goto_end && a) {', 'if (goto_end || (a || b)) {'):
        assert line in after or line.replace('(a || b)) {', 'a || b) {') in after, f'{line}\n{after}'


CASES = '''enum { EOZ = -1 };
#define CASE(x) case x:
int f(int c) {
    switch (c) {
    case EOZ: goto end;
    case 'a': case '\\n': c++; break;
    case 0x10 ... 0x12: c = 2;
    CASE(7) c = 3; break;
    default: c = 4;
    }
    c++;
end:
    return c;
}
'''


def test_case_labels(command: Command, tmp_path: Path) -> None:
    """The labels of cases stand as the source has them."""
    after = result_of(command, tmp_path, CASES.encode()).decode()
    for label in ('case EOZ:', "case 'a':", "case '\\n':", 'CASE(7)', 'default:'):
        assert after.count(label) == CASES.count(label), after


def test_strings_stay(command: Command, tmp_path: Path) -> None:
    """A text over two lines, and lines of a directive, are not shifted."""
    text = ('int puts(const char *);\nint f(int n) {\n  if (n) {\n    if (n > 2) goto end;\n    puts("a\\\n  b");\n'
            '#if 1\n    n = 3;\n'
            '#  define X 1\n#endif\n  }\nend:\n  return n;\n}\n')
    after = result_of(command, tmp_path, text.encode()).decode()
    assert '"a\\\n  b"' in after
    for line in ('\n#if 1\n', '\n#  define X 1\n', '\n#endif\n'):
        assert line in after


def test_preprocessed(command: Command, tmp_path: Path) -> None:
    """A preprocessed file works too, and its line markers stay."""
    source = tmp_path / 'a.i'
    source.write_text('# 1 "x.c"\nint f(int n) {\n if (n) goto end;\n# 9 "x.c"\n n = 2;\nend: return n; }\n'
                      '# 30 "x.c"\nint k;\n')
    ran = command('-o', '-', source)
    assert ran.status in (0, 1), ran.error
    assert ran.out.endswith('# 30 "x.c"\nint k;\n')


def test_names_in_macros(command: Command, tmp_path: Path) -> None:
    """A function whose name or head comes out of a macro is done; one that stands in a macro whole is left."""
    body = '{ if (n) goto end; n = 2; end: return n; }\n'
    source = tmp_path / 'a.c'
    source.write_text(f'#define API(name) name\n#define DEFINE(name) int name(int n)\n#define WHOLE int h(int n) {body}'
                      f'int API(f)(int n) {body}DEFINE(g) {body}WHOLE\n')
    ran = command('-o', '-', source)
    assert ran.status == 1
    assert ran.error.endswith('1 file, 3 functions with goto: 2 restructured, 1 refused\n')
    assert ran.out.count('goto end;') == 1
