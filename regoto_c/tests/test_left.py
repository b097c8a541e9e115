"""Functions that are left as they are: each reason, with its message, its place, and the bytes of the function."""
from __future__ import annotations

import re
from pathlib import Path

import pytest

from .conftest import Command

# a name, what stands before the function, its body (| marks the place of the message, if it is to be held), the message
LEFT = [
    ('computed goto', '', 'void *p = |&&a; if (n) goto *p; n = 2; a: goto b; b: return n;', 'computed goto'),
    ('address of a label', '',
     'static void *p[] = {|&&a, &&b}; if (n) goto a; n = 2; a: b: return p[0] == p[1];',
     'the address of a label'),
    ('asm goto', '', 'if (n) goto a; |__asm__ goto("" : : : : a); n = 2; a: return n;', 'asm goto'),
    ('asm goto alone', '', '__asm__ |goto("" : : : : a); n = 2; a: return n;', 'asm goto'),
    ('goto out of an expression', '', '|n = ({ if (n) goto a; 3; }); a: return n;', 'statement expression'),
    ('return out of an expression', '',
     'if (n) goto a; |n = ({ return 4; 3; }); a: return n;', 'statement expression'),
    ('break out of an expression', '',
     'while (n) { n = ({ if (n > 4) break; n - 1; }); if (n == 3) goto a; } a: return n;',
     'statement expression'),
    ('continue out of a test', '',
     'while (n) { if (({ if (n-- > 4) continue; n; })) goto a; } a: return n;', 'statement expression'),
    ('setjmp', '#include <setjmp.h>\nstatic jmp_buf b;',
     'if (n) goto a; if (|setjmp(b)) n = 2; a: return n;', 'setjmp'),
    ('setjmp in the argument of a macro', '#include <setjmp.h>\nstatic jmp_buf b;\n#define NOT_ZERO(x) ((x) != 0)',
     'if (n) goto a; if (NOT_ZERO(setjmp(b))) n = 2; a: return n;', 'setjmp may return twice'),
    ('sigsetjmp', '#include <setjmp.h>\nstatic sigjmp_buf b;',
     'if (n) goto a; if (sigsetjmp(b, 1)) n = 2; a: return n;', 'sigsetjmp'),
    ('vfork', '#include <unistd.h>', 'if (n) goto a; n = |vfork(); a: return n;', 'vfork'),
    ('returns_twice', 'int again(void) __attribute__((returns_twice));',
     'if (n) goto a; n = again(); a: return n;', 'twice'),
    ('setjmp behind a macro', '#include <setjmp.h>\nstatic jmp_buf b;\n#define TRY if (setjmp(b) == 0)',
     'if (n) goto a; TRY { n = 2; } a: return n;', 'return twice'),
    ('address of a compound literal', 'struct s { int a; };',
     'struct s *p; if (n) goto a; p = &|(struct s){n}; n = p->a; a: return n;', 'compound literal'),
    ('a compound literal that is an array', '',
     'int *p = &n; if (n) goto a; p = |(int[]){1, 2}; a: return p[0];', 'compound literal'),
    ('a selector wider than long', '',
     'switch (|(__int128)n) { case 1: goto a; default: n++; } a: return n;', 'wider than long'),
    ('a long case range', '', 'switch (n) { |case 1 ... 100: goto a; default: n++; } a: return n;', 'case range'),
    ('a case label with its line', '', 'switch (n) { |case __LINE__: goto a; default: n++; } a: return n;', 'its line'),
    ('a case label with the line by a macro', '#define HERE (__LINE__ + 1)',
     'switch (n) { |case HERE: goto a; default: n++; } a: return n;', 'its line'),
    ('a case label with a counter', '',
     'switch (n) { |case __COUNTER__: goto a; default: n++; } a: return n;', 'a case label with __COUNTER__'),
    ('a case label with a counter by a macro', '#define NEXT (__COUNTER__ + 1)',
     'switch (n) { |case NEXT: goto a; default: n++; } a: return n;', 'a case label with __COUNTER__'),
    ('a step of a loop with a counter', '#define NEXT (__COUNTER__ + 1)',
     'for (; n < 9; |n += NEXT) { n += NEXT; if (n == 4) goto a; } n++; a: return n;', 'this would move'),
    ('a declaration with a counter', '',
     'n += __COUNTER__; { |static int k = __COUNTER__; if (n == 4) goto a; n += k; } a: return n;', 'this would move'),
    ('an array with a counter', '',
     'n += __COUNTER__; { |int k[__COUNTER__ + 1]; if (n == 4) goto a; k[0] = n; n += k[0]; } a: return n;',
     'this would move'),
    ('an array of variable length', '',
     '{ int |v[n + 1]; if (n > 7) goto a; v[n] = 3; n = v[n]; } a: return n;', 'variable length'),
    ('a pointer to one', '',
     '{ int (*|v)[n + 1] = 0; if (n > 7) goto a; n = v == 0; } a: return n;', 'variable length'),
    ('a typedef of one', '',
     '{ typedef int t_v[n + 1]; if (n > 7) goto a; n = sizeof(t_v); } a: return n;', 'variable length'),
    ('cleanup', 'static void done(int *p) { printf("%d", *p); }',
     '{ int |k __attribute__((cleanup(done))) = n; if (n) goto a; n = k; } a: return n;', 'cleanup'),
    ('local labels', '', '|__label__ a; if (n) goto a; n = 2; a: return n;', 'label'),
    ('a const member', 'struct s { const int a; int b; };',
     'while (n) { struct s |v = {n, 2}; n--; if (v.a == 3) goto a; } a: return n;', 'const'),
    ('a const member deeper', 'struct s { struct { int c; const int a[2]; } in[2]; };',
     'while (n) { struct s v = {.in[1] = {3, {1}}}; n--; if (v.in[1].c == n) goto a; } a: return n;', 'const'),
    ('a variable without a type', '', 'while (n) { |register k = n; n--; if (k == 3) goto a; } a: return n;', 'type'),
    ('a const variable whose type is asked for', '#define KIND(p) _Generic((p), const int *: 1, default: 2)',
     'while (n) { const int |k = n; n--; if (KIND(&k) == 2) goto a; } a: return n;', 'const'),
    ('a const array whose type is asked for', '',
     'while (n) { const int |k[] = {n}; n--; if (__builtin_types_compatible_p(__typeof__(&k[0]), int *)) goto a; } a: '
     'return n;', 'const'),
    ('a volatile array', '',
     'while (n) { volatile int |v[2] = {n, 2}; n--; if (v[0] == 3) goto a; } a: return n;', 'volatile'),
    ('a volatile text', '', 'while (n) { volatile char |v[] = "ab"; n--; if (v[0] == n) goto a; } a: return n;', 'volatile'),
    ('an array with a volatile member', 'struct s { int a[1]; struct { volatile int b; } c; };',
     'while (n) { struct s |v[1] = {{{n}, {2}}}; n--; if (v[0].c.b == n) goto a; } a: return n;', 'volatile'),
    ('tags of one name', '',
     '{ struct x { int a; } v = {1}; if (n > 5) goto a; n += v.a; } { struct x { char a; } v = {2}; if (n) '
     'goto a; n += v.a; } a: return n;', "'x'"),
    ('typedefs of one name', '',
     '{ typedef int it; it v = 1; if (n > 5) goto a; n += v; } { typedef char it; it v = 2; if (n) goto a; '
     'n += v; } a: return n;', "'it'"),
    ('a typedef that hides one', 'typedef long it;',
     'it k = n; { typedef char it; it v = 2; if (n > 5) goto a; n += v + k; } n += sizeof(it); a: return n;',
     "'it'"),
    ('enumerators of one name', '',
     '{ enum { ONE = 1 }; if (n > 5) goto a; n += ONE; } { enum { ONE = 2 }; if (n) goto a; n += ONE; } a: '
     'return n;', "'ONE'"),
    ('auto type', '', '{ __auto_type k = n; if (n > 5) goto a; n += k; } a: return n;', 'type'),
    ('directives with a jump and half of a statement', '#define X',
     'if (n > 5) goto a;\n#ifdef X\n if (n) goto a; else\n#endif\n n++; a: return n;', '--configured'),
    ('directives with half of a chain of ifs', '#define X',
     'if (n > 5) goto a;\n#ifdef X\n if (n == 2) n = 7; else\n#endif\n if (n == 3) { a: n++; } return n;',
     'half of a statement stands in a conditional group'),
    ('assembler in directives with a jump and half of a statement', '#define X',
     'if (n > 5) goto a;\n#ifdef X\n __asm__("");\n if (n) goto a; else\n#endif\n n++; a: return n;', '--configured'),
    ('asm goto in directives', '#define X',
     'if (n > 5) goto a;\n#ifdef X\n __asm__ goto("" : : : : a);\n#endif\n n++; a: return n;', ''),
    ('directives with a label', '#define X',
     'if (n > 5) goto a;\n#ifdef X\n a:\n#endif\n n++; if (n < 3) goto a; return n;', '--configured'),
    ('a renamed variable that a definition in the function names', '',
     'int k = 1; if (n > 5) goto a; { int k = n;\n#define K k\n if (k == 3) goto a; n += K; } a: return n + k;',
     "'k' has to get another name, and a directive names it"),
    ('a declaration by a macro of the function', '',
     'if (n > 5) goto a;\n#define ONE 1\n { int k[ONE] = {n}; if (n == 2) goto a; n += k[0]; } a: return n;', 'ONE'),
    ('a statement before the first case', '',
     'switch (n) { n = 3; a: n++; break; case 2: goto a; default: goto a; } return n;', 'case'),
]


@pytest.mark.parametrize('before, body, message', [row[1:] for row in LEFT],
                         ids=[row[0].replace(' ', '-') for row in LEFT])
def test_left(command: Command, tmp_path: Path, before: str, body: str, message: str) -> None:
    """The function stays byte for byte, with the message at its place; another function of the file is done."""
    text = (f'#include <stdio.h>\n{before}\nint left(int n)\n{{\n    {body.replace("|", "")}\n}}\n'
            'int other(int n) { if (n) goto end; n = 2; end: return n; }\n')
    source, result = tmp_path / 'a.c', tmp_path / 'b.c'
    source.write_text(text)
    ran = command('-o', result, source)
    assert ran.status == 1, ran.error
    assert result.read_text().startswith(text[:text.index('int other')])
    assert 'goto end;' not in result.read_text()
    warning = re.search(r'^(.*):(\d+):(\d+): warning: not restructured: (.*)\n(.*)\n( *\^)', ran.error, re.MULTILINE)
    assert warning is not None, ran.error
    assert message in warning[4]
    assert warning[5] == text.splitlines()[int(warning[2]) - 1]
    assert len(warning[6]) == int(warning[3])
    if '|' in body:
        marked = text[:text.index('{\n    ', text.index('int left')) + 6].splitlines()[-1] + body
        assert int(warning[3]) == marked.index('|') + 1, warning[0]
    assert ran.error.endswith('1 file, 2 functions with goto: 1 restructured, 1 refused\n')


def test_word_that_is_a_macro(command: Command, tmp_path: Path) -> None:
    """Where a word that a result may have is a macro, each function is left."""
    source = tmp_path / 'a.c'
    source.write_text('#define break do { n += 2; } while (0); break\n'
                      'int f(int n) { switch (n) { case 1: goto a; case 2: n++; } n = 4; a: return n; }\n')
    ran = command('-o', '-', source)
    assert ran.status == 1
    assert ran.out == source.read_text()
    assert ':2:5: warning: not restructured: the word break is a macro\n' in ran.error
