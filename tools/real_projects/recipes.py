"""The projects: how each is built and tested."""
from __future__ import annotations

import re
from dataclasses import dataclass, field

AUTOMAKE = (r'^# PASS: +(\d+)', r'^# (?:FAIL|ERROR): +(\d+)')


@dataclass(frozen=True)
class Recipe:
    """A project of Debian.

    `package` is the name of its source package. `prepare`, `build` and `tests` are lines for the shell, run in
    `folder` below the top of a copy of its source. $CC is the compiler there, $jobs the number of jobs, $tree the top
    of the copy, $source the source as Debian has it, and $tools the folder of this file. `passed` and `failed` find in
    the output of `tests` either one test each, or a number of tests in a group. With `in_compilers_place` the project
    is built by `regoto-c --cc`, and its sources stay as they are.
    """
    package: str
    build: str
    tests: str
    passed: str
    failed: str
    prepare: str = 'true'
    folder: str = '.'
    in_compilers_place: bool = False
    environment: dict[str, str] = field(default_factory=dict)

    def count(self, output: str) -> tuple[int, int]:
        """How many tests passed and failed, by what the tests wrote."""
        return _total(self.passed, output), _total(self.failed, output)


def _total(pattern: str, output: str) -> int:
    found = re.finditer(pattern, output, re.MULTILINE)
    return sum(int(match.group(1)) if match.lastindex else 1 for match in found)


RECIPES: dict[str, Recipe] = {
    'zlib': Recipe(
        package='zlib',
        prepare='./configure',
        build='make -j$jobs all',
        tests='make test',
        passed=r'\*\*\* zlib .*OK \*\*\*',
        failed=r'FAILED|Error \d'),
    'lz4': Recipe(
        package='lz4',
        build='make -j$jobs CC="$CC" CFLAGS=-O1 lib lz4 && '
              'make -j$jobs -C tests CC="$CC" CFLAGS=-O1 fuzzer frametest roundTripTest',
        tests='cd tests && for t in "./fuzzer -s1 -i100" "./frametest -s1 -i100" "./roundTripTest ../lib/lz4.c" '
              '"make test-lz4-basic" "make test-lz4-dict" "make test-lz4-multiple"; do $t CC="$CC" >$tree/one.log 2>&1 '
              '&& echo "ok: $t" || { echo "not ok: $t"; tail -n 5 $tree/one.log; }; done',
        passed=r'^ok:',
        failed=r'^not ok:'),
    'lua': Recipe(
        package='lua5.4',
        folder='src',
        build='make -j$jobs linux CC="$CC -std=gnu99" MYCFLAGS=-DLUA_USE_JUMPTABLE=0',
        tests='./lua $tools/lua_tests.lua; ./luac -o now.luac $tools/lua_tests.lua; [ -f first.luac ] '
              '|| cp now.luac first.luac; cmp now.luac first.luac && echo "ok: the same byte code" '
              '|| echo "not ok: byte code"',
        passed=r'^ok:',
        failed=r'^not ok:|^\./lua:'),
    'bzip2': Recipe(
        package='bzip2',
        build='make CC="$CC" libbz2.a bzip2 bzip2recover',
        tests='for n in 1 2 3; do ./bzip2 -$n < sample$n.ref > s.bz2; cmp s.bz2 sample$n.bz2 && echo "ok: pack $n" '
              '|| echo "not ok: pack $n"; for w in "" s; do ./bzip2 -d$w < sample$n.bz2 | cmp - sample$n.ref '
              '&& echo "ok: unpack $n $w" || echo "not ok: unpack $n $w"; done; done; '
              'cat *.c *.pdf *.html > all; ./bzip2 -9k all; ./bzip2 -dc all.bz2 | cmp - all && echo "ok: all" '
              '|| echo "not ok: all"; ./bzip2recover all.bz2 > /dev/null 2>&1; cat rec*all.bz2 | ./bzip2 -d '
              '| cmp - all && echo "ok: recover" || echo "not ok: recover"; head -c 99999 all.bz2 '
              '| ./bzip2 -t 2>/dev/null && echo "not ok: damaged" || echo "ok: damaged"; '
              'rm -f all all.bz2 rec*all.bz2 s.bz2',
        passed=r'^ok:',
        failed=r'^not ok:'),
    'mawk': Recipe(
        package='mawk',
        prepare='./configure && touch parse.c parse.h',
        build='make CC="$CC" -j$jobs',
        tests='make check CC="$CC"',
        passed=r' (?:test )?OK$|results consistent',
        failed=r'(?i)\bfailed\b|test .*differ|Error \d'),
    'tcc': Recipe(
        package='tcc',
        prepare='./configure --cc="$CC"',
        build='make -j$jobs ONE_SOURCE=no',
        tests='make -k test ONE_SOURCE=no; for f in tccgen tccpp tccelf; do ./tcc -B. -I. -Iinclude -DONE_SOURCE=0 '
              '-DTCC_TARGET_X86_64 -c $source/$f.c -o $f.now; [ -f $f.first ] || cp $f.now $f.first; '
              'cmp $f.now $f.first && echo "ok: the same object of $f" || echo "not ok: object of $f"; done',
        passed=r'\.\.\. success$|^(?:PP)?Test:? \S+ ?\.\.\.$|^Test \d+ (?:succeeded|failed) as expected| OK$'
               r'|^ok:',
        failed=r'^make\[\d\]: \*\*\* |^not ok:'),
    'xz': Recipe(
        package='xz-utils',
        prepare='./configure -q --disable-shared --disable-nls CC="$CC"',
        build='make -s -j$jobs CC="$CC"',
        tests='make -k check -j$jobs CC="$CC"',
        passed=AUTOMAKE[0], failed=AUTOMAKE[1],
        in_compilers_place=True),
    'gzip': Recipe(
        package='gzip',
        prepare='./configure -q CC="$CC"',
        build='make -s -j$jobs CC="$CC"',
        tests='make -k check -j$jobs CC="$CC"',
        passed=AUTOMAKE[0], failed=AUTOMAKE[1],
        in_compilers_place=True),
    'sed': Recipe(
        package='sed',
        prepare='./configure -q --disable-nls --with-included-regex CC="$CC"',
        build='make -s -j$jobs SUBDIRS=. CC="$CC"',
        tests='make -k check -j$jobs SUBDIRS=. CC="$CC"',
        passed=AUTOMAKE[0], failed=AUTOMAKE[1],
        in_compilers_place=True,
        environment={'FORCE_UNSAFE_CONFIGURE': '1'}),
    'less': Recipe(
        package='less',
        prepare='./configure -q CC="$CC"',
        build='make -s -j$jobs CC="$CC"',
        tests='python3 $tools/less_tests.py ./less $source/NEWS',
        passed=r'^ok:',
        failed=r'^not ok:',
        in_compilers_place=True),
}
