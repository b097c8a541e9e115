"""Preprocessed files, with the line markers that compilers write into them."""
from __future__ import annotations

import subprocess
from pathlib import Path

import pytest

from .conftest import Command, has

SOURCE = r'''#include <limits.h>
#include <setjmp.h>
#include <stdio.h>
#include <stdlib.h>
static jmp_buf here;
int f(int n, char *p)
{
again:
    if (p == NULL || n == INT_MAX)
        goto out;
    while (n < INT_MAX && p != NULL) {
        switch (n + EXIT_FAILURE) {
        case EXIT_FAILURE:
            goto out;
        default:
            n++;
        }
        if (n > 9)
            goto out;
    }
    for (int i = EXIT_FAILURE; i != EXIT_SUCCESS; i -= EXIT_FAILURE)
        if (i == EXIT_SUCCESS)
            goto again;
    return EXIT_FAILURE;
out:
    {
        int z[] = { EXIT_SUCCESS, EXIT_FAILURE };
        if (n == z[EXIT_FAILURE])
            goto last;
        n++;
    }
last:
    return p == NULL ? n : EXIT_SUCCESS;
}
int left(int n)
{
    if (n == EXIT_FAILURE)
        goto end;
    if (setjmp(here) == EXIT_SUCCESS)
        n = INT_MAX;
end:
    return n;
}
int main(void)
{
    for (int i = 0; i < 9; i++)
        printf("%d %d %d\n", f(i, NULL), f(i, "a"), left(i));
    return EXIT_SUCCESS;
}
'''


def printed(program: Path, compiler: str) -> str:
    """What a preprocessed program prints."""
    made = program.with_suffix('.out')
    subprocess.run([compiler, '-w', program, '-o', made], check=True)
    return subprocess.run([made], capture_output=True, text=True, check=True).stdout


@pytest.mark.skipif(not has('gcc', 'clang'), reason='gcc or clang is missing')
@pytest.mark.parametrize('compiler', ['gcc', 'clang'])
@pytest.mark.parametrize('flags', [[], ['-P']])
def test_line_markers(command: Command, tmp_path: Path, compiler: str, flags: list[str]) -> None:
    """A function whose pieces hold line markers does the same; one that is left has its bytes, and a message there."""
    source, before, after = tmp_path / 'a.c', tmp_path / 'a.i', tmp_path / 'b.i'
    source.write_text(SOURCE)
    subprocess.run([compiler, '-E', *flags, source, '-o', before], check=True)
    ran = command('-o', after, before)
    assert ran.status == 1, ran.error
    assert '1 file, 2 functions with goto: 1 restructured, 1 refused\n' in ran.error
    text, result = before.read_text(), after.read_text()
    assert text[text.index('int left'):] in result and text[:text.index('int f(')] in result
    line = int(ran.error.split(':')[1])
    assert 'setjmp' in text.splitlines()[line - 1]
    assert printed(before, compiler) == printed(after, compiler)
