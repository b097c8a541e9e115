"""Programs made of functions, compiled in several ways and run; what they print is compared, function by function."""
from __future__ import annotations

import os
import re
import subprocess
from collections.abc import Sequence
from concurrent.futures import ThreadPoolExecutor
from pathlib import Path

ROWS = Path(__file__).parent / 'rows'
SANITIZED = ('-g', '-O1', '-fsanitize=address,undefined', '-fno-sanitize-recover=all')
COMPILERS = (('gcc', '-O0'), ('gcc', '-O2'), ('gcc', *SANITIZED),
             ('clang', '-O0'), ('clang', '-O2', '-fno-finite-loops'), ('clang', *SANITIZED))


def names_of(rows: str) -> list[str]:
    """The functions of a file of rows that are called: those that take one int and return one."""
    return re.findall(r'^(?:\w[^;={}\n]* )?int (\w+)\((?:int )?\w+\)', rows, re.MULTILINE)


def program(rows: str) -> str:
    """A whole program that calls each of the functions with 0 to 7, and prints a line for each call."""
    calls = ''.join(f'    CALL({name});\n' for name in names_of(rows))
    call = '#define CALL(f) for (int n = 0; n < 8; n++) { printf(#f " %d:", n); printf(" = %d\\n", f(n)); }'
    main = f'int main(void) {{\n    setvbuf(stdout, NULL, _IOLBF, 4096);\n{calls}    return exit_code;\n}}\n'
    return f'{rows}\n{call}\n{main}'


def output(source: Path, compiler: Sequence[str]) -> str:
    """What a program prints, with its exit status as a last line; why it isn't compiled where it isn't."""
    made = source.with_suffix('.' + ''.join(letter for letter in '_'.join(compiler) if letter.isalnum()))
    words = [*compiler, '-w', '-std=gnu11', f'-I{ROWS}', str(source), '-o', str(made), '-lm']
    compiled = subprocess.run(words, capture_output=True, text=True, check=False, timeout=120)
    if compiled.returncode:
        return f'not compiled: {compiled.stderr}'
    ran = subprocess.run([str(made)], capture_output=True, text=True, check=False, timeout=60,
                         stdin=subprocess.DEVNULL, env={**os.environ, 'ASAN_OPTIONS': 'detect_leaks=0'})
    made.unlink()
    return f'{ran.stdout}{ran.stderr}status {ran.returncode}\n'


def outputs(sources: Sequence[Path], compilers: Sequence[Sequence[str]] = COMPILERS) -> list[list[str]]:
    """What each program prints by each compiler, several at a time."""
    with ThreadPoolExecutor(os.cpu_count() or 1) as pool:
        found = [[pool.submit(output, source, compiler) for compiler in compilers] for source in sources]
        return [[one.result() for one in several] for several in found]


def lines_of(name: str, printed: str) -> list[str]:
    """The lines that a function gave."""
    return [line for line in printed.splitlines() if line.startswith(f'{name} ')]
