"""Tests of less, which has none of its own: keys are typed to it on a terminal, and what it writes is compared.

less_tests.py LESS FILE    the first run in a folder keeps the screens in less.NAME.first; later ones compare
"""
from __future__ import annotations

import os
import pty
import re
import select
import subprocess
import sys
import time
from pathlib import Path

KEYS = {
    'pages': '  bb\x06dduu', 'ends': 'GgG50%p25p', 'lines': 'jjjj5jkkk12G', 'search': '/the\nnnNN?less\nnN',
    'marks': "jjmaG'a''", 'filter': '&version\n&\n', 'options': '-N-S-i/LESS\nn-S-N', 'brackets': '/(\n{G}',
    'columns': '-S\x1b)\x1b)\x1b(', 'commands': ':f:e Makefile\n:n:p:x=', 'help': 'hq',
    'regular expressions': '/^[0-9]+.*(fix|add)\nn', 'wrong': '/[\n\x1bz:z%~G'}


def rests(process: int, slept: int) -> bool:
    """Whether a process waits, for keys or for the room to write, and has fallen asleep since; or has ended."""
    state = Path(f'/proc/{process}/stat').read_text(encoding='ascii').rpartition(')')[2].split()[0]
    return state == 'Z' or state == 'S' and sleeps(process) > slept


def sleeps(process: int) -> int:
    """How often a process has fallen asleep by itself; on a busy machine a key reaches it a while after it was typed."""
    status = Path(f'/proc/{process}/status').read_text(encoding='utf-8')
    found = re.search(r'^voluntary_ctxt_switches:\s*(\d+)', status, re.MULTILINE)
    return int(found[1]) if found else 0


def read_until_rest(process: int, terminal: int, slept: int) -> bytes:
    """What a process writes until it rests again; at most what it writes in a minute."""
    written, end = b'', time.monotonic() + 60
    while time.monotonic() < end:
        if not select.select([terminal], [], [], 0.03)[0]:
            if rests(process, slept) and (written or slept):
                break
            continue
        try:
            written += os.read(terminal, 65536)
        except OSError:  # the process ended
            break
    return written


def screens(words: list[str], keys: str) -> bytes:
    """All that a program writes to a terminal of 24 lines while keys are typed, each after it has come to rest."""
    process, terminal = pty.fork()
    if process == 0:
        os.environ.update(TERM='xterm', LINES='24', COLUMNS='80', LESSHISTFILE='-', LC_ALL='C.UTF-8')
        os.execv(words[0], words)
    written = read_until_rest(process, terminal, 0)
    for key in [*keys, 'q']:
        slept = sleeps(process)
        try:
            os.write(terminal, key.encode())
        except OSError:
            break
        written += read_until_rest(process, terminal, slept)
    os.close(terminal)
    status = os.waitpid(process, 0)[1]
    return written + b'\nstatus %d' % status


def main() -> None:
    """Run all tests, and write a line for each."""
    less, file = sys.argv[1:]
    for name, keys in KEYS.items():
        now = screens([less, file], keys)
        kept = Path(f'less.{name.replace(" ", "_")}.first')
        if not kept.exists():
            kept.write_bytes(now)
        print(f'{"ok" if kept.read_bytes() == now else "not ok"}: {name}')
    for words in (['--help'], ['--version'], ['-N', file, 'Makefile'], ['-p', 'the', file], ['-E', '-s', file]):
        ran = subprocess.run([less, *words], stdin=subprocess.DEVNULL, capture_output=True, check=False)
        kept = Path(f'less.{"_".join(words).replace("/", "_")}.first')
        now = ran.stdout + ran.stderr + b'\nstatus %d' % ran.returncode
        if not kept.exists():
            kept.write_bytes(now)
        print(f'{"ok" if kept.read_bytes() == now else "not ok"}: {" ".join(words[:1])}')


main()
