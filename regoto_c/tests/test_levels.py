"""Functions over the limits of the core: which parts are done by themselves, and that they do what they did."""

from __future__ import annotations

import os
import subprocess
from pathlib import Path
from typing import Callable

import pytest

from regoto_c import levels, runs
from regoto_c.messages import Refused
from regoto_c.reading import SourceFile, read
from regoto_c.restructuring import Options, Outcome, restructured
from regoto_c.words import texts, words

BUILT = Path(__file__).resolve().parents[2] / "crates" / "regoto_cli" / "out" / "regoto_cli"
CORE = Path(os.environ.get("REGOTO_CORE") or BUILT)
needs_core = pytest.mark.skipif(not CORE.is_file(), reason="no core: REGOTO_CORE names none, and none is built")


def file_of(body: str) -> SourceFile:
    """Return a file with the function f, in which REPEAT(x)END is x with each number below 100 in the place of N."""
    parts = body.split("REPEAT(")
    for index, part in enumerate(parts[1:], 1):
        inner, rest = part.split(")END", 1)
        parts[index] = "\n".join(inner.replace("N", str(number)) for number in range(100)) + rest
    text = "int g(int);\nint f(int n, int m) {\n" + "".join(parts) + "\n}\n"
    return read(Path("a.c"), text, [])


# how many jumps a run may have, a body, and of each run the number of its jumps and the places to which they lead
RUNS = [
    (110, "if (n) goto a; if (m) goto a; n++;\na: return n;", [(2, [])]),
    (110, "REPEAT(if (n == N) goto a; if (m == N) goto b;)END n++;\na: return n;\nb: return m;",
     [(110, ["goto a", "goto b"]), (90, ["goto a", "goto b"])]),
    (110, "n++; l: REPEAT(if (n == N) goto a;)END if (m++ < 9) goto l; REPEAT(if (m == N) goto a;)END\na: return n;",
     [(110, ["goto a", "goto l"]), (90, ["goto a"])]),
    (2, "while (n--) { if (n == 3) goto a; if (n == 5) goto a; if (n == 7) break; }\na: return n;", [(2, ["goto a"])]),
    (3, "goto a; while (n--) { if (n == 3) goto a; if (n == 5) goto a; if (n == 7) break; }\na: return n;",
     [(3, ["goto a"])]),
    (3, "goto a; while (n--) { l: if (n == 3) goto a; if (n == 5) goto a; if (m++ < 2) goto l; }\na: return n;",
     [(3, ["goto a"])]),
    (2, "goto l; while (n--) { g(1); if (n == 3) goto a; if (n == 5) goto a; l: n--; }\na: return n;",
     [(2, ["goto a"])]),
    (2, "goto a; while (n--) { int k = m; if (k) goto a; if (n) goto a; g(k); k++; }\na: return n;", [(2, ["goto a"])]),
    (3, "switch (n) { case 1: g(1); if (m) goto a; if (n) break; if (g(2)) goto a; case 2: if (g(3)) goto a; }\n"
     "a: return n;", [(3, ["goto a", "break"])]),
    (5, "for (;;) { if (n) goto a; if (m) continue; if (g(1)) continue; if (g(2)) goto a; break; goto a; }\n"
     "a: return n;", [(5, ["goto a", "continue", "break"])]),
    (1, "if (n) goto a; if (m) goto b;\na: n++;\nb: return n;", []),
]


@pytest.mark.parametrize("most, body, found", RUNS)
def test_runs(most: int, body: str, found: list[tuple[int, list[str]]], monkeypatch: pytest.MonkeyPatch) -> None:
    monkeypatch.setattr(runs, "MOST_JUMPS", most)
    file = file_of(body)
    assert [(run.jumps, run.exits) for run in runs.Finder(file, file.functions[-1]).run()] == found


def done(file: SourceFile) -> Outcome:
    """Return what becomes of a file."""
    return restructured(file.path, file.text, [], Options(CORE))


PROGRAMS = [
    "int r = 0; REPEAT(if (n == N) goto a; r += N; if (m == N) goto b;)END\na: return r + n;\nb: return m;",
    "int r = 0, i; for (i = 0; i < n; i++) {\nREPEAT(  if (i == N && m == 3) goto a; if (i == N && m == 4) break;"
    " if (m == N) continue; r += i * N;)END\n}\nr += 1000;\na: return r + i;",
    "int r = 0; static int c; again: r++; c++;\nREPEAT(  if (n == N) { n += 3; if (r < 5) goto again; goto a; }"
    " if (m - N == 7) goto b;)END\na: r += 2;\nb: return r + c;",
    "int r = 0; for (int k = 0; k < 3; k++) { int q = n + k; long w[2] = { q, m };\nREPEAT(  if (q == N) goto a;"
    " { int q = m; r += q; if (w[0] == N + 1 && r > 500) goto b; })END\n r += w[1]; }\na: r++;\nb: return r;",
    "switch (n % 4) { case 0: n++;\nREPEAT(  if (n == N) break; if (m == N) goto a; n += 2;)END\ncase 1: m++; goto a;"
    "\ncase 2:\nREPEAT(  if (m == N) { if (n > 4) return N; goto a; })END\n break; default: g(n); }\nm += 5;\n"
    "a: return n + m;",
]


@needs_core
@pytest.mark.parametrize("body", PROGRAMS)
def test_does_what_it_did(body: str, tmp_path: Path) -> None:
    file = file_of(body)
    outcome = done(file)
    assert (outcome.done, outcome.messages) == (1, []) and "goto" not in texts(words(outcome.text))
    answers = []
    for text in (file.text, outcome.text):
        (tmp_path / "p.c").write_text("int printf(const char *, ...);\n" + text + (
            "int g(int x) { return x; }\nint main(void) { for (int n = -1; n < 110; n++)"
            ' for (int m = 0; m < 110; m += 1 + (n + 1) % 3) printf("%d ", f(n, m)); }\n'))
        subprocess.run(["gcc", "-w", "-O1", tmp_path / "p.c", "-o", tmp_path / "p"], check=True)
        answers.append(subprocess.run([tmp_path / "p"], capture_output=True, check=True).stdout)
    assert answers[0] == answers[1]


@needs_core
def test_too_tangled() -> None:
    """Where each label is entered from everywhere no part can be done by itself."""
    tangle = "\n".join(f"l{n}: if (g({n})) goto l{n * 37 % 100}; if (m == {n}) goto l{n * 53 % 100}; n++;"
                       for n in range(100))
    outcome = done(file_of(tangle + "\nreturn n;"))
    assert outcome.done == 0
    assert "200 gotos and 100 labels are too many for one function" in outcome.messages[0].text


FAULTS: list[tuple[str, Callable[[str], str]]] = [
    ("lost", lambda text: text.replace("g(1);", "")), ("changed", lambda text: text.replace("g(1)", "g(2)")),
    ("exchanged", lambda text: text.replace("g(1); g(3);", "g(3); g(1);")),
    ("another place", lambda text: text.replace("leave = 1", "leave = 2", 1)),
]


@pytest.mark.parametrize("fault", [fault for _, fault in FAULTS], ids=[name for name, _ in FAULTS])
def test_fault_in_a_part(fault: Callable[[str], str], monkeypatch: pytest.MonkeyPatch) -> None:
    """What isn't the source's text with jumps in the place of jumps is found."""
    monkeypatch.setattr(runs, "MOST_JUMPS", 4)
    file = file_of("if (n) goto a; g(1); g(3); if (m) goto b; if (n > 3) goto a; if (m > 3) goto b; goto a;\n"
                   "a: n++;\nb: return n;")
    seen: list[str] = []

    def kept(text: str, names: object) -> str:
        seen.append(text)
        return text

    assert levels.reduced(file, file.functions[-1], kept, 0) == []
    assert "g(1); g(3); if (m) { leave = 2; goto leave_end; }" in seen[0]
    as_ever = levels.edited
    monkeypatch.setattr(levels, "edited", lambda text, edits: fault(as_ever(text, edits)))
    with pytest.raises(Refused, match="can't be done by itself"):
        levels.reduced(file, file.functions[-1], lambda text, names: text, 0)
