"""Directives in functions: which are units, how far these reach, and what --configured does."""

from __future__ import annotations

import itertools
import subprocess
from pathlib import Path

import pytest

from regoto_c import directives
from regoto_c.messages import Refused
from regoto_c.reading import SourceFile, edited, read

HEAD = """#define FAIL goto out
#define BLOCK { a++; }
#define BREAK_IF(x) if (x) break
int g(int);
int f(int a) {
  int b = 0;
"""
TAIL = """
  if (a > 100) goto out;
  b += a;
out:
  return b;
}
"""


def file_of(folder: Path, body: str, *flags: str) -> SourceFile:
    """Return a file whose function f has this body."""
    return read(folder / "a.c", HEAD + body + TAIL, list(flags))


# a body, what its units are (their text as far as it matters, and their kind or fault)
UNITS = [
    ("b = 1;\n#ifdef X\n  b = 2;\n#endif", [("#ifdef X\n  b = 2;\n#endif", "statements")]),
    ("#ifdef X\n#elif defined(Y)\n  g(1); g(2);\n#else\n  while (a) { a--; if (a == 3) break; }\n#endif",
     [("#ifdef X", "statements")]),
    ("#ifdef X\n  if (a) {\n    b = 2;\n  } else\n#endif\n  {\n    b = 3;\n  }\n  b++;",
     [("#ifdef X\n  if (a) {\n    b = 2;\n  } else\n#endif\n  {\n    b = 3;\n  }", "statements")]),
    ("if (a)\n    b = 1;\n#ifdef X\n  else if (a > 1)\n    b = 2;\n#endif\n  else\n    b = 3;",
     [("if (a)\n    b = 1;\n#ifdef X\n  else if (a > 1)\n    b = 2;\n#endif\n  else\n    b = 3;", "statements")]),
    ("if (a)\n#ifdef X\n    b = 1;\n#else\n    b = 2;\n#endif\n  b++;",
     [("if (a)\n#ifdef X\n    b = 1;\n#else\n    b = 2;\n#endif", "statements")]),
    ("b = 1;\n#ifdef X\n  if (a) {\n#endif\n  b = 2;\n#ifdef X\n  }\n#endif\n  b++;",
     [("#ifdef X\n  if (a) {\n#endif\n  b = 2;\n#ifdef X\n  }\n#endif", "statements")]),
    ("b = 1;\n#ifdef X\n  if (a) {\n#endif\n  b = 2;\n#ifdef Y\n  }\n#endif\n  b++;",
     [("#ifdef X", "half of a statement"), ("#ifdef Y", "half of a statement")]),
    ("#ifdef X\n  for (;;)\n#else\n  while (a--)\n#endif\n  { if (b++ > 9) break; }\n",
     [("#ifdef X\n  for (;;)\n#else\n  while (a--)\n#endif\n  { if (b++ > 9) break; }", "statements")]),
    ("while (a--) {\n#ifdef X\n  if (a == 3) break;\n#endif\n  b++;\n  }",
     [("while (a--) {\n#ifdef X\n  if (a == 3) break;\n#endif\n  b++;\n  }", "statements")]),
    ("while (a--) {\n#ifdef X\n  int c = a;\n#endif\n  b++;\n  }", [("while (a--) {", "statements")]),
    ("b = g(a\n#ifdef X\n  + 1\n#endif\n  );", [("#ifdef X\n  + 1\n#endif", "part")]),
    ("if (a\n#ifdef X\n  && b\n#else\n  || b\n#endif\n  ) goto out;", [("#ifdef X", "part")]),
    ("struct { int x;\n#ifdef X\n  int y;\n#endif\n  } s = { 0 };\n  b = s.x;", [("#ifdef X", "part")]),
    ("b = 1;\n  int c[] = { 1,\n#ifdef X\n  2,\n#endif\n  3 };\n  b = c[0];", [("#ifdef X", "part")]),
    ("#ifdef X\n  b\n#else\n  a\n#endif\n  = 3;", [("#ifdef X", "part")]),
    ("#ifdef X\n  int c = 1;\n#else\n  int c = 2, *d = &c;\n#endif\n  b = c;", [("#ifdef X", "declarations")]),
    ("b = 1;\n#ifdef X\n  int c = 1;\n#else\n  int c = 2;\n#endif\n  b = c;", [("#ifdef X", "a declaration")]),
    ("b = 1;\n#ifdef X\n  size_t c;\n#endif\n", [("#ifdef X", "a declaration")]),
    ("b = 1;\n#ifdef X\n  b * c;\n#endif\n", [("#ifdef X", "a declaration")]),
    ("#ifdef X\n  goto out;\n#endif", [("#ifdef X", "a jump")]),
    ("#ifdef X\n  FAIL;\n#endif", [("#ifdef X", "a jump")]),
    ("#ifdef X\n  if (a) return 1;\n#endif", [("#ifdef X", "a jump")]),
    ("#ifdef X\nlabel:\n#endif\n  b++;", [("#ifdef X", "a label")]),
    ("switch (a) {\n#ifdef X\n  case 1: b++; break;\n#endif\n  default: goto out; }", [("#ifdef X", "a label")]),
    ("switch (a) {\n#ifdef X\n  case 1: b++; break;\n#endif\n  default: b--; }", [("switch (a) {", "statements")]),
    ("#ifdef X\n  BLOCK\n#endif", [("#ifdef X", "statements")]),
    ("#ifdef X\n  while (a) BREAK_IF(a--);\n#else\n  for (;;) { BREAK_IF(1); }\n#endif", [("#ifdef X", "statements")]),
    ("#ifdef X\n  BREAK_IF(a);\n#endif", [("#ifdef X", "a jump")]),
    ("#ifdef X\n#ifdef Y\n  b = 1;\n#else\n  b = 2;\n#endif\n  b++;\n#endif", [("#ifdef X", "statements")]),
    ("#ifdef X\n#ifdef Y\n  b = 1;\n#else\n  goto out;\n#endif\n  b++;\n#endif", [("#ifdef X", "a jump")]),
    ("goto there;\nthere:\n#ifdef X\n  b++;\n#endif\n  b++;", [("#ifdef X\n  b++;\n#endif", "statements")]),
    ("b = a ?\n  1 :\n#ifdef X\n  2\n#else\n  3\n#endif\n  ;", [("#ifdef X", "part")]),
    ("b = 1;\n#define N 3\n  b += N;\n#undef N", [("#define N 3", "statements"), ("#undef N", "statements")]),
    ("#define N 3\n  int c = N;\n  b = c;", [("#define N 3", "declarations")]),
    ("b = 1;\n#pragma GCC unroll 4\n  for (int i = 0; i < a; i++) b++;\n  b++;",
     [("#pragma GCC unroll 4\n  for (int i = 0; i < a; i++) b++;", "statements")]),
    ("b = 1;\n#pragma GCC unroll 4\n  for (int i = 0; i < a; i++) if (i == 7) goto out;",
     [("#pragma", "a #pragma for")]),
    ("b = 1;\n#pragma GCC diagnostic push\n  b++;", [("#pragma GCC diagnostic push", "statements")]),
    ("b = 1;\n#include <stddef.h>\n", [("#include", "an #include")]),
    ("b = 1;\n#ifdef X\n#include <stddef.h>\n#endif", [("#ifdef X", "an #include")]),
    ("b = 1;\n#ifdef X\n#pragma omp parallel for\n#endif\n  for (int i = 0; i < a; i++) b++;\n  b++;",
     [("#ifdef X\n#pragma omp parallel for\n#endif\n  for (int i = 0; i < a; i++) b++;", "statements")]),
    ("b = 1;\n#ifdef X\n#pragma omp parallel for\n#endif\n  for (int i = 0; i < a; i++) if (i == 7) goto out;",
     [("#ifdef X", "a #pragma for")]),
    ("b = 1;\n#ifdef X\n  b = ({ while (a) if (a-- == 3) break; a; });\n#endif\n  b++;",
     [("#ifdef X\n  b = ({ while (a) if (a-- == 3) break; a; });\n#endif", "statements")]),
    ("while (a--) {\n#ifdef X\n  b = ({ if (a == 3) break; a; });\n#endif\n  if (b) goto out;\n  }", [("#ifdef X", "a jump")]),
    ("b = 1; /* # */ b = '#';\n  g(a); // #if\n", []),
]


@pytest.mark.parametrize("body, units", UNITS)
def test_units(tmp_path: Path, body: str, units: list[tuple[str, str]]) -> None:
    file = file_of(tmp_path, body)
    found = directives.groups(file, file.functions[-1])
    kinds = [group.fault or ("declarations" if group.declarations else "statements" if group.statements else "part")
             for group in found]
    assert [kind[:len(unit[1])] for kind, unit in zip(kinds, units)] == [unit[1] for unit in units]
    assert len(found) == len(units)
    for group, (text, _) in zip(found, units):
        shown = file.text[group.start:group.end]
        assert shown.startswith(text) and (shown == text or "\n" not in text)


RESOLUTIONS = [
    ("b = 1;\n#ifdef X\n  goto out;\n#endif\n  b++;", "b = 1;\n  b++;", "#ifdef X resolved: no branch is taken"),
    ("b = 1;\n#ifndef X\n  goto out;\n#endif\n  b++;", "b = 1;\n  goto out;\n  b++;",
     "#ifndef X resolved: its first branch is taken"),
    ("b = 1;\n#if defined(X) && X > 1 // one\n  goto out;\n#elif 1\n  return 2;\n#else\n  return 3;\n#endif /* X */\n"
     "  b++;",
     "b = 1;\n  return 2;\n  b++;", "#if defined(X) && X > 1 resolved: the branch of #elif 1 is taken"),
    ("b = 1;\n#ifdef X\n  goto out;\n#else\n#ifdef Y\n  b--;\n#endif\n#endif\n  b++;",
     "b = 1;\n#ifdef Y\n  b--;\n#endif\n  b++;", "#ifdef X resolved: the branch of #else is taken"),
]


@pytest.mark.parametrize("body, result, note", RESOLUTIONS)
def test_resolved(tmp_path: Path, body: str, result: str, note: str) -> None:
    file = file_of(tmp_path, body)
    edits = directives.resolved(file, file.functions[-1])
    assert [edit.note for edit in edits if isinstance(edit, directives.Resolution)] == [note]
    assert edited(file.text, edits) == HEAD + result + TAIL


def test_another_compiler_takes_another_branch(tmp_path: Path) -> None:
    file = file_of(tmp_path, "#ifdef __clang__\n  goto out;\n#else\n  return 2;\n#endif")
    with pytest.raises(Refused, match="takes another branch than libclang"):
        directives.resolved(file, file.functions[-1])


@pytest.mark.parametrize("body, units", UNITS)
def test_units_compile_alone(tmp_path: Path, body: str, units: list[tuple[str, str]]) -> None:
    """A unit of whole statements is one for each choice of branches: it compiles in a block of its own."""
    file = file_of(tmp_path, body)
    found = directives.groups(file, file.functions[-1])
    if any(group.fault or group.declarations or not group.statements for group in found) or "#define" in body:
        return
    text = file.text
    for group in reversed(found):
        text = text[:group.start] + "\n{ ;\n" + text[group.start:group.end] + "\n}\n" + text[group.end:]
    (tmp_path / "b.c").write_text(text)
    for chosen in itertools.product(("X", ""), ("Y", "")):
        flags = ["-D" + name for name in chosen if name]
        before = subprocess.run(["gcc", "-w", "-fsyntax-only", *flags, "-x", "c", "-"], input=file.text, text=True,
                                check=False, capture_output=True)
        after = subprocess.run(["gcc", "-w", "-fsyntax-only", *flags, tmp_path / "b.c"], check=False,
                               capture_output=True, text=True)
        assert before.returncode or not after.returncode, after.stderr
