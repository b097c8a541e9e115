"""Macros that bear jumps: what stays, what is expanded, what is refused."""

from __future__ import annotations

import subprocess
from pathlib import Path

import pytest

from regoto_c import macros, preprocessing
from regoto_c.messages import Refused
from regoto_c.reading import SourceFile, edited, read
from regoto_c.words import words

PROGRAMS = preprocessing.programs()
END = "\n  a = 5;\nout:\n  return a;"

KINDS = [
    ("x + 1", "plain"), ("", "nothing"), ("x ? y : z", "plain"), ("{ x++; }", "plain"),
    ("do { x++; } while (0)", "plain"), ("for (;;) { if (x) break; }", "plain"),
    ("switch (x) { case 1: break; default: x++; }", "plain"), ("({ int y = x; y; })", "plain"),
    ("({ for (;;) if (x) break; x; }) + 1", "plain"),
    ("f(({ switch (x) { case 1: break; } ({ while (x--) continue; 1; }); }))", "plain"),
    ("({ if (x) break; x; })", "mixed"), ("({ for (;;) break; ({ break; 1; }); })", "mixed"),
    ("({ while (x) return; x; })", "mixed"), ("({ for (;;) break; if (x) })", "mixed"),
    ("goto out", "goto"), ("goto out;", "goto"), ("goto *p", "mixed"), ("break", "break"), ("continue;", "continue"),
    ("return", "return"), ("return x ? 1 : 2;", "return"), ("return ({ goto l; 1; })", "mixed"),
    ("return 1; x++", "mixed"), ("case 1:", "case"), ("case 1 ? 2 : 3:", "case"), ("case 1: case 2:", "mixed"),
    ("default:", "default"), ("l:", "label"), ("l: x++", "mixed"), ("if (x) goto l", "mixed"),
    ("do { return 1; } while (0)", "mixed"), ("if (x)", "mixed"), ("else", "mixed"), ("do {", "mixed"),
    ("} while (0)", "mixed"), ("for (;;)", "mixed"), ("for (;;) { continue; } break", "mixed"), ("f(", "mixed"),
]


def file_of(folder: Path, head: str, body: str) -> SourceFile:
    """Return a file with a function f."""
    text = f"{head}\nint puts(const char *);\nint f(int a) {{\n{body}\n}}\n"
    return read(folder / "a.c", text, [])


def expanded(file: SourceFile, *also: str) -> str:
    """Return the file with what bears jumps expanded in f, and the macros of these names."""
    function = file.functions[-1]
    chosen = macros.bearing(file, function) + [each for each in file.invocations if each.name in also]
    return edited(file.text, macros.expanded(file, function, chosen))


@pytest.mark.parametrize("text, kind", KINDS)
def test_kind(text: str, kind: str) -> None:
    assert macros.kind_of(words(text)) == kind


# the definitions, the body of f, and what the new body must hold; None where it stays as it is
EXPANSIONS = [
    ("#define C(x) if (x) goto out", "  C(a > 1);" + END, "if (a > 1) goto out;"),
    ("#define IN(x) do { if (x) goto out; } while (0)\n#define OUTER(x) while (a < 9) { a++; IN(x); }",
     "  OUTER(a == 4)" + END, "{ a++; do { if (a == 4) goto out; } while (0); }"),
    ("#define FAIL goto out\n#define C(x) if (x) FAIL", "  C(a > 1);" + END, "if (a > 1) FAIL;"),
    ("#define CASE(x) case x:\n#define END break",
     "  switch (a) { CASE(1) a = 7; END; CASE(2) goto out; }" + END, None),
    ("#define EACH(i, n) for (i = 0; i < n; i++)", "  int i, s = 0;\n  EACH(i, 3) s++;\n"
     "  EACH(i, 9) { if (i == a) goto out; s++; }" + END, "  EACH(i, 3) s++;\n  for (i = 0; i < 9; i++) { if"),
    ("#define BEGIN {\n#define END }", "  BEGIN if (a) goto out; a = 2; END" + END, "{ if (a) goto out; a = 2; }"),
    ("#define NAME(x) #x\n#define C(x) do { if (x) { puts(NAME(x)); puts(#x); goto out; } } while (0)",
     "  C(a == 2);" + END, 'puts(NAME(a == 2)); puts("a == 2"); goto out;'),
    ("#define L(x) label_##x\n#define C(x, n) if (x) goto L(n)",
     "  C(a, 1);\n  a = 5;\nL(1):\n  return a;", "goto L(1);"),
    ("#define TO(x) if (a) goto label_##x", "  TO(1);\n  a = 5;\nlabel_1:\n  return a;", "goto label_1;"),
    ("#define C(...) if (sum(__VA_ARGS__)) goto out\n#define sum(a, b) ((a) + (b))",
     "  C(a, 1);" + END, "if (sum(a, 1)) goto out;"),
    ("#define WHERE do { if (a) { line = __LINE__; goto out; } } while (0)\nint line;",
     "  WHERE;" + END, "line = __LINE__;"),
    ("#define C(x) if (x) goto out", "#undef C\n#define C(x) if (!(x)) goto out\n  C(a);" + END, "if (!(a)) goto out;"),
    ("", "#define C(x) if (x) goto out\n  C(a);\n#undef C" + END, "if (a) goto out;"),
    ("#define ALIAS C\n#define C(x) if (x) goto out", "  ALIAS(a);" + END, "if (a) goto out;"),
    ("#define C(x) if (x) goto out", "  C (a\n     > /* one */ 1 // more\n  );" + END, "/* one */"),
    ("#define SAFE(x) (x)\n#define C(x) if (x) goto out",
     "  int (*C)(int) = f;\n  a = SAFE(a);\n  if (!C) goto out;" + END, None),
    ("#define RUN(x) { x; }", "  RUN(if (a) goto out)" + END, "{ if (a) goto out; }"),
    ("#include <errno.h>\n#define TRY(x) do { errno = 0; if ((x) < 0 || errno) goto out; } while (0)",
     "  TRY(a - 1);" + END, "errno = 0; if ((a - 1) < 0 || errno) goto out;"),
    ("#define C(x) ({ int i_ = 0; for (; i_ < 9; i_++) if (i_ == (x)) break; i_; })", "  if (C(a) > 3) goto out;" + END, None),
    ('#define C(x) _Pragma("GCC diagnostic push") if (x) goto out', "  C(a);" + END,
     '_Pragma("GCC diagnostic push") if (a) goto out;'),
]


def run(folder: Path, text: str) -> list[str]:
    """Return what f answers for some arguments."""
    answers = []
    main = "int printf(const char *, ...);\nint main(void) { for (int i = -1; i < 6; i++) printf(\"%d \", f(i)); }\n"
    for program in PROGRAMS[-1:]:
        (folder / "run.c").write_text(text + main, "latin-1")
        subprocess.run([program, "-w", "-o", folder / "run", folder / "run.c"], check=True)
        answers.append(subprocess.run([folder / "run"], capture_output=True, text=True, check=True).stdout)
    return answers


@pytest.mark.parametrize("head, body, part", EXPANSIONS)
def test_expansion(tmp_path: Path, head: str, body: str, part: str | None) -> None:
    file = file_of(tmp_path, head, body)
    text = expanded(file)
    assert (part or file.text) in text
    assert run(tmp_path, file.text) == run(tmp_path, text)
    assert expanded(read(file.path, text, [])) == text


REFUSED = [
    ("#define read(x) do { if (read(x)) goto out; } while (0)\nint (read)(int x) { return x; }",
     "  read(a);" + END, "read"),
    ("#define S(x) #x\n#define IN(x, y) do { if (x) goto out; puts(#y); } while (0)\n#define C(x, y) IN(x, y)\n"
     "#define ONE 1", "  C(a, ONE);" + END, "C"),
    ("#define C(x) do { int y = x; if (y != x) goto out; } while (0)", "  C(__COUNTER__);" + END, "C"),
    ("#define C(x) if (x) goto out", "  C(\n#ifdef A\n a\n#else\n !a\n#endif\n  );" + END, "C"),
    ("#ifdef __clang__\n#define C(x) if (x) goto out\n#else\n#define C(x) if (!(x)) goto out\n#endif",
     "  C(a);" + END, "C"),
]


@pytest.mark.parametrize("head, body, name", REFUSED)
def test_refused(tmp_path: Path, head: str, body: str, name: str) -> None:
    file = file_of(tmp_path, head, body)
    with pytest.raises(Refused) as refused:
        expanded(file)
    assert file.text.startswith(name + "(", refused.value.offset)
    assert f"the macro {name} " in refused.value.why


def test_on_demand(tmp_path: Path) -> None:
    file = file_of(tmp_path, "#define DECLARE(x) int x = 1", "  if (a) { DECLARE(y); a += y; goto out; }" + END)
    assert expanded(file) == file.text
    assert "{ int y = 1; a += y;" in expanded(file, "DECLARE")


def test_names_with() -> None:
    lines = '# 1 "/a.c"\n#define A goto x\n#define B(x) A; x\n#define C B\n#define D 1\n#undef A\n'
    assert preprocessing.names_with(preprocessing.Preprocessed(lines, "a.c").events, "goto") == {"A", "B", "C"}


def test_edits_are_those_of_the_invocations(tmp_path: Path) -> None:
    file = file_of(tmp_path, "#define IN(x) if (x) goto out\n#define C(x) do { IN(x); IN(!(x)); } while (0)",
                   "  C(a > 1);\n  a++;\n  C(a\n > 2);" + END)
    function = file.functions[-1]
    edits = macros.expanded(file, function, macros.bearing(file, function))
    assert [file.text[edit.start:edit.end] for edit in edits] == ["C(a > 1)", "C(a\n > 2)"]
    assert edits[0].text == "do { if (a > 1) goto out; if (!(a > 1)) goto out; } while (0)"
    assert edits[1].text == "do { if (a > 2) goto out; if (!(a > 2)) goto out; } while (0)"
