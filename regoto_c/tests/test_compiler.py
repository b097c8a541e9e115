"""In a compiler's place: what is restructured, what is handed on, and what the compiler's user sees."""

from __future__ import annotations

import re
import subprocess
from pathlib import Path

import pytest

from regoto_c import compiler
from regoto_c.commands import Source, read_command
from regoto_c.line_markers import prepare
from regoto_c.messages import Unreadable
from regoto_c.restructuring import Options, Outcome

OPTIONS = Options(core=Path("core"))
WITH_GOTO = """#include <stdio.h>
#include "own.h"
int f(int a) {
  int unused;
  if (a > OWN) goto out;
  puts("source");
out:
  return a;
}
"""
MAIN = "int f(int); int main(void) { return f(1) - 1; }\n"


@pytest.fixture(autouse=True)
def folder(tmp_path: Path, monkeypatch: pytest.MonkeyPatch) -> Path:
    """Work in a folder of its own, with a restructurer that changes a string in functions with a goto."""
    def fake(path: Path, text: str, flags: list[str], options: Options) -> Outcome:
        if "unreadable" in text:
            raise Unreadable([])
        if "broken" in text:
            return Outcome(path, text + "}", [], 1, 1)
        return Outcome(path, text.replace('"source"', '"result"'), [], 1, int('"source"' in text))

    monkeypatch.setattr(compiler, "restructured", fake)
    monkeypatch.setenv("REGOTO_LOG", str(tmp_path / "log"))
    monkeypatch.chdir(tmp_path)
    (tmp_path / "own.h").write_text("#define OWN 5\n")
    (tmp_path / "a.c").write_text(WITH_GOTO)
    (tmp_path / "m.c").write_text(MAIN)
    return tmp_path


def says(program: str) -> str:
    """Return what a program writes."""
    return subprocess.run(["./" + program], check=True, capture_output=True, text=True).stdout.strip()


def linked(*objects: str) -> str:
    """Return what a program of these objects writes."""
    subprocess.run(["gcc", *objects, "-o", "program"], check=True)
    return says("program")


COMMANDS = [
    (["gcc", "-c", "a.c", "-o", "x.o"], "x.o"), (["gcc", "-c", "a.c"], "a.o"),
    (["gcc", "-O2", "-g3", "-C", "-c", "a.c"], "a.o"),
    (["gcc", "-x", "c", "-c", "a.c", "-ox.o"], "x.o"), (["gcc", "@words"], "r.o"), (["gcc", "-c", "m.c", "a.c"], "a.o"),
    (["clang", "-c", "a.c"], "a.o"), (["gcc", "-S", "a.c"], "a.s"), (["env", "gcc", "-c", "./a.c"], "a.o"),
    (["gcc", "-save-temps", "-c", "a.c"], "a.o"), (["gcc", "-Wall", "-Wp,-MMD,a.d", "-MT", "t", "-c", "a.c"], "a.o"),
    (["gcc", "-D", "OWN2", "-include", "own.h", "-std=c99", "-O2", "-D_FORTIFY_SOURCE=2", "-c", "a.c"], "a.o"),
]


@pytest.mark.parametrize("words, made", COMMANDS)
def test_compiles_what_was_restructured(words: list[str], made: str) -> None:
    Path("words").write_text("-c a.c -o r.o")
    assert compiler.stand_in(words, OPTIONS) == 0
    assert linked("m.c", made) == "result"
    assert "a.c: 1 functions with goto, 1 restructured" in Path("log").read_text()


def test_links_in_one_go() -> None:
    assert compiler.stand_in(["gcc", "m.c", "a.c", "-o", "p"], OPTIONS) == 0
    assert says("p") == "result"


@pytest.mark.parametrize("words", [
    ["-MMD", "-c", "a.c", "-o", "x.o"], ["-MD", "-MP", "-c", "a.c"], ["-MMD", "m.c", "a.c"],
    ["-MD", "-MF", "d.d", "-MT", "there", "-c", "a.c"], ["-Wp,-MD,y.d", "-c", "a.c"]])
def test_dependency_files(folder: Path, words: list[str]) -> None:
    assert subprocess.run(["gcc", *words], check=False).returncode == 0
    before = {path.name: path.read_text() for path in folder.glob("*.d")}
    for path in folder.glob("*.d"):
        path.unlink()
    assert compiler.stand_in(["gcc", *words], OPTIONS) == 0
    assert before and before == {path.name: path.read_text() for path in folder.glob("*.d")}


@pytest.mark.parametrize("words, status", [
    (["gcc", "-E", "a.c"], 0), (["gcc", "--version"], 0), (["gcc", "-M", "a.c"], 0), (["gcc", "-c", "m.c"], 0),
    (["gcc", "-c", "none.c"], 1), (["gcc", "-c", "conftest.c"], 0), (["gcc", "a.c", "-o", "p"], 1), (["gcc"], 1),
    (["no-such-compiler", "-c", "a.c"], 127), (["gcc", "-c", "wrong.c"], 1),
    (["gcc", "-Werror", "-Wall", "-c", "a.c"], 1),
])
def test_handed_on(words: list[str], status: int, capfd: pytest.CaptureFixture[str]) -> None:
    Path("conftest.c").write_text(WITH_GOTO)
    Path("wrong.c").write_text(WITH_GOTO + "int x = y;")
    assert compiler.stand_in(words, OPTIONS) == status
    assert not Path("log").exists()
    shown = capfd.readouterr()
    if status != 127:
        plain = subprocess.run(words, check=False, capture_output=True, text=True)
        names = re.compile(r"/tmp/\w+")  # of temporary objects
        assert (plain.returncode, plain.stdout) == (status, shown.out)
        assert names.sub("", shown.err) == names.sub("", plain.stderr)


def test_warnings_once(capfd: pytest.CaptureFixture[str]) -> None:
    assert compiler.stand_in(["gcc", "-Wall", "-c", "a.c"], OPTIONS) == 0
    assert capfd.readouterr().err.count("unused variable") == 1


@pytest.mark.parametrize("word, why", [
    ("unreadable", "Unreadable"), ("broken", "didn't compile"), ("other", "none restructured")])
def test_compiled_as_it_is(word: str, why: str) -> None:
    Path("a.c").write_text(WITH_GOTO.replace("source", word))
    assert compiler.stand_in(["gcc", "-c", "a.c"], OPTIONS) == 0
    assert linked("m.c", "a.o") == word
    log = Path("log").read_text()
    assert log.startswith("a.c: compiled as it is: ") and why in log and log.count("\n") == 1


def test_commands() -> None:
    command = read_command("gcc -Ix -I y -x c q -x none a.c -c -o a.c.o b.o -lm -Wl,-z -MF d -include own.h".split())
    assert [source.path.name for source in command.sources] == ["a.c"] and command.compiles
    assert command.preprocessing() == ["-Ix", "-I", "y", "-include", "own.h"]
    new = command.compiling({command.sources[0]: Path("new.i")})
    assert new == "-Ix -I y -x c q -x none -x cpp-output new.i -x none -c -o a.c.o b.o -lm -Wl,-z".split()
    command = read_command("gcc -x c a.c -x none m.c".split())
    assert command.sources == [Source(Path("a.c"), "c"), Source(Path("m.c"), "")]
    assert not read_command(["gcc", "-x", "c++", "-c", "a.c"]).compiles


def test_markers() -> None:
    text = ('# 1 "a.c"\nint x;\nint f(void)\n{\n# 7 "a.c"\n  goto l;\n# 9 "b.h" 1\n  char *s = "}";\n# 8 "a.c" 2\nl:\n'
            '  return 1; } int y;\nint g(void)\n{\n# 20 "a.c"\n}\n')
    prepared = prepare(text)
    assert prepared.has_goto and prepared.text == (
        '# 1 "a.c"\nint x;\nint f(void)\n{\n\n  goto l;\n\n  char *s = "}";\n\nl:\n  return 1; }\n# 9 "a.c"\n int y;\n'
        'int g(void)\n{\n# 20 "a.c"\n}\n')
    header = ('# 1 "s.h" 1 3 4\nextern __inline int q(int a)\n{ goto x; x: return a; }\nstruct p { int i; };\n'
              '# 2 "a.c" 2\n')
    prepared = prepare(header + "int z;\n")
    assert not prepared.has_goto and "goto x" not in prepared.text and "struct p { int i; };" in prepared.text
    assert prepared.whole(prepared.text).replace('\n# 2 "s.h" 3 4\n', "") == header + "int z;\n"
