"""The words of a compiler's command: its program, its C files, and which options belong to which step."""

from __future__ import annotations

import shlex
from dataclasses import dataclass, field
from pathlib import Path
from typing import Callable, Sequence

WRAPPERS = frozenset({"ccache", "distcc", "sccache", "icecc", "env", "nice"})
# Options whose argument is the next word.
WITH_NEXT = frozenset("""-o -I -D -U -L -l -T -u -z -e -A -G -B -x -include -imacros -idirafter -iprefix -iwithprefix
-iwithprefixbefore -isystem -iquote -isysroot -imultilib -MF -MT -MQ -Xpreprocessor -Xlinker -Xassembler -Xclang -target
-arch --param -aux-info -wrapper -dumpbase -dumpbase-ext -dumpdir -framework --sysroot -mllvm -rpath -soname
-specs""".split())
# Options with which no C file is compiled, or is compiled in a way that is left to the compiler.
OTHER_MODES = frozenset("-E -M -MM -fsyntax-only -### --version -dumpmachine -dumpversion -fpreprocessed "
                        "-traditional-cpp -fdirectives-only --help -v".split())
OF_DEPENDENCIES = ("-MD", "-MMD", "-MP", "-MG", "-MF", "-MT", "-MQ", "-Wp,-M")
OF_OUTPUT = ("-o", "-g", "-d", "-pipe", "-save-temps", "--save-temps", "-Wl,", "-l")
# Options that decide how libclang reads what is preprocessed.
OF_LANGUAGE = ("-std=", "-ansi", "-m32", "-m64", "-mx32", "-funsigned-char", "-fsigned-char", "-fshort-enums",
               "-fshort-wchar", "-fms-extensions", "-fplan9-extensions", "-fgnu89-inline", "-fdollars-in-identifiers",
               "--target=", "-target", "-U")


@dataclass(frozen=True)
class Source:
    """A C file of a command, with the language that an `-x` before it gives ('' if none does)."""

    path: Path
    language: str


@dataclass
class Command:
    """A compiler's command, with response files taken apart.

    `program` are its first words; `parts` are, in order, C files, other inputs (a list of one word), and options with
    their arguments.
    """

    program: list[str]
    parts: list[Source | list[str]] = field(default_factory=list)

    @property
    def sources(self) -> list[Source]:
        """Its C files."""
        return [part for part in self.parts if isinstance(part, Source)]

    @property
    def compiles(self) -> bool:
        """Whether it compiles C files."""
        modes = (part[0] for part in self.parts if isinstance(part, list))
        return bool(self.sources) and not any(mode in OTHER_MODES or mode.startswith("-print-") for mode in modes)

    def options(self, wanted: Callable[[str], bool]) -> list[str]:
        """Return the options whose first word is wanted, with their arguments."""
        chosen = [part for part in self.parts if isinstance(part, list) and part[0].startswith("-")]
        return [word for part in chosen if part[0] != "-x" and wanted(part[0]) for word in part]

    def preprocessing(self) -> list[str]:
        """Return the options with which a file is preprocessed by itself."""
        dropped = (*OF_DEPENDENCIES, *OF_OUTPUT)
        return self.options(lambda word: word not in ("-c", "-S", "-C", "-CC", "-P") and not word.startswith(dropped))

    def reading(self) -> list[str]:
        """Return the options with which libclang reads what is preprocessed."""
        return self.options(lambda word: word.startswith(OF_LANGUAGE))

    def compiling(self, replaced: dict[Source, Path]) -> list[str]:
        """Return the words, without the program, that compile preprocessed files in the place of sources."""
        words: list[str] = []
        for part in self.parts:
            if isinstance(part, Source) and part in replaced:
                words += ["-x", "cpp-output", str(replaced[part]), "-x", part.language or "none"]
            elif isinstance(part, Source):
                words.append(str(part.path))
            elif part[0] not in ("-include", "-imacros") and not part[0].startswith((*OF_DEPENDENCIES, "-Wp,")):
                words += part
        return words


def read_command(words: Sequence[str]) -> Command:
    """Take the words of a compiler's command apart.

    Raises OSError or ValueError where a response file can't be read.
    """
    count = 1
    while count < len(words) and Path(words[count - 1]).name in WRAPPERS:
        count += 1
    command = Command(list(words[:count]))
    rest, language = _with_responses(words[count:]), ""
    while rest:
        word = rest.pop(0)
        part = [word]
        if word in WITH_NEXT and rest:
            part.append(rest.pop(0))
        if word == "-x" or word.startswith("-x") and len(word) > 2:
            language = part[-1] if word == "-x" else word[2:]
            language = "" if language == "none" else language
        is_input = not word.startswith("-") or word == "-"
        named = language in ("c", "cpp-output") or not language and word.endswith((".c", ".i"))
        if is_input and named and Path(word).is_file():
            command.parts.append(Source(Path(word), language))
        else:
            command.parts.append(part)
    return command


def _with_responses(words: Sequence[str]) -> list[str]:
    """Return the words with those of response files in the place of `@FILE`."""
    found: list[str] = []
    for word in words:
        if word.startswith("@") and Path(word[1:]).is_file():
            found += _with_responses(shlex.split(Path(word[1:]).read_text("latin-1")))
        else:
            found.append(word)
    return found
