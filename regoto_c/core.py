"""The core: the proved program, called once for all skeletons of a file."""

from __future__ import annotations

import re
from pathlib import Path
from typing import Callable

from .forms import Items, skeleton_lines
from .messages import Fault
from .pieces import Form, Piece
from .records import dataclass, field
from .running import Running

CORE_NAMES = ("goto_", "switch_")  # how its variables begin
_LONGEST = 1_000_000
_OVER_LIMITS = ("11", "39")
_HEAD = re.compile(r"^(?:int|void) (f\d+)\(void\) \{", re.MULTILINE)
_REFUSAL = re.compile(r":(\d+):\d+: error (\d+): (.*)$")


@dataclass
class Skeleton:
    """What the core gets of one function: its lines of C, those that declare its pieces, and names that it may not take."""

    name: str
    lines: list[str]
    prototypes: list[str]
    reserved: set[str] = field(default_factory=set)


def skeleton_of(
    name: str, items: Items, pieces: dict[str, Piece], returns_values: bool, reserved: set[str]
) -> Skeleton:
    """Return the skeleton of a function."""
    kinds = {piece.name: piece.kind for piece in pieces.values() if piece.form is Form.SELECTOR}
    head = f"{'int' if returns_values else 'void'} {name}(void) {{"
    lines = [head, *skeleton_lines(items, kinds), "}"]
    return Skeleton(name, lines, [piece.prototype for piece in pieces.values()], reserved)


@dataclass
class Answer:
    """What the core made of a skeleton: its text, and its lines of the report; or why it refused it."""

    text: str = ""
    report: list[str] = field(default_factory=list)
    refusal: str = ""


@dataclass
class Core:
    """The program, and how it is called; `meanwhile` is done once, while it works."""

    program: Path
    tidy: bool
    reports: bool
    meanwhile: Callable[[], None]


def answers_of(core: Core, skeletons: list[Skeleton]) -> list[Answer]:
    """Return what the core makes of each skeleton; it is called once for as many as one text may hold.

    Raises `Fault` where the core ends otherwise than it should.
    """
    answers: list[Answer] = []
    batch: list[Skeleton] = []
    size = 0
    for skeleton in skeletons:
        length = sum(len(line) + 1 for line in [*skeleton.lines, *skeleton.prototypes])
        if batch and size + length > _LONGEST:
            answers += _answers(core, batch)
            batch, size = [], 0
        batch.append(skeleton)
        size += length
    return answers + (_answers(core, batch) if batch else [])


def _answers(core: Core, skeletons: list[Skeleton]) -> list[Answer]:
    """Call the core, and again without a function that it refuses."""
    answers = {skeleton.name: Answer() for skeleton in skeletons}
    left = list(skeletons)
    while left:
        text, firsts = _text(left)
        result, report, refusal = _call(core, text)
        if refusal is None:
            texts = _functions_in(result)
            for skeleton in left:
                if skeleton.name not in texts:
                    raise Fault(f"the core wrote no {skeleton.name}")
                answers[skeleton.name].text = texts[skeleton.name]
            for line in report.splitlines():
                answers[line.split(" ", 1)[0]].report.append(line.split(" ", 1)[1])
            break
        place, why = refusal
        number = max(number for number, first in enumerate(firsts) if first <= place)
        answers[left.pop(number).name].refusal = why
    return [answers[skeleton.name] for skeleton in skeletons]


def _functions_in(text: str) -> dict[str, str]:
    """Return the text of each function that the core wrote."""
    heads = list(_HEAD.finditer(text))
    ends = [*(head.start() for head in heads[1:]), len(text)]
    return {head.group(1): text[head.start():end] for head, end in zip(heads, ends)}


def _text(skeletons: list[Skeleton]) -> tuple[str, list[int]]:
    """Return the text of all skeletons, and the line on which each begins."""
    reserved = sorted(set().union(*(skeleton.reserved for skeleton in skeletons)))
    lines = [f"enum {{ {', '.join(reserved)} }};"] if reserved else []
    prototypes = {prototype: None for skeleton in skeletons for prototype in skeleton.prototypes}
    lines += prototypes
    firsts = []
    for skeleton in skeletons:
        firsts.append(len(lines) + 1)
        lines += skeleton.lines
    return "\n".join(lines) + "\n", firsts


def _call(core: Core, text: str) -> tuple[str, str, tuple[int, str] | None]:
    """Run the core on a text; return the result and the report, or the line and the reason of a refusal."""
    with Running() as running:
        given, result, moves = running.write("in.c", text), f"{running.folder}/out.c", f"{running.folder}/moves"
        running.begin([str(core.program), "restructure", given, result, *(["--report", moves] if core.reports else [])])
        meanwhile, core.meanwhile = core.meanwhile, _nothing
        meanwhile()
        status, said = running.end(), running.said.strip()
        refusal = _REFUSAL.search(said)
        if status == 1 and refusal and refusal.group(2) in _OVER_LIMITS:
            return "", "", (int(refusal.group(1)), refusal.group(3))
        if status == 0 and core.tidy:
            running.begin([str(core.program), "tidy", result, f"{running.folder}/tidied.c"])
            status, said = running.end(), running.said.strip()
        if status:
            raise Fault(f"the core ended with status {status}: {said}")
        return running.read("tidied.c" if core.tidy else "out.c"), running.read("moves") if core.reports else "", None


def _nothing() -> None:
    pass
