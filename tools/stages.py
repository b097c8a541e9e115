"""The crates of this repository, what each stands on, and their stages (docs/ARCHITECTURE.md, Stages)."""
from __future__ import annotations

import itertools
import os
import re

TOP = os.path.dirname(os.path.dirname(os.path.realpath(__file__)))


def text_of(name: str) -> str:
    """The text of a file of the repository."""
    with open(f"{TOP}/{name}", encoding="utf-8") as it:
        return it.read()


def crates() -> dict[str, list[str]]:
    """What each crate of crates.txt stands on, in the order of that file; crates of the kit are left out."""
    heads = [line.split("#")[0].partition(":") for line in text_of("crates.txt").split("\n")]
    listed = {name.split()[0]: below.split() for name, _, below in heads if name.strip()}
    return {name: [it for it in below if it in listed] for name, below in listed.items()}


def stand_on(held: dict[str, list[str]]) -> dict[str, list[str]]:
    """The other stages of which the crates of each stage name a crate, in the order of the table."""
    stage = {crate: name for name, names in held.items() for crate in names}
    below = crates()
    found = {name: {stage[it] for crate in names for it in below[crate] if it in stage} for name, names in held.items()}
    return {name: [it for it in held if it in found[name] and it != name] for name in held}


def said_of(crate: str) -> str:
    """The first sentence of the comment at the head of a crate's root file; empty where there is none."""
    root = next(it for it in (f"crates/{crate}/src/lib.rt", f"crates/{crate}/src/main.rt") if os.path.exists(f"{TOP}/{it}"))
    head = itertools.takewhile(lambda line: re.match(r"//! *\S", line), text_of(root).split("\n"))
    return re.split(r"(?<=\.) ", " ".join(line[3:].strip() for line in head))[0]


def table_of_crates() -> str:
    """The table of what each crate holds, stage by stage; in a stage in the order of crates.txt."""
    rows = (f"| {stage if it == names[0] else ''} | {it} | {said_of(it)} |"
            for stage, names in stages().items() for it in names)
    return "\n".join(["| stage | crate | what it holds |", "|---|---|---|", *rows])


def stages() -> dict[str, list[str]]:
    """The crates of each stage, lowest first, in the order of the table of stages."""
    order = list(crates())
    table = re.findall(r"^\| \*\*(.+?)\*\* \| (.*?) \|", text_of("docs/ARCHITECTURE.md"), re.M)
    named = {stage: set(re.findall(r"\w+", re.sub(r"\(.*?\)", "", cell))) for stage, cell in table}
    return {stage: [it for it in order if it in names] for stage, names in named.items()}
