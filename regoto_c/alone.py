"""One file by one process: prepare, cut, restructure, put back, compare."""

from __future__ import annotations

from typing import Callable, Sequence

from .core import CORE_NAMES, Core, answers_of
from .edits import Edit, edited
from .finishing import look_ahead, put_back, tell
from .jobs import Job, give_names, jobs_of, prepare
from .messages import Refused, Unreadable
from .options import Options, Outcome, Trail
from .reading import SourceFile, read, read_again

_LEVELS = 4
_TOO_MANY = "too tangled: {} gotos and {} labels, where about {} and {} may be"
_MOST = (130, 65)


def restructured(source: SourceFile, options: Options) -> Outcome:
    """Restructure a file.

    Raises `Fault` where the result isn't what was proved.
    """
    jobs = jobs_of(source, options)
    outcome = Outcome(source.path, source.text, found=len(jobs), names=[job.function.name for job in jobs])
    if not jobs:
        return outcome
    file = _prepare(source, jobs, options, outcome.trail)
    _restructure(file, jobs, options, outcome.trail)
    for level in range(_LEVELS):
        file = _do_in_levels(source, file, jobs, options, outcome.trail, level)
    edits = put_back(source, file, [job for job in jobs if job.refusal is None])
    outcome.text = edited(source.text, edits)
    tell(outcome, source, jobs, options.configured)
    return outcome


def _prepare(source: SourceFile, jobs: list[Job], options: Options, trail: Trail) -> SourceFile:
    file = prepare(source, jobs, options, trail)
    give_names(jobs, file.all_words())
    return file


def _restructure(file: SourceFile, jobs: list[Job], options: Options, trail: Trail) -> None:
    """Hand all skeletons to the core."""
    cut = [job for job in jobs if job.cutter is not None and job.refusal is None]
    reserved = {word for word in file.all_words() if word.startswith(CORE_NAMES)}
    skeletons = [job.skeleton(reserved) for job in cut]
    core = Core(options.core, options.tidy, options.reports, lambda: look_ahead(cut))
    for job, answer in zip(cut, answers_of(core, skeletons)):
        job.answer = answer
        if answer.refusal:
            assert job.cutter is not None
            why = _TOO_MANY.format(job.cutter.syntax.gotos, len(job.cutter.labels), *_MOST)
            job.leave(Refused(job.function.name_offset, why), trail)


def _do_in_levels(
    source: SourceFile, file: SourceFile, jobs: list[Job], options: Options, trail: Trail, level: int
) -> SourceFile:
    """Do parts of the functions that the core refuses by themselves, and call it again for these functions.

    Return the file in which that is done.
    """
    tangled = [job for job in jobs if job.answer is not None and job.answer.refusal]
    if not tangled:
        return file
    from . import levels  # slow to load

    edits: list[Edit] = []
    for job in tangled:
        job.refusal = job.answer = job.cutter = None
        try:
            found = levels.reduced(file, job.function, _parts_of(file, options), level)
            if not found:
                why = levels.too_many(source, source.functions[job.number])
                raise Refused(job.function.name_offset, why)
            edits += found
        except Refused as refused:
            job.leave(refused, trail)
    left = [job for job in tangled if job.refusal is None]
    if left:
        trail.append((file.text, edits))
        file = read_again(file, edits, [job.number for job in left])
        for job in left:
            job.function = file.functions[job.number]
        file = _prepare(file, left, options, trail)
        _restructure(file, left, options, trail)
    return file


def _parts_of(file: SourceFile, options: Options) -> Callable[[str, Sequence[str]], str]:
    """Return what restructures some functions of a text in the place of the file's."""
    def parts(text: str, names: Sequence[str]) -> str:
        chosen = Options(options.core, frozenset(names), options.configured, options.tidy)
        try:
            return restructured(read(file.path, text, file.flags), chosen).text
        except Unreadable as unreadable:
            place = unreadable.messages[0]
            raise Refused(0, f"a part of the function can't be read by itself: {place.text}") from None

    return parts
