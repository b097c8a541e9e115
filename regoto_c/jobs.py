"""Functions on their way: which of a file are to be restructured, and how each is made ready and cut."""

from __future__ import annotations

from typing import TYPE_CHECKING, Iterable

from . import libclang, syntax
from .core import Answer, Skeleton, skeleton_of
from .cutting import Cutter
from .edits import Edit, unedited
from .forms import Items
from .ground import NeedsExpansion
from .layout import Renderer
from .messages import Refused
from .names import Names, new_names
from .options import Options, Trail
from .plain_macros import macros_named, may_bear
from .reading import Function, Invocation, SourceFile, read_again
from .records import dataclass, field
from .units import has_directives

if TYPE_CHECKING:
    from .comparing import Known
    from .directives import Resolution

_ROUNDS = 20
_GOTOS = (syntax.GOTO, syntax.INDIRECT_GOTO)
_WRITTEN = "if else while do for switch case default break continue return int long unsigned sizeof".split()


@dataclass
class Job:
    """One function on its way; `number` counts the functions of the file, `round` the times that it was cut before.

    `items` are those that were cut, `known` is what comparing knows of them, `result` are those that the core wrote.
    `resolved` has what is to be said of groups of directives that were resolved, each with its place in the source.
    `guarded_late` says that it was given a variable in another round than the first, whose name depends on what other
    functions were given.
    """

    number: int
    function: Function
    cutter: Cutter | None = None
    items: Items = field(default_factory=list)
    names: Names | None = None
    renderer: Renderer | None = None
    refusal: Refused | None = None
    answer: Answer | None = None
    known: Known | None = None
    result: Items = field(default_factory=list)
    place: int = 0
    round: int = 0
    guarded_late: bool = False
    resolved: list[tuple[int, str]] = field(default_factory=list)

    def leave(self, refused: Refused, trail: Trail) -> None:
        """Leave the function as it is.

        `trail` has the texts and the edits by which the text was made in which the reason stands.
        """
        self.refusal = refused
        is_inside = self.function.start <= refused.offset < self.function.end
        self.place = _in_source(refused.offset if is_inside else self.function.name_offset, trail)

    def resolve(self, resolutions: list[Resolution], trail: Trail) -> list[Edit]:
        """Return the edits that resolve groups of directives, and keep what is to be said of them."""
        self.resolved += [(_in_source(one.start, trail), one.note) for one in resolutions]
        return list(resolutions)

    def skeleton(self, reserved: set[str]) -> Skeleton:
        """Return what the core gets of the function."""
        assert self.cutter is not None
        cutter = self.cutter
        return skeleton_of(f"f{self.number}", self.items, cutter.pieces, cutter.returns_values, reserved)


def _in_source(offset: int, trail: Trail) -> int:
    """Return where an offset lies in the source, of which `trail` made the text."""
    for text, edits in reversed(trail):
        offset = unedited(text, edits, offset)
    return offset


def jobs_of(source: SourceFile, options: Options) -> list[Job]:
    """Return the functions with a goto that are asked for; some may be left at once."""
    jobs = []
    for number in source.jumping:
        function = source.functions[number]
        if options.functions and function.name not in options.functions:
            continue
        has_goto = libclang.holds(function.compound, _GOTOS)
        assembler = None if has_goto else _assembler_with_goto(source, function)
        if has_goto or assembler is not None:
            jobs.append(Job(number, function))
        if assembler is not None:
            jobs[-1].leave(Refused(assembler, "an asm goto"), [])
        elif has_goto and not function.is_written:
            jobs[-1].leave(Refused(function.name_offset, "its body stands in a macro"), [])
        elif has_goto and (words := [word for word in _WRITTEN if word in source.macros]):
            jobs[-1].leave(Refused(function.name_offset, f"the word {words[0]} is a macro"), [])
    return jobs


def _assembler_with_goto(source: SourceFile, function: Function) -> int | None:
    """Return where assembler in a function jumps to labels, which libclang doesn't show, or None."""
    if not libclang.holds(function.compound, (syntax.ASM,)):
        return None
    tokens = source.tokens
    for at in range(tokens.first_from(function.body), tokens.first_from(function.end) - 1):
        if (tokens.spellings[at], tokens.spellings[at + 1]) == ("goto", "("):
            return tokens.offsets[at]
    return None


def prepare(file: SourceFile, jobs: list[Job], options: Options, trail: Trail) -> SourceFile:
    """Cut each function, in a copy of the file in which macros that hide jumps are expanded; return that copy.

    The new names of variables are asked for then, see `give_names`.
    """
    for number in range(_ROUNDS):
        edits: list[Edit] = []
        wanted: list[_Wanted] = []
        for job in jobs:
            if job.refusal is None and job.cutter is None:
                job.round = number
                edits += _cut(file, job, options, trail, wanted)
        while wanted:
            edits += _expanded(file, options, wanted, trail)
        if not edits:
            return file
        trail.append((file.text, edits))
        file = read_again(file, edits, [job.number for job in jobs if job.refusal is None])
        for job in jobs:  # those that were cut stay so, in the file in which they were
            job.function = file.functions[job.number]
    for job in jobs:
        if job.cutter is None and job.refusal is None:
            job.leave(Refused(job.function.body, "macros in macros without an end"), trail)
    return file


def give_names(jobs: Iterable[Job], words: set[str]) -> None:
    """Choose the new names that the functions ask for, those of the last round alone; `words` are taken."""
    asking = list(jobs)
    last = max((job.round for job in asking), default=0)
    for job in asking:
        if job.names is not None and (job.refusal is None or job.round == last):
            job.names.take(new_names(job.names.asked, words))


@dataclass
class _Wanted:
    """Invocations that are to be expanded in a function; at `offset` one stands that can't stay, if that is known."""

    job: Job
    invocations: list[Invocation]
    offset: int | None


def _cut(file: SourceFile, job: Job, options: Options, trail: Trail, wanted: list[_Wanted]) -> list[Edit]:
    """Cut one function; return the edits without which that can't be done, or add expansions to those `wanted`."""
    job.names = None
    try:
        if options.configured:
            from . import directives  # slow to load

            if resolutions := directives.resolved(file, job.function):
                return job.resolve(resolutions, trail)
        if may_bear(file, job.function, macros_named(file, job.function)):
            from . import macros  # slow to load

            if bearing := macros.bearing(file, job.function):
                wanted.append(_Wanted(job, bearing, None))
                return []
    except Refused as refused:
        job.leave(refused, trail)
        return []
    return _cut_whole(file, job, options, trail, wanted)


def _cut_whole(file: SourceFile, job: Job, options: Options, trail: Trail, wanted: list[_Wanted]) -> list[Edit]:
    """Do that with a function whose macros don't stand in the way, as far as one can tell before."""
    try:
        if has_directives(file, job.function):
            from . import guarding  # slow to load

            edits = guarding.guarded(file, job.function)
            job.guarded_late = job.guarded_late or bool(edits) and job.round > 0
            if edits:
                return edits
        cutter = Cutter(file, job.function)
        job.items = cutter.cut()
        job.names = Names(cutter)
        job.names.decide()
        job.cutter = cutter
    except NeedsExpansion as need:
        found = {each.start: each for each in map(file.invocation_at, need.offsets) if each is not None}
        wanted.append(_Wanted(job, list(found.values()), need.offsets[0]))
    except Refused as refused:
        return _resolved_or_left(file, job, refused, options, trail)
    return []


def _resolved_or_left(file: SourceFile, job: Job, refused: Refused, options: Options, trail: Trail) -> list[Edit]:
    """Return the edits that resolve a group which is the reason, if that is asked for; else leave the function."""
    if options.configured and refused.named_at is not None:
        from . import directives  # slow to load

        try:
            if resolutions := directives.resolved(file, job.function, refused.named_at):
                return job.resolve(resolutions, trail)
        except Refused as other:
            refused = other
    job.leave(refused, trail)
    return []


def _expanded(file: SourceFile, options: Options, wanted: list[_Wanted], trail: Trail) -> list[Edit]:
    """Return the edits that expand what is wanted, all at once; what is wanted then is left in `wanted`."""
    from . import macros  # slow to load

    asked = [(one.job.function, one.invocations) for one in wanted]
    made = macros.expanded_functions(file, asked)
    if all(isinstance(one, Refused) for one in made):  # for one of them, perhaps
        made = [macros.expanded_functions(file, [one])[0] for one in asked]
    taken = list(wanted)
    wanted.clear()
    edits: list[Edit] = []
    for one, result in zip(taken, made):
        if isinstance(result, Refused):
            one.job.leave(result, trail)
        elif result:
            edits += result
        elif one.offset is None:
            edits += _cut_whole(file, one.job, options, trail, wanted)
        else:
            why = f"the macro {one.invocations[0].name} holds a part of what has to be taken apart"
            one.job.leave(Refused(one.offset, why), trail)
    return edits
