"""One file by several processes: each cuts some functions, puts them back and compares them.

The core is called once, and what comes out is what one process makes. Wherever anything isn't as usual, the file is
left to one process, which says what is wrong.
"""

from __future__ import annotations

from typing import Any

from .core import CORE_NAMES, Answer, Core, Skeleton, answers_of
from .edits import Edit, edited
from .finishing import look_ahead, put_back, tell
from .jobs import Job, jobs_of, prepare
from .lexing import words_of
from .messages import Refused
from .names import new_names
from .options import Options, Outcome, Trail
from .plain_macros import may_bear
from .processes import Helper, Line, Lost
from .reading import Function, SourceFile

_FEWEST = 8  # functions with goto
# how many bytes' work the first process has besides, and the one that expands macros
_OWN, _EXPANSION = 2_000, 20_000


class Part:
    """Some functions of a file, and what is done with them by one process."""

    def __init__(self, source: SourceFile, jobs: list[Job], options: Options) -> None:
        self.source, self.jobs, self.options = source, jobs, options
        self.file = source
        self.trail: Trail = []

    def cut(self) -> dict[str, Any]:
        """Cut the functions; return what the others have to know of them."""
        self.source.look_at(job.function for job in self.jobs)
        self.file = prepare(self.source, self.jobs, self.options, self.trail)
        if any(job.guarded_late for job in self.jobs):
            raise Lost  # the name of its variable depends on the other functions
        texts = []
        if self.trail:
            for job in self.jobs:
                before, now = self.source.functions[job.number], self.file.functions[job.number]
                texts.append((before.start, before.end, self.file.text[now.start:now.end]))
        return {"jobs": [_told(job) for job in self.jobs], "texts": texts}

    def look_ahead(self) -> None:
        """Do what doesn't need the core's answer."""
        look_ahead([job for job in self.jobs if job.refusal is None])

    def finish(self, given: dict[int, tuple[list[str], str]]) -> list[tuple[int, int, str]]:
        """Put the functions back and compare them; `given` has the new names and the core's text for each."""
        for job in self.jobs:
            if job.refusal is None:
                assert job.names is not None
                names, text = given[job.number]
                job.names.take(names)
                job.answer = job.answer or Answer(text)
        edits = put_back(self.source, self.file, [job for job in self.jobs if job.refusal is None])
        return [(edit.start, edit.end, edit.text) for edit in edits]

    def work(self, line: Line) -> None:
        """Do that in a process of its own."""
        line.say(self.cut())
        self.look_ahead()
        line.say(self.finish(line.hear()))


def _told(job: Job) -> tuple[Any, ...]:
    """Return what is to be known of a function.

    That are its number, its refusal, its round, the names it asks for, what was resolved, and its skeleton.
    """
    refusal, asked = job.refusal, job.names.asked if job.names else []
    if refusal is not None:
        return job.number, (refusal.offset, refusal.why, refusal.in_group, job.place), job.round, asked, [], [], []
    skeleton = job.skeleton(set())
    return job.number, None, job.round, asked, job.resolved, skeleton.lines, skeleton.prototypes


def restructured(source: SourceFile, options: Options, helpers: list[Helper]) -> Outcome | None:
    """Let several processes, which are added to `helpers`, do the functions; None where one has to do it."""
    jobs = jobs_of(source, options)
    outcome = Outcome(source.path, source.text, found=len(jobs), names=[job.function.name for job in jobs])
    open_jobs = [job for job in jobs if job.refusal is None]
    if len(open_jobs) < _FEWEST:
        return None
    parts = [Part(source, some, options) for some in _shares(source, open_jobs, options.jobs)]
    others = [Helper(part.work) for part in parts[1:]]
    helpers += others
    told = [parts[0].cut()]
    if _jumps_by_macros(source):  # to know all words takes a while, as the others do
        return None
    told += [other.hear() for other in others]
    given = _answered(source, jobs, Core(options.core, options.tidy, options.reports, parts[0].look_ahead), told)
    if given is None:
        return None
    for other, part in zip(others, parts[1:]):
        other.say({job.number: given[job.number] for job in part.jobs if job.number in given})
    edits = [Edit(*one) for one in parts[0].finish(given)]
    edits += [Edit(*one) for other in others for one in other.hear()]
    outcome.text = edited(source.text, edits)
    tell(outcome, source, jobs, options.configured)
    return outcome


def _shares(source: SourceFile, jobs: list[Job], count: int) -> list[list[Job]]:
    """Share functions out so that each process has about as much work, and one all that need a preprocessor."""
    shares: list[list[Job]] = [[] for _ in range(count)]
    sizes = [_OWN, *[0] * (count - 1)]
    hard = {job.number for job in jobs if _may_be_hard(source, job.function)}
    if hard:
        shares[-1] = [job for job in jobs if job.number in hard]
        sizes[-1] = _EXPANSION + sum(job.function.end - job.function.body for job in shares[-1])
    easy = [job for job in jobs if job.number not in hard]
    for job in sorted(easy, key=lambda job: job.function.body - job.function.end):
        least = sizes.index(min(sizes))
        shares[least].append(job)
        sizes[least] += job.function.end - job.function.body
    return [sorted(share, key=lambda job: job.number) for share in shares if share]


def _may_be_hard(source: SourceFile, function: Function) -> bool:
    """Return whether a function may have directives or macros for which a preprocessor is called; looks at no token."""
    named = source.words_in(function) & source.macros.keys()
    return source.text.find("#", function.body, function.end) >= 0 or may_bear(source, function, named)


def _jumps_by_macros(source: SourceFile) -> bool:
    """Return whether a macro of a header has a goto, and is named in a body that was left out."""
    if not source.may_hide_gotos():
        return False
    words = set().union(*(words_of(source.text[start:end]) for start, end in source.left_out))
    return "goto" in source.words_behind(words)


def _answered(
    source: SourceFile, jobs: list[Job], core: Core, told: list[dict[str, Any]]
) -> dict[int, tuple[list[str], str]] | None:
    """Return the new names and the core's text for each function; None where the core refuses one."""
    by_number = {job.number: job for job in jobs}
    every = sorted(one for some in told for one in some["jobs"])
    words = _words(source, [Edit(*one) for some in told for one in some["texts"]])
    last = max(turn for _, _, turn, *_ in every)
    names: dict[int, list[str]] = {}
    skeletons: dict[int, Skeleton] = {}
    for number, refusal, turn, asked, resolved, lines, prototypes in every:
        by_number[number].resolved = resolved
        if refusal is None or turn == last:
            names[number] = new_names(asked, words)
        if refusal is None:
            skeletons[number] = Skeleton(f"f{number}", lines, prototypes)
        else:
            offset, why, in_group, by_number[number].place = refusal
            by_number[number].refusal = Refused(offset, why, in_group)
    reserved = {word for word in words if word.startswith(CORE_NAMES)}
    for skeleton in skeletons.values():
        skeleton.reserved = reserved
    answers = answers_of(core, list(skeletons.values()))
    if any(answer.refusal for answer in answers):
        return None
    for number, answer in zip(skeletons, answers):
        by_number[number].answer = answer
    return {number: (names[number], answer.text) for number, answer in zip(skeletons, answers)}


def _words(source: SourceFile, edits: list[Edit]) -> set[str]:
    """Return all names in the file with these edits and in the texts of its macros."""
    if not edits:
        return source.all_words()
    words = words_of(edited(source.text, edits))
    return words | source.words_behind(words) | set(source.macros)
