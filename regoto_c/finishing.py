"""From what the core answered to the text of the functions, to the comparison of that text, and to what is said of it."""

from __future__ import annotations

from .comparing import Known, compare
from .core_text import body_of
from .edits import Edit
from .jobs import Job
from .layout import Layout, Renderer
from .messages import Fault, Message, Unreadable, message_at
from .options import Outcome
from .putting_back import Writer
from .reading import SourceFile, read_again


def look_ahead(jobs: list[Job]) -> None:
    """Find what comparing has to know of functions that were cut, while the core works."""
    for job in jobs:
        assert job.cutter is not None
        job.known = Known(job.cutter, job.items)


def put_back(source: SourceFile, file: SourceFile, done: list[Job]) -> list[Edit]:
    """Return the edits of the source that put the bodies of functions in their places, and compare each with its source.

    `file` is the file in which they were cut. Raises `Fault` where a body isn't what was proved.
    """
    edits = []
    for job in done:
        assert job.cutter is not None and job.names is not None and job.answer is not None
        layout = Layout(job.cutter)
        job.renderer = Renderer(job.cutter, layout, job.names.renames, _copy_function(file))
        job.result = body_of(job.answer.text)
        body = Writer(job.cutter, layout, job.renderer).body(job.result)
        before = source.functions[job.number]
        edits.append(Edit(before.body, before.end, body))
    _compare(source, edits, done)
    return edits


def _compare(source: SourceFile, edits: list[Edit], done: list[Job]) -> None:
    """Read the result, and compare each function that was restructured.

    Raises `Fault` where it isn't what was proved.
    """
    if not done:
        return
    try:
        result = read_again(source, edits, [job.number for job in done])
    except Unreadable as unreadable:
        raise Fault(f"clang doesn't read the result: {unreadable.messages[0]}") from None
    for job in done:
        assert job.known is not None and job.renderer is not None
        compare(result, result.functions[job.number], job.known, job.renderer, job.result)


def _copy_function(file: SourceFile) -> str:
    """Return the name under which bytes are copied: that of the library where the file declares it."""
    return "memcpy" if file.has_memcpy and "memcpy" not in file.macros else "__builtin_memcpy"


def tell(outcome: Outcome, source: SourceFile, jobs: list[Job], configured: bool) -> None:
    """Say what became of each function."""
    done = [job for job in jobs if job.refusal is None]
    outcome.done = len(done)
    for job in jobs:
        if job.refusal is not None:
            outcome.messages.append(_message(source, job, configured))
        else:
            outcome.messages += [message_at(source.path, source.text, place, "note", note) for place, note in job.resolved]
    for job in done:
        assert job.answer is not None
        outcome.report += [f"{job.function.name} {line}" for line in job.answer.report]
        place, name = source.functions[job.number].name_offset, job.function.name
        outcome.notes.append(message_at(source.path, source.text, place, "note", f"{name} could be restructured"))


def _message(source: SourceFile, job: Job, configured: bool) -> Message:
    """Return the warning on a function that is left, at its place in the source."""
    assert job.refusal is not None
    why = f"not restructured: {job.refusal.why}"
    if job.refusal.in_group and not configured:
        why += " (--configured resolves it)"
    return message_at(source.path, source.text, job.place, "warning", why)
