"""The work on one file of the command line, in a process of its own if that is asked for."""

from __future__ import annotations

import gc
import sys

from .flags import for_libclang
from .messages import Fault, Message, Unreadable
from .options import Outcome
from .restructuring import restructured
from .results import DONE, FAULT, LEFT, UNREADABLE, Request, Result

_BETWEEN_COLLECTIONS = 1_000_000
_DEEPEST = 20_000


def carry_out(request: Request) -> Result:
    """Restructure a file; whatever goes wrong is in the result."""
    gc.set_threshold(_BETWEEN_COLLECTIONS)
    sys.setrecursionlimit(_DEEPEST)
    result = Result(request.path)
    try:
        result.source = request.path.read_bytes().decode("latin-1")
        outcome = _outcome(request, result.source)
    except OSError as why:
        result.status = UNREADABLE
        result.messages.append(Message(request.path, 1, 1, "error", why.strerror or str(why)))
        return result
    except Unreadable as unreadable:
        result.status = UNREADABLE
        result.messages += unreadable.messages
        return result
    except Fault as fault:
        result.status = FAULT
        text = f"this is a fault of regoto-c, and nothing is written: {fault}"
        result.messages.append(Message(request.path, 1, 1, "error", text))
        return result
    result.text, result.messages, result.notes = outcome.text, outcome.messages, outcome.notes
    result.found, result.done, result.names = outcome.found, outcome.done, outcome.names
    result.report = outcome.report
    result.status = DONE if outcome.done == outcome.found else LEFT
    return result


def _outcome(request: Request, source: str) -> Outcome:
    """Restructure a file; a preprocessed one is prepared, and made whole again.

    Raises what `restructured` raises.
    """
    if request.path.suffix != ".i":
        return restructured(request.path, source, request.flags, request.options)
    from .line_markers import prepare  # which plain files don't need

    prepared = prepare(source)
    flags = ["-x", "c", *for_libclang(source), *request.flags]
    outcome = restructured(request.path, prepared.text, flags, request.options)
    outcome.text = prepared.whole(outcome.text)
    outcome.messages = [prepared.place(source, message) for message in outcome.messages]
    outcome.notes = [prepared.place(source, note) for note in outcome.notes]
    return outcome
