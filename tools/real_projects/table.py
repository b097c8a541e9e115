"""The table of what was seen, as text."""
from __future__ import annotations

import re
from collections import Counter
from collections.abc import Sequence

from .programs import Programs
from .projects import Outcome
from .restructurer import Count

HEAD = ('project', 'files', 'as they stand', 'with --configured', 'preprocessed', "in the compiler's place",
        'tests before', 'tests after', 'tests after --configured')


def of(count: Count) -> str:
    """The restructured functions of all with goto."""
    return f'{count.restructured} of {count.functions}' if count.functions else '-'


def tests(outcome: Outcome, stage: str) -> str:
    """The tests that passed at a stage, and those that failed where there are any."""
    if stage not in outcome.tests:
        return '-'
    passed, failed = outcome.tests[stage]
    return f'{passed} of {passed + failed}'


def row(outcome: Outcome) -> tuple[str, ...]:
    """The row of one project."""
    return (outcome.name, str(outcome.files), of(outcome.as_it_stands), of(outcome.configured),
            of(outcome.preprocessed), of(outcome.compiled),
            *(tests(outcome, stage) for stage in ('before', 'after', 'configured')))


def reasons(counts: Sequence[Count]) -> list[str]:
    """Each reason with its number, the most frequent first; names in quotes are left out."""
    found = Counter(re.sub(r"'[^']*'", "'..'", why) for count in counts for _, why in count.left)
    return [f'{number:4} {why}' for why, number in found.most_common()]


def table(outcomes: Sequence[Outcome], programs: Sequence[Programs]) -> str:
    """All that was seen: a row for each project, a line for each set of programs, the reasons and the faults."""
    lines = []
    if outcomes:
        total = Outcome('together', sum(it.files for it in outcomes))
        for it in outcomes:
            total.as_it_stands.add(it.as_it_stands)
            total.configured.add(it.configured)
            total.preprocessed.add(it.preprocessed)
            total.compiled.add(it.compiled)
        rows = [HEAD, tuple('---' for _ in HEAD), *map(row, outcomes), row(total)]
        lines += [f'| {" | ".join(cells)} |' for cells in rows]
    for them in programs:
        seen = '; '.join(f'{number} {what}' for what, number in sorted(them.seen.items(), key=lambda it: -it[1]))
        lines += ['', f'{them.name}: {sum(them.seen.values())} programs with goto: {seen}; '
                      f'{of(them.count)} functions restructured']
    counts = {'as they stand': [it.as_it_stands for it in outcomes],
              'with --configured': [it.configured for it in outcomes],
              'preprocessed': [it.preprocessed for it in outcomes],
              "in the compiler's place": [it.compiled for it in outcomes],
              **{them.name: [them.count] for them in programs}}
    for what, them_all in counts.items():
        found = reasons(them_all)
        lines += ['', f'left, {what}:', *found] if found else []
    faults = [f'{it.name}: {fault}' for it in outcomes for fault in faults_of(it)]
    faults += [f'{them.name}: {fault}' for them in programs for fault in them.faults]
    return '\n'.join([*lines, '', f'{len(faults)} faults', *faults, ''])


def faults_of(it: Outcome) -> list[str]:
    """The faults of a project, with those of the calls of regoto-c."""
    return [*it.faults, *it.as_it_stands.faults, *it.configured.faults, *it.preprocessed.faults]
