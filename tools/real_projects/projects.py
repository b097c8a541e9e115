"""Projects that are built and tested as they are, then restructured, and built and tested again."""
from __future__ import annotations

import json
import shutil
from dataclasses import dataclass, field
from pathlib import Path

from .commands import LONGEST, Ran, run, say
from .recipes import RECIPES, Recipe
from .restructurer import Count, Restructurer, logged, unread
from .sources import Sources


@dataclass
class Outcome:
    """What came of a project: the figures in four ways, the tests passed and failed at each stage, and faults."""
    name: str
    files: int = 0
    as_it_stands: Count = field(default_factory=Count)
    configured: Count = field(default_factory=Count)
    preprocessed: Count = field(default_factory=Count)
    compiled: Count = field(default_factory=Count)
    tests: dict[str, tuple[int, int]] = field(default_factory=dict)
    faults: list[str] = field(default_factory=list)


class Trial:
    """One project in a folder of its own."""

    def __init__(self, name: str, folder: Path, sources: Sources, restructurer: Restructurer, jobs: int) -> None:
        """Copy the source of the project `name` of RECIPES into a new folder below `folder`. Raises NotFetched."""
        self.recipe: Recipe = RECIPES[name]
        self.outcome = Outcome(name)
        self.source = sources.source(self.recipe.package)
        self.folder = folder / name
        self.restructurer = restructurer
        self.jobs = jobs

    def run(self) -> Outcome:
        """Do the whole trial."""
        tree = self._copy('tree')
        if self._make(tree, 'gcc', 'before', is_recorded=True):
            files = self._files(tree)
            self.outcome.files = len(files)
            self._count_preprocessed(tree)
            if self.recipe.in_compilers_place:
                self._count(tree, files)
                self._in_compilers_place(tree)
            else:
                self._in_place(tree, files, [], 'after', self.outcome.as_it_stands)
                self._in_place(tree, files, ['--configured'], 'configured', self.outcome.configured)
        return self.outcome

    def _copy(self, name: str) -> Path:
        tree = self.folder / name
        shutil.rmtree(tree, ignore_errors=True)
        shutil.copytree(self.source, tree, symlinks=True)
        return tree

    def _shell(self, line: str, tree: Path, compiler: str, recorder: str = '') -> Ran:
        changes = {**self.recipe.environment, 'CC': compiler, 'jobs': str(self.jobs), 'tree': str(tree),
                   'source': str(self.source), 'tools': str(Path(__file__).parent),
                   'REGOTO_LOG': str(self.folder / 'compiler.log')}
        words = ['sh', '-c', line]
        if recorder:
            words = ['bear', '--append', '--output', recorder, '--', *words]
        return run(words, tree / self.recipe.folder, LONGEST, changes)

    def _make(self, tree: Path, compiler: str, stage: str, is_recorded: bool = False) -> bool:
        """Prepare, build and test; whether it came as far as the tests."""
        say(f'{self.outcome.name}: building ({stage})')
        ran = self._shell(self.recipe.prepare, tree, 'gcc')
        if ran.is_ok:
            recorder = str(tree / 'compile_commands.json') if is_recorded else ''
            ran = self._shell(self.recipe.build, tree, compiler, recorder)
        return self._test(tree, compiler, stage, ran)

    def _test(self, tree: Path, compiler: str, stage: str, built: Ran) -> bool:
        self._keep(f'build.{stage}', built)
        if not built.is_ok:
            self.outcome.faults.append(f'{stage}: not built: {built.output.strip()[-600:]}')
            return False
        say(f'{self.outcome.name}: testing ({stage})')
        ran = self._shell(self.recipe.tests, tree, compiler)
        self._keep(f'tests.{stage}', ran)
        passed, failed = self.recipe.count(ran.output)
        self.outcome.tests[stage] = passed, failed
        if stage != 'before' and self.outcome.tests['before'] != (passed, failed):
            self.outcome.faults.append(f'{stage}: other tests passed than before')
        if ran.status is None:
            self.outcome.faults.append(f'{stage}: the time of the tests ran out')
        return True

    def _keep(self, name: str, ran: Ran) -> None:
        (self.folder / f'{name}.log').write_text(ran.output)

    def _files(self, tree: Path) -> list[Path]:
        """The C files that were compiled, each once; the record keeps one entry for each of them."""
        record = tree / 'compile_commands.json'
        entries = {entry['file']: entry for entry in reversed(json.loads(record.read_text()))
                   if entry['file'].endswith('.c') and 'conftest' not in entry['file']}
        record.write_text(json.dumps(list(entries.values()), indent=1))
        return sorted(map(Path, entries))

    def _in_place(self, tree: Path, files: list[Path], options: list[str], stage: str, count: Count) -> None:
        """Restructure all files of a project, build it and run its tests."""
        say(f'{self.outcome.name}: restructuring {len(files)} files ({stage})')
        ran, found = self.restructurer.run(['-i', '-p', tree, '--jobs', str(self.jobs), *options, *files], tree)
        count.add(found)
        self._keep(f'restructure.{stage}', ran)
        if stage == 'configured':
            before = self.outcome.as_it_stands  # what was restructured before has no goto any more
            count.functions, count.restructured = before.functions, before.restructured + found.restructured
        self._test(tree, 'gcc', stage, self._shell(self.recipe.build, tree, 'gcc'))

    def _count(self, tree: Path, files: list[Path]) -> None:
        """Count without a change to any file."""
        ways: list[tuple[list[str], Count]] = [([], self.outcome.as_it_stands),
                                               (['--configured'], self.outcome.configured)]
        for options, count in ways:
            say(f'{self.outcome.name}: counting {len(files)} files {"".join(options)}')
            ran, found = self.restructurer.run(['-p', tree, '--jobs', str(self.jobs), *options, *files], tree)
            count.add(found)
            self._keep(f'count{"".join(options)}', ran)

    def _count_preprocessed(self, tree: Path) -> None:
        """Count in the text that the preprocessor makes of each file."""
        say(f'{self.outcome.name}: counting preprocessed files')
        (self.folder / 'preprocessed').mkdir(exist_ok=True)
        texts = []
        for number, entry in enumerate(json.loads((tree / 'compile_commands.json').read_text())):
            text = self.folder / 'preprocessed' / f'{number}_{Path(entry["file"]).stem}.i'
            words = entry['arguments'][:]
            if '-o' in words:
                del words[words.index('-o'):words.index('-o') + 2]
            words = [word for word in words if word not in ('-c', '-MD', '-MMD', '-MP')]
            if run([*words, '-E', '-P', '-w', '-o', str(text)], Path(entry['directory']), 60).is_ok:
                texts.append(text)
        ran, found = self.restructurer.run(['--jobs', str(self.jobs), *texts, '--', '-w'], tree)
        if ran.status == 3 and unread(ran):  # gcc's headers, in the text now, have words that only gcc reads
            found.faults.clear()
            found.left += unread(ran)
        self.outcome.preprocessed.add(found)
        self._keep('count.preprocessed', ran)

    def _in_compilers_place(self, first: Path) -> None:
        """Build a second copy by regoto-c in the compiler's place, and run its tests."""
        log = self.folder / 'compiler.log'
        log.unlink(missing_ok=True)
        tree = self._copy('compiled')
        for kept in (first / self.recipe.folder).glob('*.first'):
            shutil.copy(kept, tree / self.recipe.folder)
        self._make(tree, self.restructurer.as_compiler, 'after')
        self.outcome.compiled.add(logged(log.read_text() if log.exists() else ''))


def is_ready() -> str:
    """What is missing for the projects, or an empty text."""
    missing = [name for name in ('bear', 'gcc', 'make', 'cmp') if not shutil.which(name)]
    return f'missing: {" ".join(missing)} (Debian: bear, gcc, make, diffutils)' if missing else ''
