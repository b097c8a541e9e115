"""Sources of Debian, fetched by apt with a list of its own, so that the lists of the machine stay as they are."""
from __future__ import annotations

import shutil
from pathlib import Path

from .commands import run, say

SETTINGS = '''Dir::Etc::sourcelist "{folder}/sources.list";
Dir::Etc::sourceparts "-";
Dir::State::lists "{folder}/lists";
Dir::Cache "{folder}/cache";
APT::Sandbox::User "root";
'''
MIRROR = 'http://deb.debian.org/debian'


class NotFetched(Exception):
    """A source or a package that apt didn't give; the text says which and why."""


class Sources:
    """The folder into which sources are fetched, each once."""

    def __init__(self, folder: Path) -> None:
        """Take a folder, which is made if it isn't there."""
        self.folder = folder
        self._apt = folder / 'apt'
        self._is_listed = False
        folder.mkdir(parents=True, exist_ok=True)

    def source(self, package: str) -> Path:
        """The unpacked source of a Debian package, without Debian's own changes. Raises NotFetched."""
        if not list(self.folder.glob(f'{package}_*.dsc')):
            say(f'fetching the source of {package}')
            self._run('apt-get', 'source', '--download-only', package)
        found = next(self.folder.glob(f'{package}_*.dsc'), None)
        if found is None:
            raise NotFetched(f'{package}: apt-get source wrote no .dsc file')
        unpacked = self.folder / package
        if not unpacked.exists():
            self._run('dpkg-source', '--no-check', '--skip-patches', '-x', found.name, unpacked.name)
        return unpacked

    def package(self, name: str) -> Path:
        """The files of a binary package, unpacked and not installed. Raises NotFetched."""
        unpacked = self.folder / f'{name}.files'
        if not unpacked.exists():
            say(f'fetching {name}')
            self._run('apt-get', 'download', name)
            self._run('dpkg-deb', '-x', next(self.folder.glob(f'{name}_*.deb')).name, unpacked.name)
        return unpacked

    def torture_tests(self) -> Path:
        """The folder of gcc's tests gcc.c-torture/execute. Raises NotFetched."""
        below = self.package('gcc-12-source')
        found = next(below.glob('**/gcc.c-torture/execute'), None)
        if found is None:
            archive = next(below.glob('usr/src/gcc-12/gcc-12*.tar.xz'))
            self._run('tar', 'xf', str(archive), '-C', str(below), '--wildcards', '*/gcc.c-torture/execute/*')
            found = next(below.glob('**/gcc.c-torture/execute'))
        return found

    def _run(self, *words: str) -> None:
        if not shutil.which(words[0]):
            raise NotFetched(f'{words[0]} is missing: these sources come from Debian')
        if not self._is_listed and words[0] == 'apt-get':
            self._is_listed = True
            for name in ('lists/partial', 'cache/archives/partial'):
                (self._apt / name).mkdir(parents=True, exist_ok=True)
            (self._apt / 'sources.list').write_text(f'deb {MIRROR} bookworm main\ndeb-src {MIRROR} bookworm main\n')
            (self._apt / 'apt.conf').write_text(SETTINGS.format(folder=self._apt))
            self._run('apt-get', 'update')
        ran = run(words, self.folder, 600, {'APT_CONFIG': str(self._apt / 'apt.conf')})
        if not ran.is_ok:
            raise NotFetched(f'{" ".join(words)}: {ran.output.strip()[-500:]}')
