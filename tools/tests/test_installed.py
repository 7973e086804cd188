"""The tools as a package: installed without the network into an environment of its own, each is called by its name."""
import importlib.metadata
import importlib.util
import os
import shutil
import subprocess
import sys
import tempfile
import unittest
from pathlib import Path

from called import TOOLS
from test_sweep import FAKE

COMMANDS = ('omega-slice', 'omega-report', 'omega-sweep')


def lacking() -> str:
    """What is needed to install and isn't there."""
    lacking_ = [name for name in ('venv', 'pip', 'setuptools') if importlib.util.find_spec(name) is None]
    if lacking_:
        return ', '.join(lacking_)
    whole = int(importlib.metadata.version('setuptools').split('.')[0])
    if whole < 61:
        return 'setuptools of 61 or later'
    return 'wheel' if whole < 71 and importlib.util.find_spec('wheel') is None else ''   # later ones have it themselves


def without_own_packages() -> 'dict[str, str]':
    """The environment, without what would have Python find other packages."""
    return {name: value for name, value in os.environ.items() if name not in ('PYTHONPATH', 'OMEGA_PROGRAM')}


@unittest.skipIf(lacking(), 'this Python has no ' + lacking())
class Installed(unittest.TestCase):
    bin: Path
    folder: Path

    # The sources are copied, so that nothing is left beside them.
    @classmethod
    def setUpClass(cls) -> None:
        cls.folder = Path(tempfile.mkdtemp())
        cls.addClassCleanup(shutil.rmtree, cls.folder)
        sources = cls.folder / 'tools'
        shutil.copytree(TOOLS, sources, ignore=shutil.ignore_patterns('__pycache__', 'build', '*.egg-info'))
        where = cls.folder / 'environment'
        subprocess.run([sys.executable, '-m', 'venv', '--system-site-packages', '--without-pip', str(where)], check=True)
        cls.bin = where / ('Scripts' if os.name == 'nt' else 'bin')
        done = subprocess.run([str(cls.bin / 'python'), '-m', 'pip', 'install', '--quiet', '--disable-pip-version-check',
                               '--no-index', '--no-build-isolation', '--no-deps', str(sources)], capture_output=True,
                              text=True, env=without_own_packages())
        if done.returncode != 0:
            raise AssertionError(done.stdout + done.stderr)

    def call(self, name: str, *words: str, **more: str) -> 'subprocess.CompletedProcess[str]':
        return subprocess.run([str(self.bin / name), *words], capture_output=True, text=True, cwd=self.folder,
                              env={**without_own_packages(), **more})

    def test_help(self) -> None:
        for name in COMMANDS:
            answer = self.call(name, '--help')
            self.assertEqual((answer.returncode, answer.stderr), (0, ''), name)
            self.assertTrue(answer.stdout.startswith('usage: %s ' % name), answer.stdout)
            self.assertNotIn('.py', answer.stdout)

    # What is wrong is told by the name that was called.
    def test_refused(self) -> None:
        answer = self.call('omega-report', 'rounds', 'nowhere')
        self.assertEqual((answer.returncode, answer.stdout, answer.stderr), (
            1, '', 'omega-report: nowhere: No such file or directory\n'))

    def test_the_program(self) -> None:
        folder = self.folder / 'on the path'
        folder.mkdir()
        for name in ('omega', 'other'):
            (folder / name).write_text(FAKE)
            (folder / name).chmod(0o755)
        path = os.pathsep.join([str(folder), os.environ['PATH']])
        none = self.call('omega-sweep', 'none', 'generate', PATH='/usr/bin:/bin')
        self.assertEqual(none.stderr, 'omega-sweep: there is no program: it is named by --program or OMEGA_PROGRAM, or is '
                         '`omega` on the path\n')
        for words, more, program in (((), {}, 'omega'), ((), {'OMEGA_PROGRAM': str(folder / 'other')}, 'other'),
                                     (('--program', str(folder / 'omega')), {'OMEGA_PROGRAM': 'none'}, 'omega')):
            answer = self.call('omega-sweep', *words, 'runs', 'generate', '--seed', '1,2', PATH=path, **more)
            self.assertEqual(answer.returncode, 0, answer.stderr)
            calls = folder / (program + '.calls')
            self.assertEqual(len(calls.read_text().splitlines()), 2)
            calls.unlink()
            shutil.rmtree(self.folder / 'runs')
        self.assertFalse((self.folder / 'none').exists())


if __name__ == '__main__':
    unittest.main()
