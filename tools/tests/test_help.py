"""What omega.sh prints of itself, and what it adds to the program's answer; and the help of the other scripts."""
import os
import re
import shlex
import shutil
import subprocess
import tempfile
import unittest
from pathlib import Path

from called import ROOT

COMMANDS = 'replay, run, simulate, generate, resume or audit'

PROGRAM = r"""#!/bin/sh
echo "in $PWD: $*"
case "$1" in
replay) exit 0 ;;
pages) echo "${GLIBC_TUNABLES-nothing}"; exit 0 ;;
tables) echo 'omega: cannot read machine_events' >&2; exit 3 ;;
*) echo 'omega: the words are refused' >&2; exit 2 ;;
esac
"""


class Helped(unittest.TestCase):
    # A copy of the script beside a program that counts as built. It finds no toolchain, which it would ask for its
    # version at each call.
    def setUp(self) -> None:
        self.bare = {name: value for name, value in os.environ.items() if name != 'GLIBC_TUNABLES'}
        self.bare['PATH'] = '/usr/bin:/bin'
        self.root = Path(tempfile.mkdtemp())
        self.addCleanup(shutil.rmtree, self.root)
        out = self.root / 'crates' / 'omega' / 'out'
        out.mkdir(parents=True)
        shutil.copy(ROOT / 'omega.sh', self.root)
        (self.root / 'docs').mkdir()
        shutil.copy(ROOT / 'docs' / 'FORMATS.md', self.root / 'docs')
        (self.root / 'crates.txt').write_text('')
        (out / 'omega').write_text(PROGRAM)
        (out / 'omega').chmod(0o755)
        (out / 'omega.stamp').write_text(self.run_it('--digest').stdout)

    def run_it(self, *words: str, **more: str) -> 'subprocess.CompletedProcess[str]':
        return subprocess.run([str(self.root / 'omega.sh'), *words], capture_output=True, text=True, cwd='/',
                              env={**self.bare, **more})

    def test_help(self) -> None:
        answers = [self.run_it(*words) for words in ((), ('--help',), ('help',), ('-h',), ('--prove', '--help'))]
        for answer in answers:
            self.assertEqual((answer.returncode, answer.stderr, answer.stdout), (0, '', answers[0].stdout))
        for word in ('replay', 'run', 'generate', '--tables', '--preempt', 'none, service or all', 'Examples:'):
            self.assertIn(word, answers[0].stdout)
        self.assertTrue(all(len(line) <= 110 for line in answers[0].stdout.splitlines()))

    # The version is that of the first head of the log of changes, and of the tools as a package.
    def test_version(self) -> None:
        head = re.search('^## ([0-9.]+)', (ROOT / 'CHANGELOG.md').read_text(), re.MULTILINE)
        self.assertIsNotNone(head)
        self.assertIn('version = "%s"\n' % head.group(1), (ROOT / 'tools' / 'pyproject.toml').read_text())
        line = 'omega, version %s\n' % head.group(1)
        for words in (('--version',), ('--prove', '--version')):
            answer = self.run_it(*words)
            self.assertEqual((answer.returncode, answer.stdout, answer.stderr), (0, line, ''))
        self.assertTrue(self.run_it('--help').stdout.startswith(line))

    def test_help_of_a_word(self) -> None:
        answer = self.run_it('--help', '--ends')
        self.assertEqual((answer.returncode, answer.stderr), (0, ''))
        self.assertEqual(answer.stdout, self.run_it('--help', 'ends').stdout)
        self.assertTrue(answer.stdout.startswith('--ends: trace, own; without it trace\n'))
        self.assertIn('once it has run for as long as it did there (own)', answer.stdout)
        self.assertTrue(answer.stdout.endswith('docs/FORMATS.md#own-ends.\n'))
        self.assertTrue(self.run_it('--help', 'audit').stdout.startswith('audit\n    reads no tables'))
        self.assertEqual(self.run_it('--help', 'coarse').stdout, self.run_it('--help', 'rule').stdout)
        answer = self.run_it('--help', 'speed')
        self.assertEqual((answer.returncode, answer.stdout), (2, ''))
        self.assertIn("there is no command or option 'speed'", answer.stderr)

    # Each word of the page has a help of its own, and each anchor that it names is a head of the page.
    def test_every_word_has_its_help(self) -> None:
        page = (ROOT / 'docs' / 'FORMATS.md').read_text()
        heads = [head.lower().replace(' ', '-') for head in re.findall('^#+ (.*)', page, re.MULTILINE)]
        words = re.findall('^[|] `([a-z-]+)` [|]', page.split('\n## Words\n')[1].split('\n## Tables\n')[0], re.MULTILINE)
        self.assertEqual(len(words), 28)
        for word in words:
            answer = self.run_it('--help', word)
            self.assertEqual((answer.returncode, answer.stderr), (0, ''), word)
            for anchor in re.findall('#([a-z-]+)', answer.stdout):
                self.assertIn(anchor, heads)

    # Every option and command of the page stands in the help, with its default.
    def test_it_has_the_words_of_the_page(self) -> None:
        said = self.run_it().stdout
        page = (ROOT / 'docs' / 'FORMATS.md').read_text()
        rows = [line.split('|') for line in page.splitlines() if line.startswith('| `--')]
        self.assertGreaterEqual(len(rows), 13)
        for row in rows:
            default = row[3].strip().strip('`').replace(',', '')
            for option in re.findall('`(--[a-z-]+)`', row[1]):
                line = next((line for line in said.splitlines() if line.split()[:1] == [option]), '')
                self.assertIn('[as --' if 'value' in default else '[%s]' % default, line, option)
        commands = re.findall('`([a-z]+)`', next(line for line in page.splitlines() if line.startswith('| the command')))
        for command in commands:
            self.assertRegex(said, '\n  %s  +' % command)

    def test_examples_are_folders_that_are_there(self) -> None:
        said = self.run_it().stdout
        self.assertIn('./omega.sh replay --tables examples/small-cell\n', said)
        self.assertTrue((ROOT / 'examples' / 'small-cell' / 'words').exists())
        self.assertEqual(len(said.split('Examples:\n')[1].split('\n\n')[0].splitlines()), 3)

    def test_refused_words_name_the_help(self) -> None:
        for words in (('-V', '-W'), ('--tables', '--cap'), ('play', '--tries', '0'), ('run', '--batch', '0', '--cap', '101')):
            answer = self.run_it(*words)
            self.assertEqual((answer.returncode, answer.stdout), (2, 'in /: %s\n' % ' '.join(words)))
            self.assertEqual(answer.stderr, 'omega: the words are refused\n'
                             'omega.sh: more than one thing is wrong; omega.sh --help prints the words and examples\n')

    # What it says of words in which one thing is wrong, beside the program's own line.
    def reason(self, *words: str) -> str:
        answer = self.run_it(*words)
        self.assertEqual(answer.returncode, 2)
        first, *lines = answer.stderr.splitlines()
        self.assertEqual(first, 'omega: the words are refused')
        if len(lines) == 2:
            self.assertEqual(lines[1], 'omega.sh: omega.sh --help [NAME] prints what words say')
        return lines[0].replace('omega.sh: ', '', 1)

    # These words are refused by the pretended program, which takes `replay` alone for a command.
    def test_one_wrong_word_is_named(self) -> None:
        allowed = 'what is allowed there is '
        for line, reason in {
            'play': "'play' is no command: allowed is " + COMMANDS,
            '--': 'there is no command: allowed is ' + COMMANDS,
            'run --batch 31': "--batch '31': " + allowed + 'a whole number, 1 to 30',
            'run --give-up=0': "--give-up '0': " + allowed + 'a whole number, 1 to 1,000',
            'run --rule Fine': "--rule 'Fine': " + allowed + 'fine or coarse',
            'run --extra ""': "--extra '': " + allowed + 'max, cap or relative',
            'run --tries': '--tries has no value: ' + allowed + 'a whole number, 1 to 100',
            'run --tables --cap 5': '--tables has no value: ' + allowed + 'a folder',
            'run --tables -x': "--tables '-x': what begins with a hyphen has to be joined, --tables='-x'",
            'run --times yes --times yes': '--times stands there twice, and each option may stand once',
            'run --trie 5': "'--trie' is no option; there is --tries",
            '--versoin': "'--versoin' is no option; there is --tables, --seed",
            '--batch': '--batch has no value: ' + allowed + 'a whole number, 1 to 30',
            '--speed 5 run': "'--speed' is no option; there is --tables, --seed",
            'run audit': "'audit' is a word too many: there is one command, here 'run'",
            'run -- --cap 5': "'--cap' stands behind --, where nothing is an option any more",
            'run --help': '--help stands alone or not at all, and omega.sh answers it',
        }.items():
            self.assertEqual(self.reason(*shlex.split(line))[:len(reason)], reason, line)

    # Where the page isn't there the help is all that is named.
    def test_words_that_nothing_is_known_of(self) -> None:
        self.assertEqual(self.reason('run', '--kept', ''), 'omega.sh --help prints the words and examples')
        (self.root / 'docs' / 'FORMATS.md').unlink()
        self.assertEqual(self.reason('run', '--batch', '0'), 'omega.sh --help prints the words and examples')

    # It finds something wrong with words just where the reference refuses them.
    def test_what_is_refused_has_a_reason(self) -> None:
        lines = (ROOT / 'tests' / 'words' / 'refused').read_text().splitlines()
        refused = [shlex.split(line.split(':', 1)[1]) for line in lines if "$'" not in line]
        taken = [(folder / 'words').read_text().splitlines() for folder in sorted((ROOT / 'tests' / 'words').iterdir())
                 if folder.is_dir() and not (folder / 'fault.txt').exists()]
        self.assertGreater(min(len(refused), len(taken)), 30)
        program = self.root / 'crates' / 'omega' / 'out' / 'omega'
        program.write_text(PROGRAM.replace('replay) exit 0 ;;', ''))
        for words in [words for words in refused if words and words[0] not in ('--help', '-h', 'help', '--version')][::5]:
            self.assertNotEqual(self.reason(*words), 'omega.sh --help prints the words and examples', words)
        for words in taken[::5]:
            self.assertEqual(self.reason(*words), 'omega.sh --help prints the words and examples', words)

    def test_other_answers_stay(self) -> None:
        answer = self.run_it('replay', '--rule', 'fine')
        self.assertEqual((answer.returncode, answer.stdout, answer.stderr), (0, 'in /: replay --rule fine\n', ''))
        answer = self.run_it('tables')
        self.assertEqual((answer.returncode, answer.stderr), (3, 'omega: cannot read machine_events\n'))

    # Memory is asked for in large pages where the system gives them, unless somebody has said how it is to be had.
    def test_large_pages(self) -> None:
        try:
            given = re.search(r'\[(madvise|always)\]', Path('/sys/kernel/mm/transparent_hugepage/enabled').read_text())
        except OSError:
            given = None
        usual = 'glibc.malloc.hugetlb=1' if given else 'nothing'
        self.assertEqual(self.run_it('pages').stdout.splitlines()[-1:], [usual])
        for said in ('glibc.malloc.check=0', ''):
            self.assertEqual(self.run_it('pages', GLIBC_TUNABLES=said).stdout.splitlines()[1:], [said])

    def test_other_scripts(self) -> None:
        for script in ('bench/tables.py', 'bench/bench.sh', 'bench/study.py', 'tools/slice.py', 'tools/report.py',
                       'tools/sweep.py', 'tools/quick.sh', 'tools/refused.py', 'tools/costs.py', 'tools/kills.py', 'tools/pairs.py',
                       'tools/kept_file.py',
                       'reference/tables.py', 'reference/compare.py', 'reference/spoiled.py', 'reference/kept.py'):
            answer = subprocess.run([str(ROOT / script), '--help'], capture_output=True, text=True)
            self.assertEqual((answer.returncode, answer.stderr), (0, ''), script)
            self.assertIn(Path(script).name, answer.stdout)


if __name__ == '__main__':
    unittest.main()
