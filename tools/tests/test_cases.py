"""What tests/run.sh says of cases that are right and of such as aren't, and what tests/expect.sh writes."""
import shutil
import subprocess
import tempfile
import unittest
from pathlib import Path

from called import ROOT

PROGRAM = """#!/bin/sh
case "$1" in
replay) echo right ;;
resume) echo right; echo line >"${2#--kept=}" ;;
*) echo 'omega: the words are refused' >&2; exit 2 ;;
esac
"""


class Cases(unittest.TestCase):
    def setUp(self) -> None:
        self.folder = Path(tempfile.mkdtemp())
        self.addCleanup(shutil.rmtree, self.folder)
        self.program = self.written('omega', PROGRAM)
        self.program.chmod(0o755)

    def written(self, name: str, text: str) -> Path:
        path = self.folder / name
        path.parent.mkdir(exist_ok=True)
        path.write_text(text)
        return path

    def run_it(self, script: str, *words: object) -> 'subprocess.CompletedProcess[str]':
        return subprocess.run([str(ROOT / 'tests' / script), *map(str, words)], capture_output=True, text=True,
                              cwd=self.folder)

    def last_line(self, *words: object) -> 'tuple[int, str]':
        answer = self.run_it('run.sh', self.program, *words)
        return answer.returncode, answer.stdout.splitlines()[-1]

    def test_reports_and_refusals(self) -> None:
        self.written('good/words', 'replay\n')
        self.written('good/report.txt', 'right\n')
        self.written('bad/words', 'play\n')
        self.written('bad/fault.txt', 'omega: the words are refused\n')
        self.assertEqual(self.last_line('good'), (0, '1 passed, 0 failed'))
        self.assertEqual(self.last_line('.'), (1, '1 passed, 1 failed'))
        self.written('bad/status', '2\n')
        self.assertEqual(self.last_line('.'), (0, '2 passed, 0 failed'))
        self.written('good/report.txt', 'wrong\n')
        self.assertEqual(self.last_line('good'), (1, '0 passed, 1 failed'))

    def test_refused_words(self) -> None:
        self.written('words/refused', "no command: play\nan open quote: play 'x\nthe command: replay\n")
        self.assertEqual(self.last_line('words'), (1, '1 passed, 2 failed'))

    # A database that statements have made has to stay as it is.
    def test_a_database_of_any_kind(self) -> None:
        for name in ('words', 'report.txt', 'kept-sql'):
            self.written('case/' + name, {'words': 'resume\n--kept=k.db\n', 'report.txt': 'right\n'}.get(name, 'CREATE TABLE t (a);'))
        self.assertEqual(self.last_line('case'), (1, '0 passed, 1 failed'))
        self.written('case/words', 'replay\n--kept=k.db\n')
        self.assertEqual(self.last_line('case'), (0, '1 passed, 0 failed'))

    # What is left beside the run is looked at, wherever the words have the lines kept.
    def test_kept_lines(self) -> None:
        for name in ('words', 'report.txt', 'kept'):
            self.written('case/' + name, {'words': 'resume\n--kept=k.db\n', 'report.txt': 'right\n'}.get(name, ''))
        self.assertEqual(self.last_line('case'), (1, '0 passed, 1 failed'))

    def test_what_is_not_there(self) -> None:
        self.written('good/words', 'replay\n')
        for words in ((), ('nothing',), (self.program, 'good', 'nowhere'), ('--small', 'good')):
            answer = self.run_it('run.sh', *words)
            self.assertEqual((answer.returncode, answer.stdout, len(answer.stderr.splitlines())), (2, '', 1), words)

    def test_expected(self) -> None:
        self.written('case/words', 'resume\n--kept=k.db\n')
        self.written('case/kept', '')
        self.written('case/machine_events.csv', '0,1,0,p,1,1\n')
        self.written('case/task_events.csv', '')
        self.assertEqual(self.run_it('expect.sh', 'case').returncode, 0)
        self.assertEqual(sorted(path.name for path in (self.folder / 'case').iterdir()),
                         ['kept', 'kept-after', 'machine_events.csv', 'report.txt', 'task_events.csv', 'words'])
        self.assertTrue((self.folder / 'case' / 'kept-after').read_text().startswith('round 0\nadd 1 '))
        (self.folder / 'case' / 'words').unlink()
        self.assertEqual(self.run_it('expect.sh', 'case').returncode, 2)


if __name__ == '__main__':
    unittest.main()
