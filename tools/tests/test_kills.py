"""Runs that are ended by a signal while they keep their history."""
import tempfile
import unittest
from pathlib import Path

from called import ROOT, call, program

import kills

CELL = ROOT / 'examples' / 'small-cell'


class Kills(unittest.TestCase):
    def setUp(self) -> None:
        scratch = tempfile.TemporaryDirectory()
        self.addCleanup(scratch.cleanup)
        self.folder = Path(scratch.name)

    def pretended(self, script: str) -> Path:
        """A program that answers as a script says."""
        path = self.folder / 'omega'
        path.write_text('#!/bin/sh\n' + script)
        path.chmod(0o755)
        return path

    def test_each_run_goes_on(self) -> None:
        answer = call('kills.py', kills.main, program(self.folder), '--moments', 3, '--tables', CELL)
        self.assertEqual((answer.status, answer.err), (0, ''))
        self.assertEqual(len(answer.out.splitlines()), 4)
        self.assertTrue(answer.out.endswith('\n3 passed, 0 failed\n'))

    def test_a_program_that_keeps_nothing(self) -> None:
        path = self.pretended('case $1 in audit) printf "omega 2\\nlegal 0\\nuse\\n" ;; *) echo report ;; esac\n')
        self.assertEqual(call('kills.py', kills.main, path, '--moments', 2).status, 0)

    def test_another_report_after_a_kill(self) -> None:
        path = self.pretended('case "$1 $3" in audit*) printf "omega 2\\nlegal 3\\nuse\\n" ;;\n'
                              'replay*|*/1.db) echo report ;; *) echo other ;; esac\n')
        answer = call('kills.py', kills.main, path, '--moments', 2)
        self.assertEqual(answer.status, 1)
        self.assertTrue(answer.out.endswith("the report isn't that of replay\n0 passed, 2 failed\n"))

    def test_no_moment(self) -> None:
        answer = call('kills.py', kills.main, self.pretended('echo report\n'), '--moments', 0)
        self.assertEqual((answer.status, answer.out, answer.err), (1, '', 'kills.py: --moments is at least 1\n'))

    def test_words_that_are_refused(self) -> None:
        path = self.pretended('echo "omega: the words are refused" >&2\nexit 2\n')
        answer = call('kills.py', kills.main, path, '--moments', 1)
        self.assertEqual(answer.status, 1)
        self.assertEqual(answer.err, 'kills.py: replay ended with status 2: omega: the words are refused\n')


if __name__ == '__main__':
    unittest.main()
