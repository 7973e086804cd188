"""Pairs of runs that keep their history in one file."""
import tempfile
import unittest
from pathlib import Path

from called import ROOT, call, program

import pairs

ROUNDS = ROOT / 'examples' / 'four-rounds'


class Tried(unittest.TestCase):
    def setUp(self) -> None:
        scratch = tempfile.TemporaryDirectory()
        self.addCleanup(scratch.cleanup)
        self.folder = Path(scratch.name)

    def test_each_pair_ends_with_one_history(self) -> None:
        answer = call('pairs.py', pairs.main, program(self.folder), '--pairs', 4, '--tables', ROUNDS)
        self.assertEqual((answer.status, answer.err), (0, ''), answer.out)
        self.assertEqual(len(answer.out.splitlines()), 5)
        self.assertTrue(answer.out.startswith('the same tables, the first held before its load, '))
        self.assertTrue(answer.out.endswith('\n4 passed, 0 failed\n'))

    # Of two runs over the same tables that were held before their load the second one finds all lines, and ends well;
    # over other tables it is refused.
    def test_what_the_second_run_finds(self) -> None:
        answer = call('pairs.py', pairs.main, program(self.folder), '--pairs', 2, '--tables', ROUNDS)
        same, other = answer.out.splitlines()[:2]
        self.assertIn(': ended with 0 and 0, ', same)
        self.assertIn(': ended with 0 and 6, ', other)

    def test_every_choice_is_made(self) -> None:
        choices = pairs.all_pairs()
        self.assertEqual((len(choices), len(set(choices))), (64, 64))
        self.assertEqual([pair.is_equal for pair in choices[:4]], [True, False, True, False])

    def test_words(self) -> None:
        for words, said in (((self.folder / 'none',), 'there is no program'), ((program(self.folder), '--pairs', 0),
                                                                              '--pairs is at least 1')):
            answer = call('pairs.py', pairs.main, *words)
            self.assertEqual((answer.status, answer.out), (1, ''))
            self.assertIn(said, answer.err)


if __name__ == '__main__':
    unittest.main()
