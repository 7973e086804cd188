"""What the reference says of the two clocks of `simulate` and of how tasks end: where reports are the same, what its
judge says of them, and that random words name them."""
import sys
import unittest

from called import ROOT, words_in

TESTS = ROOT / 'tests'
sys.path.insert(0, str(ROOT / 'reference'))


@unittest.skipIf(sys.version_info < (3, 11), 'the reference needs Python 3.11')
class Clocks(unittest.TestCase):
    # Where each round is decided before the next one is due both clocks have one report.
    def test_rounds_apart(self) -> None:
        reports = {(TESTS / kind / 'random-rows-of-rounds-apart' / 'report.txt').read_bytes()
                   for kind in ('free-clock', 'times')}
        self.assertEqual(len(reports), 1)

    # By the free clock the judge has no commits to follow, and compares.
    def test_judged(self) -> None:
        from judge import fault_in
        for folder in (TESTS / 'free-clock' / 'ties', TESTS / 'times' / 'by-rounds', TESTS / 'times' / 'json',
                       TESTS / 'words' / 'clock-and-times-on-replay', TESTS / 'own-ends' / 'pieces'):
            with self.subTest(case=folder.name):
                report = (folder / 'report.txt').read_bytes()
                self.assertIsNone(fault_in(words_in(folder), report, str(folder)))
                self.assertIsNotNone(fault_in(words_in(folder), report[:-4] + report[-3:], str(folder)))

    def test_drawn(self) -> None:
        from drawing.cases import draw_case
        drawn = [word for number in range(60) for word in draw_case(number).words]
        for word in ('--clock', '--times', '--ends', 'free', 'rounds', 'yes', 'no', 'trace', 'own'):
            self.assertIn(word, drawn)
        alone = [word for number in range(30) for word in draw_case(number, commands=['replay', 'audit']).words]
        self.assertFalse([word for word in alone if word.startswith(('--clock', '--times', '--ends'))])


if __name__ == '__main__':
    unittest.main()
