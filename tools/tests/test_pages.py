"""The scripts that write parts of the pages: docs/layers.py and docs/believed.py."""
import subprocess
import sys
import unittest

from called import ROOT

sys.path.insert(0, str(ROOT / 'docs'))
import believed  # noqa: E402
import layers  # noqa: E402

CRATES = '''low: csv
middle: low
beside: low
omega: low middle beside
tested: omega
'''


class Pages(unittest.TestCase):
    # Crates that the program doesn't stand on are left out, and uses that follow from others are no arrows.
    def test_arrows(self) -> None:
        uses = layers.read_uses(CRATES)
        self.assertEqual(sorted(uses), ['beside', 'low', 'middle', 'omega'])
        self.assertEqual(layers.reduced(uses), [('beside', 'low'), ('middle', 'low'), ('omega', 'beside'), ('omega', 'middle')])
        self.assertEqual(layers.layers_of(uses), {'low': 0, 'beside': 1, 'middle': 1, 'omega': 2})
        self.assertEqual(layers.picture(uses), layers.picture(layers.read_uses(CRATES)))
        self.assertEqual(layers.picture(uses).count('<path d="M'), 5)  # one of them is the tip of all arrows

    def test_each_arrow_has_a_label(self) -> None:
        arrows = layers.reduced(layers.read_uses(CRATES))
        labels = {arrow: 'something' for arrow in arrows}
        self.assertEqual(layers.wrong_labels(arrows, labels), [])
        del labels[('middle', 'low')]
        labels[('omega', 'low')] = 'what follows from others'
        self.assertEqual(len(layers.wrong_labels(arrows, labels)), 2)

    # A name in a clause leads to its definition, and that to others; what only code and proofs cite isn't reached.
    def test_believed_words(self) -> None:
        words = believed.reached()
        for word in (('omega_top', 'Answers', 'IsWholeRun'), ('omega_model', 'Lawful', 'Lawful'), ('omega_model', 'Judge', 'judge'),
                     ('omega_model', 'Policy', 'may_preempt'), ('omega_keep', 'KeptLines', 'entry_text')):
            self.assertIn(word, words)
        self.assertFalse([word for word in words if word[0] in ('omega_board', 'omega_plan', 'omega_lock')])

    def test_a_definition_goes_on_to_the_next(self) -> None:
        text = '-- one\nabbrev pub one : N\none = two\n\n-- a pair\npub record Pair : Type 0 where\n  pub left : one\n'
        self.assertEqual(sorted(believed.definitions_in(text)), ['Pair', 'one'])
        self.assertEqual(believed.names_in('f x.field -- g\n  (h y)'), {'f', 'x', 'h', 'y'})

    def test_help(self) -> None:
        for script in ('layers.py', 'believed.py'):
            answer = subprocess.run([str(ROOT / 'docs' / script), '--help'], capture_output=True, text=True)
            self.assertEqual((answer.returncode, answer.stderr), (0, ''), script)
            self.assertIn(script, answer.stdout)
            answer = subprocess.run([str(ROOT / 'docs' / script), 'else'], capture_output=True, text=True)
            self.assertEqual((answer.returncode, answer.stdout), (2, ''), script)


if __name__ == '__main__':
    unittest.main()
