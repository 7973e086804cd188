"""What tools/refused.py does before it runs anything, and what bench/tables.py makes of each shape."""
import subprocess
import sys
import tempfile
import unittest
from pathlib import Path

from called import ROOT

sys.path.insert(0, str(ROOT / 'bench'))

import tables  # noqa: E402


class Refused(unittest.TestCase):
    def answer(self, *words: str) -> 'subprocess.CompletedProcess[str]':
        return subprocess.run([str(ROOT / 'tools' / 'refused.py'), *words], capture_output=True, text=True)

    def test_a_case_without_words(self) -> None:
        answer = self.answer(str(ROOT / 'tests' / 'plans'))
        self.assertEqual((answer.returncode, answer.stdout), (2, ''))
        self.assertIn('has no words', answer.stderr)

    # A program in which nothing refuses an allocation, as the one that is proved.
    def test_another_program(self) -> None:
        answer = self.answer('--program', sys.executable, str(ROOT / 'tests' / 'plans' / 'one-task'))
        self.assertEqual((answer.returncode, answer.stdout), (1, ''))
        self.assertIn("isn't in", answer.stderr)


class Shapes(unittest.TestCase):
    # Each is of a size, and what its bytes grow by about doubles with it. Some have rows besides that don't grow.
    def test_they_grow_with_their_size(self) -> None:
        for name in list(tables.SHAPES)[12:]:
            lengths = []
            for size in (300, 600, 1200):
                with tempfile.TemporaryDirectory() as folder:
                    files = tables.Files(folder)
                    tables.SHAPES[name](files, size)
                    files.close()
                    lengths.append(sum(file.stat().st_size for file in Path(folder).glob('*.csv')))
            least, middle, most = lengths
            self.assertTrue(1.2 < (most - middle) / (middle - least) < 3, (name, lengths))


if __name__ == '__main__':
    unittest.main()
