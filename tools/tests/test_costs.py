"""What checks of a pretended prover cost, and the table of it."""
import csv
import shutil
import tempfile
import unittest
from pathlib import Path
from unittest import mock

from called import call

import costs

# A shell by the prover's name, which runs the file of its first word: a check that works for a while, and where the
# crate is the low one four times as long besides, by other such processes. So that it takes longer is seen also on a
# machine whose processors are now fast and now slow.
WORK = 'i=0\nwhile [ $i -lt 150000 ]; do i=$((i + 1)); done\n'
CHECK = 'case $* in *omega_low*) for part in 1 2 3 4; do ../rattle ../part; done ;; esac\n' + WORK
GATE = """cd rt-edit-1-a
../rattle check --crate-name omega_sim --incremental /x/seed || exit 3
cd ../rt-edit-2-b
../rattle check --crate-name omega_sim --incremental /x/0 &
cd ../crate
../rattle check --crate-name omega_low || exit 3
../rattle build --test --crate-name omega_low || exit 3
../rattle fmt
wait
exit 7
"""
COSTS = """crate,kind,seconds,megabytes,begun,ended
omega_low,proof,61.2,900,0.3,62.0
omega_low,tests,30.0,1024,62.0,93.0
omega_high,proof,10.4,500,62.0,73.0
omega_high,seed,11.0,500,62.0,73.0
omega_high,edit,4.0,300,73.0,77.0
omega_high,edit,5.6,2048,77.0,83.0
omega_high,build,1.0,100,83.0,84.0
,all,123.2,,0.0,120.0
"""
TABLE = """<!-- costs -->
| Crate | Proof | Edits | Their beginning, and all of them | Longest | With its tests | GB |
|---|---|---|---|---|---|---|
| `omega_low` | 61 |  |  |  | 30 | 1.0 |
| `omega_high` | 10 | 2 | 11 + 10 | 6 |  | 2.0 |

All took 2 processor minutes (1 of proofs, 0 of beginnings of edits, 0 of edits, 0 of tests, 0 of programs) and 2 by the \
clock. The longest, in processor seconds: `omega_low` proof 61, `omega_low` tests 30, `omega_high` seed 11, `omega_high` \
proof 10, `omega_high` edit 6, `omega_high` edit 4, `omega_high` build 1.
<!-- end of costs -->"""


class Costs(unittest.TestCase):
    def setUp(self) -> None:
        scratch = tempfile.TemporaryDirectory()
        self.addCleanup(scratch.cleanup)
        self.folder = Path(scratch.name)

    def write(self, name: str, text: str) -> Path:
        path = self.folder / name
        path.parent.mkdir(exist_ok=True)
        path.write_text(text)
        return path

    def test_what_checks_took(self) -> None:
        shutil.copy('/bin/sh', self.folder / 'rattle')
        self.write('part', WORK)
        for name in ('rt-edit-1-a/check', 'rt-edit-2-b/check', 'crate/check', 'crate/build', 'crate/fmt'):
            self.write(name, CHECK)
        gate, file = self.write('gate', 'cd %s\n%s' % (self.folder, GATE)), self.folder / 'costs.csv'
        with mock.patch.object(costs, 'PAUSE', 0.02):
            self.assertEqual(call('costs.py', costs.main, file, 'sh', gate).status, 7)
        found = [line for line in csv.DictReader(file.read_text().splitlines())]
        self.assertEqual(sorted((it['crate'], it['kind']) for it in found),
                         [('', 'all'), ('omega_low', 'proof'), ('omega_low', 'tests'), ('omega_sim', 'edit'),
                          ('omega_sim', 'seed')])
        seconds = {it['kind']: float(it['seconds']) for it in found}
        self.assertGreater(seconds['proof'], 1.3 * seconds['seed'])
        self.assertAlmostEqual(seconds['all'], sum(seconds[it] for it in ('proof', 'tests', 'edit', 'seed')), delta=0.3)
        self.assertTrue(all(float(it['begun']) <= float(it['ended']) for it in found))

    def test_the_table(self) -> None:
        crates = self.write('crates.txt', '# first\nomega_low: csv # and so on\nomega_none: csv\nomega_high : csv\n')
        page = self.write('page.md', 'before\n\n<!-- costs -->\nold\n<!-- end of costs -->\n\nbehind\n')
        with mock.patch.object(costs, 'ROOT', crates.parent):
            answer = call('costs.py', costs.main, '--write', self.write('c.csv', COSTS), '--page', page)
        self.assertEqual((answer.status, answer.out, answer.err), (0, '', ''))
        self.assertEqual(page.read_text(), 'before\n\n%s\n\nbehind\n' % TABLE)

    def test_what_is_refused(self) -> None:
        page, file = self.write('page.md', 'no marks\n'), self.write('c.csv', COSTS)
        cut = self.write('cut.csv', ''.join(COSTS.splitlines(True)[:-1]))
        other = self.write('other.csv', 'a,b\n1,2\n')
        for words in ((file,), ('--write', file, 'true'), ('--write', file, '--page', page),
                      ('--write', cut, '--page', page), ('--write', other, '--page', page),
                      ('--write', self.folder / 'none.csv', '--page', page)):
            answer = call('costs.py', costs.main, *words)
            self.assertEqual((answer.status, answer.out, len(answer.err.splitlines())), (1, '', 1), words)
        self.assertEqual(page.read_text(), 'no marks\n')


if __name__ == '__main__':
    unittest.main()
