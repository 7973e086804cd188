"""The made-up traces in a steady state; the plan of the study, what is measured in a run, and how points, tables and
figures are held together; and whether those of docs are of the sources that are here."""
import collections
import csv
import io
import os
import shutil
import subprocess
import sys
import tempfile
import unittest
from pathlib import Path
from typing import Dict, List

from called import ROOT

BENCH = ROOT / 'bench'
sys.path.insert(0, str(BENCH))

from studying import checking, measures, running, spread, tables, traces  # noqa: E402
from studying.common import Refusal  # noqa: E402
from studying.points import Cell, Run, Study, Trace, Workload, runs_of  # noqa: E402

SECOND = 1_000_000


class Foldered(unittest.TestCase):
    def setUp(self) -> None:
        self.folder = Path(tempfile.mkdtemp())
        self.addCleanup(shutil.rmtree, self.folder)


class Made(Foldered):
    def made(self, name: str, kind: str, *words: object) -> Path:
        folder = self.folder / name
        subprocess.run([sys.executable, str(BENCH / 'tables.py'), kind, str(folder), *map(str, words)], check=True)
        return folder

    def rows(self, folder: Path, table: str) -> List[List[str]]:
        with open(folder / (table + '.csv'), newline='') as file:
            return list(csv.reader(file))

    # What the tasks that are there ask for stays near the load, and doesn't rise or fall.
    def test_it_is_steady(self) -> None:
        folder = self.made('cell', 'steady', 200, 2, 75)
        whole = sum(float(row[4]) for row in self.rows(folder, 'machine_events'))
        rows = [(int(row[0]), row[5], float(row[9])) for row in self.rows(folder, 'task_events')]
        self.assertEqual([row[0] for row in rows], sorted(row[0] for row in rows))
        asked, at_half = 0.0, collections.OrderedDict()
        for time, code, cpu in rows:
            asked += cpu if code == '0' else -cpu
            at_half[time // 1_800_000_000] = asked / whole
        self.assertTrue(all(0.55 < load < 0.95 for load in at_half.values()), at_half)

    def test_it_is_the_same_each_time(self) -> None:
        first, second, third, other = (self.made(str(number), 'steady', 10, 1, 75, *seed) for number, seed in enumerate(
            ((), (3,), ('--seed', 3), ('--seed', 4))))
        for table in ('machine_events', 'task_events', 'mapreduce_jobs'):
            self.assertEqual(self.rows(first, table), self.rows(second, table))
            self.assertEqual(self.rows(first, table), self.rows(third, table))
        self.assertNotEqual(self.rows(first, 'task_events'), self.rows(other, 'task_events'))

    def test_workload_has_the_words_without_the_seed(self) -> None:
        for kind, words, says in (
                ('steady', (10, 1, 75), 'steady 10 1 75'), ('steady', (10, 1, 75, 9), 'steady 10 1 75'),
                ('steady', (10, 1, 75, '--rate', '0.5', '--seed', 7, '--map-reduce', 10),
                 'steady 10 1 75 --rate 0.5 --map-reduce 10'),
                ('trace', (10, 100, 75, 4), 'trace 10 100 75'), ('picky', (10, 100, 75), 'picky 10 100 75'),
                ('apart', (10,), 'apart 10')):
            self.assertEqual((self.made('cell', kind, *words) / 'workload').read_text(), says + '\n')

    def test_words_that_are_refused(self) -> None:
        for words in ('steady F 1 1 1 --rate', 'steady F 1 1 1 --rate 0', 'steady F 1 1 1 --rate 1.2.3', 'trace F 1 1 1 --rate 2',
                      'steady F 1 1 1 1 --seed 2', 'steady F 1 1 1 --seed 1 --seed 2', 'steady F 1 1', 'steady F 1 1 1 --map-reduce 101'):
            answer = subprocess.run([sys.executable, str(BENCH / 'tables.py'), *words.replace('F', str(self.folder)).split()],
                                    capture_output=True, text=True)
            self.assertEqual(answer.returncode, 2, words)

    # What is there at the beginning is two jobs of the last scheduler without activities, and nothing ends before others come.
    def test_what_stands_at_the_beginning(self) -> None:
        folder = self.made('cell', 'steady', 50, 1, 75)
        self.assertEqual(self.rows(folder, 'mapreduce_jobs'), [['1', '0'], ['2', '0']])
        rows = self.rows(folder, 'task_events')
        self.assertEqual({row[2] for row in rows if row[0] == '0'}, {'1', '2'})
        self.assertTrue(all(int(row[0]) > 600 * SECOND for row in rows if row[0] != '0'))
        facts = traces.facts_of(folder)
        self.assertEqual(facts.came['MapReduce'], 0)
        self.assertGreater(facts.came['batch'], 10 * facts.came['services'])

    def test_a_faster_rate_has_more_jobs_and_the_same_load(self) -> None:
        usual, faster = (traces.facts_of(self.made(rate, 'steady', 100, 1, 75, '--rate', rate)) for rate in ('1', '4'))
        self.assertAlmostEqual(faster.came['batch'] / usual.came['batch'], 4, places=1)
        self.assertEqual(faster.came['services'], usual.came['services'])
        self.assertAlmostEqual(usual.asked, faster.asked, delta=0.1)

    def test_map_reduce(self) -> None:
        folder = self.made('cell', 'steady', 100, 1, 60, '--map-reduce', 10)
        came = traces.facts_of(folder).came
        self.assertTrue(0.05 < came['MapReduce'] / (came['batch'] + came['MapReduce']) < 0.15, came)
        tasks = collections.Counter(row[2] for row in self.rows(folder, 'task_events') if row[5] == '0')
        self.assertTrue(all(tasks[job] <= int(activities) < 20 * tasks[job]
                            for job, activities in self.rows(folder, 'mapreduce_jobs')[2:]))


class Planned(unittest.TestCase):
    def test_how_many(self) -> None:
        points = Study().points()
        runs = runs_of(points)
        self.assertTrue(1000 <= len(runs) <= 1100, len(runs))
        self.assertEqual(len({run.name() for run in runs}), len(runs))
        self.assertTrue(all(point.traces == (5 if point.figure in ('maps', 'scaling') else 10) for point in points))

    def test_runs_of_a_trace_stand_together(self) -> None:
        order = [run.trace for run in runs_of(Study(traces=2, few=2).points())]
        changes = sum(this != that for this, that in zip(order, order[1:]))
        self.assertEqual(changes + 1, len(set(order)))

    def test_a_run_is_made_once_for_all_figures(self) -> None:
        points = Study(traces=1, few=1).points()
        at = [point for point in points if dict(point.words).get('service-t-job') == '10000000' and not point.workload.map_reduce
              and len(point.words) == 4 and point.workload == Workload(Cell()) and dict(point.words)['window'] == '1000000'
              and dict(point.words).get('ends') == 'own']
        self.assertEqual({point.figure for point in at}, {'busyness', 'conflicts', 'maps', 'load', 'windows'})
        self.assertEqual(len(runs_of(at)), 1)

    def test_words(self) -> None:
        run = Run(Trace(Workload(Cell()), 4), Study().points()[0].words)
        self.assertEqual(' '.join(run.command()), 'simulate --clock free --ends own --window 1000000 --service-t-job 100000 '
                         '--times yes --seed 4')
        self.assertEqual(Workload(Cell(), rate='8').words(), ['steady', '2000', '2', '75', '--rate', '8'])


# Of a trace whose first job comes at 100 seconds and whose last row is at 1,100. Scheduler 2 has placed before what stands
# at the beginning, and goes on with that for 5 seconds; services decide for 100 s in conflict, for 100 with one claim of two
# placed, and for 50 until the last row; the batch scheduler for 10 s, and for 100 without finding a machine.
REPORT = """\
omega 2
round 0
commit 2 1 1
place 1 0 1
commit 2 2 1
place 1 1 1
commit 1 2 10
place 10 0 1
commit 0 2 20
refuse 20 0 1 full 1 1 1
commit 0 4 20
place 20 0 1
refuse 20 1 1 changed 2 1
use cpu 500 1000 mem 0 1000 disk 0 1000
round 5
end 10 0 1
commit 1 5 11
commit 2 6 30
place 30 0 1
place 30 1 1
place 30 2147483648 1
use cpu 800 1000 mem 0 1000 disk 0 1000
round 10
commit 0 7 21
place 21 0 1
commit 0 8 23
place 23 0 1
use cpu 900 1000 mem 0 1000 disk 0 1000
entries 20 rounds 3
scheduler 0 commits 4 empty 0 placing 3 conflicted 2 placed 3 refused 2 withdrawn 0 evicted 0
scheduler 1 commits 2 empty 1 placing 1 conflicted 0 placed 1 refused 0 withdrawn 0 evicted 0
scheduler 2 commits 3 empty 0 placing 3 conflicted 0 placed 5 refused 0 withdrawn 0 evicted 0
use cpu 900 1000 mem 0 1000 disk 0 1000
waiting 1 abandoned 2
busy 0 410000000 1160000000
wait 0 3 160000000
busy 1 110000000 1160000000
wait 1 2 20000000
busy 2 80000000 1160000000
wait 2 2 10000000
time 0 2 0 50000000
time 1 2 50000000 105000000
time 2 1 100000000 110000000
time 3 0 200000000 300000000
time 4 0 300000000 400000000
time 5 1 600000000 700000000
time 6 2 710000000 720000000
time 7 0 1050000000 1150000000
time 8 0 1150000000 1160000000
first 1 2 0 0
first 10 1 100000000 100000000
first 20 0 150000000 200000000
first 11 1 580000000 600000000
first 30 2 700000000 710000000
first 21 0 990000000 1050000000
first 23 0 1090000000 1150000000
"""
FACTS = traces.Facts(100 * SECOND, 1100 * SECOND, {'services': 4, 'batch': 2, 'MapReduce': 1}, 0.5, 'digest')


class Measured(unittest.TestCase):
    def setUp(self) -> None:
        self.found = measures.measured(io.BytesIO(REPORT.encode()), FACTS, 100 * SECOND)

    def of(self, kind: str, **numbers: object) -> None:
        for name, value in numbers.items():
            if isinstance(value, float):
                self.assertAlmostEqual(self.found['kinds'][kind][name], value, places=6, msg=name)
            else:
                self.assertEqual(self.found['kinds'][kind][name], value, name)

    # Of four services two are looked at in time, one ended before, and one is looked at behind the last row. The decision
    # across that row is cut there, and its commit, which is behind it, isn't counted.
    def test_services(self) -> None:
        self.of('services', came=4, decided=2, ended=1, late=1, commits=2, placing=1, conflicted=2, empty=0, busy=0.25,
                conflict_fraction=2.0, per_job=1.0, wait=55.0, wait_90=60.0, empty_share=0.0, beyond=0.06)

    def test_empty_commits(self) -> None:
        self.of('batch', came=2, decided=2, ended=0, late=0, commits=2, placing=1, conflicted=0, empty=1, busy=0.11,
                conflict_fraction=0.0, wait=10.0, wait_90=20.0, empty_share=100 / 110, beyond=0.0)

    # What stands at the beginning is no job that came, and only what is left of its decision counts.
    def test_map_reduce(self) -> None:
        self.of('MapReduce', came=1, decided=1, ended=0, late=0, busy=0.015, wait=10.0)
        self.assertEqual(set(self.found['speedups']), {1.5})

    # From the end of window 0 to that of window 5, and on to that of window 10, which is the last row.
    def test_use(self) -> None:
        self.assertAlmostEqual(self.found['use'], (0.5 * 500 + 0.8 * 500) / 1000)
        self.assertEqual((self.found['over_time'][0], self.found['over_time'][-1]), (0.5, 0.8))
        self.assertEqual((self.found['waiting'], self.found['abandoned']), (1, 2))

    # By the clock of rounds a round may open later than its window is over.
    def test_a_round_that_begins_late(self) -> None:
        late = REPORT.replace('time 4 0 300000000 400000000', 'time 4 0 300000000 800000000')
        found = measures.measured(io.BytesIO(late.encode()), FACTS, 100 * SECOND)
        self.assertAlmostEqual(found['use'], (0.5 * 700 + 0.8 * 300) / 1000)

    def test_a_cut_report(self) -> None:
        for text in ('', REPORT[:REPORT.index('waiting')], REPORT[:REPORT.index('time 8')]):
            with self.assertRaises(Refusal):
                measures.measured(io.BytesIO(text.encode()), FACTS, 100 * SECOND)

    def test_a_report_in_pieces(self) -> None:
        long = REPORT.replace('end 10 0 1\n', 'end 10 0 1\n' * 60_000)
        found = measures.measured(io.BytesIO(long.encode()), FACTS, 100 * SECOND)
        self.assertEqual(found['kinds'], self.found['kinds'])

    def test_quantiles(self) -> None:
        self.assertEqual([measures.quantile(range(1, 11), part) for part in (0, 0.1, 0.11, 0.5, 0.9, 1)], [1, 1, 2, 5, 9, 10])


class Spread(unittest.TestCase):
    def kind(self, **numbers: float) -> List[Dict[str, object]]:
        return [{'kinds': {'batch': {'came': 1000, 'decided': 1000, 'beyond': 0.0, **numbers}}}]

    def test_overtaken(self) -> None:
        for numbers, is_overtaken in (({}, False), ({'decided': 990}, False), ({'decided': 989}, True), ({'beyond': 0.05}, False),
                                      ({'beyond': 0.051}, True)):
            self.assertEqual(spread.is_overtaken(self.kind(**numbers), 'batch'), is_overtaken, numbers)
        # Undecided jobs are counted over all traces; a run that goes on for too long is enough.
        self.assertFalse(spread.is_overtaken(self.kind(decided=985) + self.kind(), 'batch'))
        self.assertTrue(spread.is_overtaken(self.kind(beyond=0.1) + self.kind(), 'batch'))

    def test_intervals(self) -> None:
        self.assertEqual(spread.spread([]), (None, None))
        self.assertEqual(spread.spread([2.0]), (2.0, None))
        self.assertEqual(spread.spread([2.0, None]), (None, None))
        mean, half = spread.spread([1.0, 2.0, 3.0, 4.0, 5.0])
        self.assertEqual(mean, 3.0)
        self.assertAlmostEqual(half or 0, 2.776 * (2.5 / 5) ** 0.5)

    def test_pairs_differ_in_their_choice_alone(self) -> None:
        points = Study(traces=1, few=1).points()
        for choice in spread.CHOICES:
            pairs = spread.pairs_of(points, choice)
            self.assertTrue(pairs, choice.name)
            for these, those in pairs:
                self.assertEqual(these.workload, those.workload)
                differing = {axis for axis in spread.AXES if these.value(axis) != those.value(axis)}
                self.assertTrue(differing and differing <= set(choice.these), (choice.name, differing))


# A program that always prints the same, and notes each call; one that is to stop fails after so many.
FAKE = """\
#!/bin/sh
echo "$*" >>"{folder}/calls"
if [ -f "{folder}/stop" ] && [ "$(wc -l <"{folder}/calls")" -gt 10 ]; then exit 5; fi
cat "{folder}/report"
"""


class Fake(Foldered):
    """A study by the fake program, in a folder of its own."""

    def setUp(self) -> None:
        super().setUp()
        make_fake(self.folder)
        self.program = self.folder / 'omega'

    def study(self, *words: str) -> 'subprocess.CompletedProcess[str]':
        return study_of(self.folder, *words)

    def calls(self) -> int:
        return len((self.folder / 'calls').read_text().splitlines())


def make_fake(folder: Path) -> None:
    # No job of the report came in the fake's traces, so all of these are undecided there.
    (folder / 'report').write_text(REPORT[:REPORT.index('first ')])
    program = folder / 'omega'
    program.write_text(FAKE.format(folder=folder))
    program.chmod(0o755)
    said = subprocess.run([str(ROOT / 'omega.sh'), '--digest'], capture_output=True, text=True, check=True).stdout
    (folder / 'omega.stamp').write_text(said)


def study_of(folder: Path, *words: str) -> 'subprocess.CompletedProcess[str]':
    return subprocess.run(
        [sys.executable, str(BENCH / 'study.py'), '--program', str(folder / 'omega'), '--data', str(folder / 'data'),
         '--docs', str(folder / 'docs'), '--machines', '3', '--hours', '1', '--traces', '1', '--few', '1', *words],
        capture_output=True, text=True, env={**os.environ, 'PYTHONDONTWRITEBYTECODE': '1'})


class Stopped(Fake):
    def test_a_study_that_was_stopped_goes_on(self) -> None:
        (self.folder / 'stop').touch()
        stopped = self.study('--at-once', '1', 'run', 'load')
        self.assertEqual(stopped.returncode, 1)
        self.assertIn('2 runs have failed', stopped.stderr)
        self.assertIn('status 5', stopped.stderr)
        (self.folder / 'stop').unlink()
        with open(self.folder / 'data' / 'runs.jsonl', 'a') as file:
            file.write('{"name": "cut in the')
        before = self.calls()
        went_on = self.study('--at-once', '1', 'run', 'load')
        self.assertEqual(went_on.returncode, 0, went_on.stderr)
        self.assertIn('10 of 12 runs are there already', went_on.stderr)
        self.assertEqual(self.calls() - before, 2)
        self.assertEqual(self.study('run', 'load').returncode, 0)
        self.assertEqual(self.calls() - before, 2)
        self.assertFalse((self.folder / 'data' / 'traces').exists())
        # Another program has all of them made anew.
        self.program.write_text(self.program.read_text() + '# other\n')
        self.assertEqual(self.study('run', 'load').returncode, 0)
        self.assertEqual(self.calls() - before, 2 + 12)

    def test_a_program_of_other_sources_is_refused(self) -> None:
        (self.folder / 'omega.stamp').write_text('0' * 64 + '\n')
        answer = self.study('run', 'load')
        self.assertEqual((answer.returncode, answer.stderr), (
            1, 'study.py: %s was built of other sources than those that are here\n' % self.program))

    def test_words_that_are_none(self) -> None:
        for words in ((), ('run', 'nothing'), ('nothing',)):
            self.assertEqual(self.study(*words).returncode, 2, words)


class Whole(unittest.TestCase):
    """Points and page of a small study by the fake program, made once, without pictures."""

    @classmethod
    def setUpClass(cls) -> None:
        cls.folder = Path(tempfile.mkdtemp())
        cls.addClassCleanup(shutil.rmtree, cls.folder)
        make_fake(cls.folder)
        done = study_of(cls.folder, 'run')
        if done.returncode != 0:
            raise AssertionError(done.stderr)
        cls.place = checking.Place(cls.folder / 'docs')
        kept = running.Kept(cls.folder / 'data', running.program_of(cls.folder / 'omega'))
        checking.write_points(kept, Study(Cell(3, 1), 1, 1), cls.place, 1)
        cls.place.page().write_text('# The page\n' + ''.join(
            '%s\n%s\n' % (tables.mark(name), tables.END) for name in ('about', *tables.TABLES)))
        checking.write_page(cls.place)

    def faults(self) -> List[str]:
        return [fault for fault in checking.faults_of_texts(self.place) if 'are of 1 and 1 traces' not in fault]

    def test_what_is_changed_is_found(self) -> None:
        self.assertEqual(self.faults(), [])
        busy = spread.rows_in(self.place.figures() / 'busyness.csv')[0]['services_busy']
        for name, old, new, says in (
                ('figures/busyness.csv', ',%s,' % busy, ',0.9,', 'the tables of STUDY.md are not those of its points'),
                ('figures/use.csv', 'none,', 'some,', 'the tables of STUDY.md are not those of its points'),
                ('STUDY.md', '(0.', '(1.', 'the tables of STUDY.md are not those of its points'),
                ('figures/maps.csv', ',1..1,', ',1..2,', 'the points are not those of the plan; run study.py all'),
                ('figures/load.csv', ',%s,' % running.sources(), ',%s,' % ('0' * 16),
                 'the points are of another text of the program; run study.py all'),
                ('figures/scaling.csv', ',yes,', ',no,', "scaling.csv: a point of")):
            path = self.place.docs / name
            text = path.read_text()
            self.assertIn(old, text, name)
            path.write_text(text.replace(old, new, 1))
            self.assertIn(says, '\n'.join(self.faults()), name)
            path.write_text(text)
        self.assertEqual(self.faults(), [])

    def test_few_traces_are_told(self) -> None:
        self.assertIn('the points are of 1 and 1 traces, and not of 10 and 5; run study.py all', list(checking.faults_of_texts(self.place)))

    def test_what_is_missing_is_refused(self) -> None:
        path = self.place.figures() / 'maps.csv'
        text = path.read_text()
        path.unlink()
        with self.assertRaises(Refusal):
            self.faults()
        path.write_text(text)

    def test_the_page_has_a_place_for_each_table(self) -> None:
        names = tables.marked((ROOT / 'docs' / 'STUDY.md').read_text())
        self.assertEqual(sorted(names), sorted(['about', *tables.TABLES]))
        with self.assertRaises(Refusal):
            tables.with_tables('nothing', {'about': []})

    @unittest.skipIf(checking.drawing_python() is None, 'there is no matplotlib')
    def test_pictures(self) -> None:
        drawn = study_of(self.folder, 'draw')
        self.assertEqual(drawn.returncode, 0, drawn.stderr)
        self.assertEqual(list(checking.faults_of_pictures(self.place)), [])
        picture = self.place.figures() / 'busyness.svg'
        text = picture.read_text()
        self.assertIn('>decision time of a service, s<', text)
        picture.write_text(text.replace('services', 'servants'))
        (self.place.figures() / 'use.svg').unlink()
        self.assertEqual(list(checking.faults_of_pictures(self.place)), [
            'the picture busyness.svg is not that of its points', 'there is no picture use.svg'])
        # Of another matplotlib's pictures nothing is known.
        picture.write_text(text.replace('services', 'servants').replace('Matplotlib v', 'Matplotlib v0.'))
        self.assertEqual(list(checking.faults_of_pictures(self.place)), ['there is no picture use.svg'])


class Checked(unittest.TestCase):
    # Where the page has no table and there are no points, nothing is claimed yet.
    def test_points_tables_and_pictures_of_the_page(self) -> None:
        place = checking.Place(ROOT / 'docs')
        if not place.made().exists() and not tables.has_tables(place.page().read_text()):
            self.skipTest('the study was not run yet: bench/study.py all')
        answer = subprocess.run([sys.executable, str(BENCH / 'study.py'), '--check'], capture_output=True, text=True,
                                env={**os.environ, 'PYTHONDONTWRITEBYTECODE': '1'})
        self.assertEqual((answer.returncode, answer.stdout), (0, ''), answer.stderr)


if __name__ == '__main__':
    unittest.main()
