"""Sweeps of a program that the tests write: it prints a small report that its words decide."""
import csv
import importlib.util
import os
import shutil
import signal
import subprocess
import sys
import tempfile
import time
import unittest
from pathlib import Path
from unittest import mock

from called import ROOT, TOOLS, Answer, call, program

from omegatools import sweeping as tool  # noqa: E402
from omegatools import estimates, run_numbers, sweep_tables, sweeps  # noqa: E402
from omegatools.common import Refusal

# Its commits in conflict are the seed, and of the rule `coarse` ten more. It notes each call.
FAKE = r"""#!/bin/sh
echo "$*" >>"$0.calls"
sleep "$(cat "$0.sleep" 2>/dev/null || echo 0)"
case "$*" in
*wrong*) echo 'omega: the words are refused' >&2; exit 2 ;;
*kill*) kill -9 $$ ;;
*memory*) echo 'omega: no memory' >&2; exit 5 ;;
*cut*) echo 'omega 2'; exit 0 ;;
esac
seed=$(echo "$*" | sed -n 's/.*--seed \([0-9]*\).*/\1/p')
case "$*" in *coarse*) more=10 ;; *) more=0 ;; esac
c=$((${seed:-0} + more))
cat <<END
omega 2
entries 30 rounds 1
scheduler 0 commits 20 empty 0 placing 10 conflicted $c placed 10 refused $c withdrawn 0 evicted 0
scheduler 1 commits 0 empty 0 placing 0 conflicted 0 placed 0 refused 0 withdrawn 0 evicted 0
scheduler 2 commits 0 empty 0 placing 0 conflicted 0 placed 0 refused 0 withdrawn 0 evicted 0
use cpu 1 2 mem 1 2 disk 0 1
waiting ${seed:-0} abandoned 0
END
"""


class Swept(unittest.TestCase):
    def setUp(self) -> None:
        self.folder = Path(tempfile.mkdtemp())
        self.addCleanup(shutil.rmtree, self.folder)
        self.program = self.folder / 'omega'
        self.program.write_text(FAKE)
        self.program.chmod(0o755)
        self.tables = self.folder / 'slice'
        self.tables.mkdir()
        for table in ('machine_events', 'task_events'):
            (self.tables / (table + '.csv')).write_text('')
        self.runs = self.folder / 'runs'

    def sweep(self, *words: object, own=()) -> Answer:
        return call('sweep.py', tool.main, '--program', self.program, *own, self.runs, *words)

    def calls(self):
        path = Path(str(self.program) + '.calls')
        calls = path.read_text().splitlines() if path.exists() else []
        path.write_text('')
        return sorted(calls)

    def slow(self, seconds: float) -> None:
        Path(str(self.program) + '.sleep').write_text(str(seconds))

    def names(self):
        return sorted(path.name for path in self.runs.iterdir()) if self.runs.exists() else []

    def table(self, name: str):
        with open(self.runs / name, newline='') as file:
            return list(csv.DictReader(file))

    def refused(self, says: str, answer: Answer) -> None:
        self.assertEqual((answer.status, answer.out, answer.err.count('\n')), (1, '', 1), answer)
        self.assertIn(says, answer.err)


class Lists(unittest.TestCase):
    def test_values(self) -> None:
        for text, values in (('fine,coarse', 'fine coarse'), ('1..5', '1 2 3 4 5'), ('1,4,10..12', '1 4 10 11 12'),
                             ('7', '7'), ('', ''), ('0..0', '0'), ('a..b', 'a..b')):
            self.assertEqual(sweeps.values_of(text, 'it'), values.split(' '))
        for text, says in (('5..1', 'no list'), ('1,1', 'twice'), ('1..3,2', 'twice'), ('1..99999999', 'no list')):
            with self.assertRaisesRegex(Refusal, says):
                sweeps.values_of(text, 'it')

    def test_runs(self) -> None:
        runs = sweeps.expanded(['replay,simulate', '--rule', 'fine,coarse', '--seed=1..2'])
        self.assertEqual([' '.join(run.plain()) for run in runs], [
            '%s --seed %d --rule %s' % (command, seed, rule)
            for command in ('replay', 'simulate') for rule in ('fine', 'coarse') for seed in (1, 2)])
        for words, says in ((['--rule', 'fine'], 'there is none'), (['replay', 'run'], 'there are'),
                            (['replay', '--speed', '1'], 'no option'), (['replay', '--rule'], 'no value'),
                            (['play'], 'no command'), (['replay', '--seed', '1', '--seed', '2'], 'twice'),
                            (['replay', '--seed', '1..1000', '--batch', '1..30', '--tries', '1..100'], 'at most')):
            with self.assertRaisesRegex(Refusal, says):
                sweeps.expanded(words)

    def test_names(self) -> None:
        for words, name in ((['replay'], 'replay'), (['replay', '--rule', 'fine', '--seed', '3', '--tables', '/a b/c d'],
                                                      'replay,tables=c_d,seed=3,rule=fine')):
            self.assertEqual(sweeps.name_of(sweeps.expanded(words)[0]), name)
        long, longer = (sweeps.name_of(sweeps.expanded(['replay', '--seed', '1' * n])[0]) for n in (300, 301))
        self.assertTrue(len(long) <= 200 and len(longer) <= 200 and long != longer)


class Estimates(unittest.TestCase):
    # Of Student's distribution, by a table of it.
    def test_within(self) -> None:
        for degrees, value in ((1, 12.7062), (2, 4.3027), (9, 2.2622), (10, 2.2281), (11, 2.2010), (15, 2.1314), (29, 2.0452),
                               (100, 1.9840), (10_000, 1.9602)):
            self.assertAlmostEqual(estimates.within(degrees), value, places=4)

    def test_estimates(self) -> None:
        self.assertIsNone(estimates.estimate([]))
        self.assertEqual(estimates.estimate([3.0]), (3.0, None, None))
        self.assertEqual(estimates.estimate([2.0, 2.0]), (2.0, 2.0, 2.0))
        mean, low, high = estimates.estimate([1.0, 2.0, 3.0])
        self.assertAlmostEqual(mean - low, 4.3027 / 3 ** 0.5)
        self.assertAlmostEqual(high - mean, 4.3027 / 3 ** 0.5)

    # The seeds of one trace aren't independent of each other where there are several traces.
    def test_samples(self) -> None:
        self.assertEqual(sweep_tables.samples([('one', 1), ('one', 2)]), [1, 2])
        self.assertEqual(sweep_tables.samples([('one', 1), ('two', 5), ('one', 2)]), [1.5, 5])
        self.assertEqual(sweep_tables.samples([]), [])


class Here(Swept):
    def test_each_combination_is_kept(self) -> None:
        answer = self.sweep('replay', '--tables', self.tables, '--rule', 'fine,coarse', '--batch', '1,2', '--seed', '1..3')
        self.assertEqual(answer.status, 0, answer)
        self.assertEqual(len(self.calls()), 12)
        name = 'replay,tables=slice,seed=2,batch=1,rule=coarse'
        kept = self.runs / name
        self.assertEqual((kept / 'words').read_text().split('\n'), [
            'replay', '--tables', str(self.tables.resolve()), '--seed', '2', '--batch', '1', '--rule', 'coarse', ''])
        self.assertEqual(((kept / 'status').read_text(), (kept / 'fault.txt').read_text()), ('0\n', ''))
        self.assertGreaterEqual(float((kept / 'seconds').read_text()), 0)
        self.assertEqual(len(self.names()), 15)
        runs = {row['run']: row for row in self.table('runs.csv')}
        self.assertEqual((len(runs), runs[name]['rule'], runs[name]['conflict_fraction'], runs[name]['status']),
                         (12, 'coarse', '1.2', '0'))
        seeds = {(row['rule'], row['batch']): row for row in self.table('seeds.csv')}
        self.assertEqual(len(seeds), 4)
        coarse = seeds['coarse', '2']
        self.assertEqual([coarse['conflict_fraction_' + part] for part in ('mean', 'min', 'max')], ['1.2', '1.1', '1.3'])
        self.assertEqual((coarse['runs'], coarse['traces'], coarse['failed']), ('3', '1', '0'))
        half = 4.3027 * 0.1 / 3 ** 0.5
        for part, value in (('low', 1.2 - half), ('high', 1.2 + half)):
            self.assertAlmostEqual(float(coarse['conflict_fraction_' + part]), value, places=4)
        differences = [row for row in self.table('differences.csv') if row['choice'] == 'rule']
        self.assertEqual([(row['value'], row['against'], row['batch'], row['pairs'], row['conflict_fraction_mean'],
                           row['conflict_fraction_low'], row['conflict_fraction_high']) for row in differences],
                         [('coarse', 'fine', batch, '3', '1', '1', '1') for batch in '12'])
        lines = answer.out.splitlines()
        self.assertEqual(len(lines), 5)
        self.assertRegex(lines[0], '--batch +--rule +runs +conflict fraction +evicted')
        self.assertRegex(lines[1], r'^1 +fine +3 +0\.2 \(0\.1 to 0\.3\) ')

    def test_what_is_there_is_not_run_again(self) -> None:
        words = ('replay', '--tables', self.tables, '--seed', '1..3')
        first = self.sweep(*words)
        self.calls()
        again = self.sweep(*words)
        self.assertEqual((again.status, self.calls()), (0, []))
        self.assertEqual([line.split('  ')[0] for line in again.out.splitlines()],
                         [line.split('  ')[0] for line in first.out.splitlines()])
        self.assertIn('3 runs, of which 3 are there already', again.err)
        self.sweep('replay', '--tables', self.tables, '--seed', '2..5')
        self.assertEqual([line.split()[-1] for line in self.calls()], ['4', '5'])

    def test_what_has_changed_is_run_again(self) -> None:
        words = ('replay', '--tables', self.tables, '--seed', '1,2')
        self.sweep(*words)
        self.calls()
        (self.tables / 'task_events.csv').write_text('1\n')
        self.sweep(*words)
        self.assertEqual(len(self.calls()), 2)
        (self.tables / 'machine_disk.csv').write_text('')
        self.sweep(*words)
        self.assertEqual(len(self.calls()), 2)
        self.program.write_text(FAKE + '\n')
        self.sweep(*words)
        self.assertEqual(len(self.calls()), 2)
        self.sweep(*words)
        self.assertEqual(self.calls(), [])

    # Tables are known by their bytes: where their folder was moved or has another name, the runs stay, and say so.
    def test_tables_that_were_moved(self) -> None:
        words = ('replay', '--rule', 'fine,coarse', '--tables')
        self.sweep(*words, self.tables)
        self.assertEqual(len(self.calls()), 2)
        for place in ('elsewhere/slice', 'elsewhere/other'):
            moved = self.folder / place
            moved.parent.mkdir(exist_ok=True)
            self.tables.rename(moved)
            self.tables = moved
            answer = self.sweep(*words, moved)
            self.assertEqual((answer.status, self.calls()), (0, []), answer)
            self.assertIn('2 runs, of which 2 are there already', answer.err)
            names = {'replay,tables=%s,rule=%s' % (moved.name, rule) for rule in ('fine', 'coarse')}
            self.assertEqual({name for name in self.names() if not name.endswith('.csv')}, names)
            for name in names:
                self.assertIn(str(moved.resolve()), (self.runs / name / 'words').read_text().splitlines())
        moved = self.folder / 'runs elsewhere'
        self.runs.rename(moved)
        self.runs = moved
        self.assertEqual((self.sweep(*words, self.tables).status, self.calls()), (0, []))
        both = self.folder / 'both'
        shutil.copytree(self.tables, both)
        self.assertEqual(self.sweep(*words, '%s,%s' % (self.tables, both)).status, 0)
        self.assertEqual(len(self.calls()), 2)

    # Traces that differ in the seed of their generator alone are of one workload.
    def test_workloads(self) -> None:
        traces = []
        for number in range(3):
            traces.append(self.folder / ('trace-%d' % number))
            shutil.copytree(self.tables, traces[-1])
            (traces[-1] / 'task_events.csv').write_text('%d\n' % number)
            (traces[-1] / 'workload').write_text('steady --load 75\n')
        other = self.folder / 'other'
        shutil.copytree(self.tables, other)
        (other / 'workload').write_text('steady --load 95\n')
        words = ('--seed', '1,4', '--rule', 'fine,coarse', '--tables', ','.join(map(str, [*traces, other])))
        answer = self.sweep('replay', *words)
        self.assertEqual(answer.status, 0, answer)
        found = {(row['workload'], row['rule']): row for row in self.table('seeds.csv')}
        self.assertEqual(len(found), 4)
        fine = found['steady --load 75', 'fine']
        self.assertEqual([fine[name] for name in ('tables', 'runs', 'traces', 'conflict_fraction_mean', 'conflict_fraction_low',
                                                  'conflict_fraction_min', 'conflict_fraction_max')],
                         ['', '6', '3', '0.25', '0.25', '0.1', '0.4'])
        self.assertEqual(found['steady --load 95', 'fine']['tables'], str(other.resolve()))
        differences = {(row['workload'], row['choice']): row for row in self.table('differences.csv')}
        self.assertEqual([differences['steady --load 75', 'rule'][name] for name in ('pairs', 'conflict_fraction_mean')], ['6', '1'])
        self.assertEqual(len(self.table('runs.csv')), 16)
        self.assertEqual({row['workload'] for row in self.table('runs.csv')}, {'steady --load 75', 'steady --load 95'})
        self.calls()
        (other / 'workload').write_text('steady --load 75\n')     # told of otherwise, and no other tables
        self.assertEqual((self.sweep('replay', *words).status, self.calls()), (0, []))
        self.assertEqual(len(self.table('seeds.csv')), 2)
        for text in ('', 'one\ntwo\n', '\n'):
            (other / 'workload').write_text(text)
            self.refused('%s is no line that names a workload' % (other.resolve() / 'workload'), self.sweep('replay', *words))

    # Reports are read where they were made, once.
    def test_reports_are_read_once(self) -> None:
        words = ('generate', '--seed', '1..3')
        first = self.sweep(*words)
        for name in self.names():
            if not name.endswith('.csv'):
                self.assertIn('"conflicted"', (self.runs / name / 'numbers').read_text())
        with mock.patch.object(tool, 'read_numbers', side_effect=AssertionError('read again')):
            again = self.sweep(*words)
        self.assertEqual(again.out.split()[:-1], first.out.split()[:-1])
        report = self.runs / 'generate,seed=2' / 'report.txt'
        report.write_text(report.read_text().replace('waiting 2', 'waiting 7'))
        (self.runs / 'generate,seed=1' / 'numbers').write_text('{')
        self.sweep(*words)
        self.assertEqual([row['waiting'] for row in self.table('runs.csv')], ['1', '7', '3'])
        report.write_text('omega 2\n')
        self.refused_at_the_end(self.sweep(*words))

    # A long report is read by a process beside this one, where it was made or where it is asked for.
    def test_long_reports(self) -> None:
        words = ('generate', '--seed', '1..3')
        with mock.patch.object(run_numbers, 'SHORT', 0):
            first = self.sweep(*words, own=('--at-once', 2))
            self.assertEqual(first.status, 0, first)
            self.assertEqual(len(list(self.runs.glob('*/numbers'))), 3)
            for numbers in list(self.runs.glob('*/numbers'))[:2]:
                numbers.unlink()
            again = self.sweep(*words)
        self.assertEqual(again.out, first.out)
        self.assertEqual(len(list(self.runs.glob('*/numbers'))), 3)

    def refused_at_the_end(self, answer: Answer) -> None:
        self.assertEqual((answer.status, answer.out), (1, ''))
        self.assertIn('is no whole report', answer.err)

    # By --program, else OMEGA_PROGRAM, else what this repository has built, else the path.
    def test_the_program_is_found(self) -> None:
        named = {}
        for name in ('said', 'variable', 'built', 'bin/omega'):
            named[name] = self.folder / name
            named[name].parent.mkdir(exist_ok=True)
            shutil.copy(self.program, named[name])
        with mock.patch.object(tool, 'BUILT', named['built']), mock.patch.object(tool, 'ROOT', self.folder), \
                mock.patch.dict(os.environ, {'OMEGA_PROGRAM': str(named['variable']), 'PATH': str(self.folder / 'bin')}):
            for says, chosen in (('said', named['said']), ('variable', None)):
                self.assertEqual(tool.program_of(chosen), named[says])
            with self.assertRaisesRegex(Refusal, 'no program .*/none, which OMEGA_PROGRAM names'):
                os.environ['OMEGA_PROGRAM'] = str(self.folder / 'none')
                tool.program_of(None)
            del os.environ['OMEGA_PROGRAM']
            for says in ('built', 'bin/omega'):
                self.assertEqual(tool.program_of(None), named[says])
                named[says].unlink()
            with self.assertRaisesRegex(Refusal, 'named by --program or OMEGA_PROGRAM, or is `omega` on the path'):
                tool.program_of(None)
            (self.folder / 'omega.sh').write_text('')
            with self.assertRaisesRegex(Refusal, 'omega.sh --prove builds it'):
                tool.program_of(None)

    def test_refused_words_are_kept(self) -> None:
        answer = self.sweep('generate', '--rule', 'fine,wrong')
        self.assertEqual(answer.status, 1)
        self.assertIn('generate,rule=wrong: status 2, omega: the words are refused', answer.err)
        self.assertEqual(len(self.calls()), 2)
        seeds = {row['rule']: row for row in self.table('seeds.csv')}
        self.assertEqual((seeds['wrong']['failed'], seeds['wrong']['commits_mean']), ('1', ''))
        self.sweep('generate', '--rule', 'fine,wrong')
        self.assertEqual(self.calls(), [])

    def test_what_was_ended_from_outside_is_run_again(self) -> None:
        answer = self.sweep('generate', '--rule', 'kill,memory,fine')
        self.assertEqual(answer.status, 1)
        self.assertIn('generate,rule=kill: status 137', answer.err)
        self.assertIn('generate,rule=memory: status 5, omega: no memory', answer.err)
        self.calls()
        self.sweep('generate', '--rule', 'kill,memory,fine')
        self.assertEqual(self.calls(), ['generate --rule kill', 'generate --rule memory'])

    def test_a_report_that_is_cut(self) -> None:
        answer = self.sweep('generate', '--rule', 'cut')
        self.assertEqual((answer.status, answer.out), (1, ''))
        self.assertIn('is no whole report', answer.err)

    def test_refused(self) -> None:
        self.refused('there is no program', call('sweep.py', tool.main, '--program', self.folder / 'none', self.runs, 'replay'))
        self.refused('has no machine_events.csv', self.sweep('replay', '--tables', self.folder))
        self.refused('there is none', self.sweep())
        self.refused('no option of omega', self.sweep('replay', '--at-once', '3'))
        self.refused('--at-once is at least 1', self.sweep('generate', own=('--at-once', 0)))
        self.refused('no run is kept', call('sweep.py', tool.main, '--collect', self.folder))
        self.refused('there are no words', call('sweep.py', tool.main, '--collect', self.runs, 'replay'))
        other = self.folder / 'other' / 'slice'
        shutil.copytree(self.tables, other)
        self.refused('two runs would be called', self.sweep('replay', '--tables', '%s,%s' % (self.tables, other)))
        self.assertEqual((self.calls(), self.names()), ([], []))
        self.sweep('replay', '--tables', self.tables)
        (other / 'task_events.csv').write_text('1\n')
        self.refused('is there already, with other words', self.sweep('replay', '--tables', other))

    def test_tables_are_the_callers_where_none_are_named(self) -> None:
        before = os.getcwd()
        self.addCleanup(os.chdir, before)
        os.chdir(self.tables)
        self.assertEqual(self.sweep('replay').status, 0)
        self.assertEqual(self.calls(), ['replay --tables %s' % self.tables.resolve()])

    def test_it_is_stopped_and_goes_on(self) -> None:
        self.slow(0.4)
        words = ['generate', '--seed', '1..12']
        started = subprocess.Popen([sys.executable, str(TOOLS / 'sweep.py'), '--program', str(self.program), '--at-once', '2',
                                    str(self.runs), *words], stdout=subprocess.PIPE, stderr=subprocess.PIPE, text=True)
        for _ in range(1000):
            if len([name for name in self.names() if not name.startswith('.')]) >= 2:
                break
            time.sleep(0.01)
        started.send_signal(signal.SIGTERM)
        out, err = started.communicate(timeout=20)
        self.assertEqual((started.returncode, out), (143, ''), err)
        kept = self.names()
        self.assertTrue(2 <= len(kept) < 12 and not any(name.startswith('.') for name in kept), kept)
        self.calls()
        self.slow(0)
        self.assertEqual(self.sweep(*words).status, 0)
        self.assertEqual(len(self.calls()), 12 - len(kept))

    def test_as_many_at_once(self) -> None:
        self.slow(1)
        begin = time.monotonic()
        self.assertEqual(self.sweep('generate', '--seed', '1..8', own=('--at-once', 8)).status, 0)
        self.assertLess(time.monotonic() - begin, 7.9)

    def test_of_the_program(self) -> None:
        self.program = program(self.folder)
        choices = ROOT / 'examples' / 'choices'
        answer = self.sweep('replay', '--tables', choices, '--batch', '2', '--rule', 'fine,coarse')
        self.assertEqual(answer.status, 0, answer)
        for name in ('batch-2', 'batch-2-coarse'):
            kept = self.runs / ('replay,tables=choices,batch=2,rule=' + ('coarse' if 'coarse' in name else 'fine'))
            self.assertEqual((kept / 'report.txt').read_text(), (choices / name / 'report.txt').read_text())

    def test_help(self) -> None:
        answer = subprocess.run([sys.executable, str(TOOLS / 'sweep.py'), '--help'], capture_output=True, text=True)
        self.assertEqual((answer.returncode, answer.stderr), (0, ''))
        self.assertTrue(answer.stdout.startswith('usage: sweep.py'))


class Elsewhere(Swept):
    def test_printed_lines_are_collected(self) -> None:
        words = ('replay', '--tables', self.tables, '--rule', 'fine,wrong', '--seed', '1,2')
        printed = self.sweep(*words, own=('--print',))
        self.assertEqual((printed.status, printed.err, self.calls(), self.names()), (0, '', [], []))
        lines = printed.out.splitlines()
        self.assertEqual(len(lines), 4)
        for line in lines:
            subprocess.run(['sh', '-c', line], check=True)
        collected = call('sweep.py', tool.main, '--collect', self.runs)
        self.assertEqual(collected.status, 1)
        self.assertEqual(len(self.calls()), 4)
        self.assertEqual([row['status'] for row in self.table('runs.csv')], ['0', '2', '0', '2'])
        self.assertEqual(self.sweep(*words, own=('--print',)).out, '')
        self.assertEqual(self.sweep(*words).out, collected.out)
        self.assertEqual(self.calls(), [])

    def test_names_with_blanks_and_quotes(self) -> None:
        tables = self.folder / "it's a slice"
        shutil.copytree(self.tables, tables)
        for line in self.sweep('replay', '--tables', tables, own=('--print',)).out.splitlines():
            subprocess.run(['sh', '-c', line], check=True)
        self.assertEqual(call('sweep.py', tool.main, '--collect', self.runs).status, 0)
        self.assertEqual(self.table('runs.csv')[0]['tables'], str(tables.resolve()))

    def test_a_run_that_was_not_finished_is_not_collected(self) -> None:
        self.sweep('generate', '--seed', '1,2')
        (self.runs / 'generate,seed=1' / 'status').unlink()
        call('sweep.py', tool.main, '--collect', self.runs)
        self.assertEqual([row['run'] for row in self.table('runs.csv')], ['generate,seed=2'])

    def test_without_dask(self) -> None:
        with mock.patch.dict(sys.modules, {'distributed': None}):
            answer = self.sweep('generate', own=('--dask', 'tcp://127.0.0.1:1'))
        self.assertEqual(answer.status, 1)
        self.assertIn('needs the Python package distributed', answer.err)


@unittest.skipIf(importlib.util.find_spec('distributed') is None, 'this Python has no distributed')
class ByDask(Swept):
    def start(self, *words: str) -> 'subprocess.Popen[bytes]':
        started = subprocess.Popen([sys.executable, '-m', *words], cwd=self.folder, stdout=subprocess.DEVNULL,
                                   stderr=subprocess.DEVNULL)
        self.addCleanup(started.wait)
        self.addCleanup(started.kill)
        return started

    # A scheduler and two workers; one of these is killed while it has a run.
    def test_a_worker_is_killed(self) -> None:
        self.slow(0.5)
        file = self.folder / 'scheduler.json'
        self.start('distributed.cli.dask_scheduler', '--no-dashboard', '--host', '127.0.0.1', '--port', '0',
                   '--scheduler-file', str(file))
        workers = [self.start('distributed.cli.dask_worker', '--scheduler-file', str(file), '--nthreads', '1',
                              '--no-nanny', '--no-dashboard', '--name', name) for name in ('one', 'two')]
        import distributed
        with distributed.Client(scheduler_file=str(file), timeout=60) as client:
            client.wait_for_workers(2, timeout=60)
            address = client.scheduler.address
        swept = subprocess.Popen([sys.executable, str(TOOLS / 'sweep.py'), '--program', str(self.program), '--dask', address,
                                  str(self.runs), 'generate', '--seed', '1..8'], stdout=subprocess.PIPE,
                                 stderr=subprocess.PIPE, text=True)
        for _ in range(2000):
            if len([name for name in self.names() if not name.startswith('.')]) >= 2:
                break
            time.sleep(0.01)
        workers[0].kill()
        out, err = swept.communicate(timeout=60)
        self.assertEqual(swept.returncode, 0, err)
        self.assertIn('8 of 8: generate,seed=', err)
        self.assertEqual(len(self.table('runs.csv')), 8)
        self.assertEqual(len(self.names()), 11)
        self.assertEqual(len(list(self.runs.glob('*/numbers'))), 8)
        self.assertGreaterEqual(len(self.calls()), 8)

    def test_no_scheduler(self) -> None:
        with mock.patch.object(tool, 'DASK_PATIENCE', 1):
            answer = self.sweep('generate', own=('--dask', 'tcp://127.0.0.1:1'))
        self.assertEqual(answer.status, 1)
        self.assertIn('no scheduler of dask answers at tcp://127.0.0.1:1', answer.err)


if __name__ == '__main__':
    unittest.main()
