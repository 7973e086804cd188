"""Slices of traces that the tests write, whole ones and damaged ones."""
import gzip
import os
import random
import shutil
import signal
import subprocess
import sys
import tempfile
import time
import unittest
from pathlib import Path
from unittest import mock

from called import TOOLS, Answer, call, program

from omegatools import slicing as tool  # noqa: E402
from omegatools import trace_parts  # noqa: E402

WORD_FAULTS = (
    (('25h', '25h'), 'FROM comes before TO'),
    (('27h', '25h'), 'FROM comes before TO'),
    (('soon', '25h'), "'soon' is no time"),
    (('0', '1e9'), "'1e9' is no time"),
    (('0', '9223372036854775808'), 'above the greatest time'),
)

# A table, a row for it, and what is said of it.
ROW_FAULTS = (
    ('machine_events', '0,1,0,p,1', '5 fields, and not 6'),
    ('machine_events', 'x,1,0,p,1,1', 'column 1: not a whole number'),
    ('machine_events', '0,,0,p,1,1', 'column 2: not a whole number'),
    ('machine_events', '0,1,3,p,1,1', 'column 3: out of range'),
    ('machine_events', '0,1,0,p,one,1', 'column 5: not a quantity'),
    ('machine_events', '0,1,0,p,1,1000.5', 'column 6: not a quantity'),
    ('machine_attributes', '0,1,a,b', '4 fields, and not 5'),
    ('machine_attributes', '0,-1,a,b,0', 'column 2: not a whole number'),
    ('machine_attributes', '0,1,a,b,2', 'column 5: out of range'),
    ('task_events', '', '1 field, and not 13'),
    ('task_events', '0,,3,0,,0,u,0,1,0.1,0.1,0.1', '12 fields, and not 13'),
    ('task_events', '9223372036854775808,,3,0,,0,u,0,1,0.1,0.1,0.1,0', 'column 1: out of range'),
    ('task_events', '0,,18446744073709551616,0,,0,u,0,1,0.1,0.1,0.1,0', 'column 3: not a whole number'),
    ('task_events', '0,,3,2147483648,,0,u,0,1,0.1,0.1,0.1,0', 'column 4: out of range'),
    ('task_events', '0,,3,0,,9,u,0,1,0.1,0.1,0.1,0', 'column 6: out of range'),
    ('task_events', '0,,3,0,,,u,0,1,0.1,0.1,0.1,0', 'column 6: not a whole number'),
    ('task_events', '0,,3,0,,0,u,4,1,0.1,0.1,0.1,0', 'column 8: out of range'),
    ('task_events', '0,,3,0,,0,u,0,256,0.1,0.1,0.1,0', 'column 9: out of range'),
    ('task_events', '0,,3,0,,0,u,0,1,-0.1,0.1,0.1,0', 'column 10: not a quantity'),
    ('task_events', '0,,3,0,,0,u,0,1,0.1,.,0.1,0', 'column 11: not a quantity'),
    ('task_events', '0,,3,0,,0,u,0,1,0.1,0.1,1e,0', 'column 12: not a quantity'),
    ('task_events', '0,,3,0,,0,u,0,1,0.1,0.1,0.1,2', 'column 13: out of range'),
    ('task_events', '0,,3,0,,0,"u",0,1,0.1,0.1,0.1,0', 'a quoted field'),
    ('task_constraints', '0,3,0,kernel,4,18', 'column 4: not a whole number'),
    ('task_constraints', '0,3,0,4,kernel,18', 'column 4: out of range'),
)

# Rows that are right, though written in an unusual way.
UNUSUAL_ROWS = (
    '0,,0003,0,,00,u,,,,,,',
    '0,,3,0,,0,u,0,1,1e-3,5.,.5,0',
    '0,,18446744073709551615,2147483647,,0,u,3,255,1000,1E+2,0,1',
)


def lines(*rows: str) -> bytes:
    return ''.join(row + '\n' for row in rows).encode()


class Trace:
    """A trace of a few machines and jobs, as rows of four tables."""

    def __init__(self, seed: int = 1) -> None:
        dice = random.Random(seed)
        self.machines = ['%d,%d,%d,p,1,1' % (dice.choice((0, 0, 700, 950)), 1 + dice.randrange(40), dice.randrange(3))
                         for _ in range(60)]
        self.attributes = ['%d,%d,%s,%d,%d' % (at, 1 + dice.randrange(40), dice.choice('abc'), at, dice.randrange(2))
                           for at in sorted(dice.randrange(1000) for _ in range(120))]
        self.tasks = ['%d,,%d,%d,,%d,u,0,1,0.%d,0.1,0.1,0' % (
            at, 10 + dice.randrange(40), dice.randrange(3), dice.choice((0, 0, 1, 2, 3, 4, 5, 6, 7, 8)),
            1 + dice.randrange(9)) for at in sorted(dice.randrange(1000) for _ in range(900))]
        self.constraints = ['%d,%d,%d,%d,%s,5' % (
            at, 10 + dice.randrange(40), dice.randrange(3), dice.randrange(4), dice.choice('ab'))
            for at in sorted(dice.randrange(1000) for _ in range(90))]

    def tables(self):
        return {'machine_events': self.machines, 'machine_attributes': self.attributes, 'task_events': self.tasks,
                'task_constraints': self.constraints}

    def write(self, folder: Path, parts: int) -> None:
        for table, rows in self.tables().items():
            whole = parts if table.startswith('task') else 1
            (folder / table).mkdir(parents=True)
            for number in range(whole):
                chunk = rows[len(rows) * number // whole:len(rows) * (number + 1) // whole]
                path(folder, table, number, whole).write_bytes(gzip.compress(lines(*chunk), mtime=0))


def path(folder: Path, table: str, number: int, whole: int) -> Path:
    return folder / table / ('part-%05d-of-%05d.csv.gz' % (number, whole))


def expected(trace: Trace, begin: int, end: int, takes=lambda number: True):
    """The slice by its plain meaning, from all rows at once."""
    def split(rows):
        return [(int(row.split(',')[0]), row.split(',')) for row in rows]

    def joined(at, fields):
        return ','.join([str(max(at, begin))] + fields[1:])

    machines = sorted((pair for pair in split(trace.machines) if pair[0] < end and takes(int(pair[1][1]))),
                      key=lambda pair: pair[0])
    wanted, within = {}, []
    for at, fields in split(trace.tasks):
        task, code = (fields[2], fields[3]), int(fields[5])
        if at >= end or not takes(int(fields[2])):
            continue
        if at >= begin:
            within.append(','.join(fields))
        elif code in (0, 1) or (code in (7, 8) and task in wanted):
            wanted[task] = fields
        elif code in (3, 4, 5, 6):
            wanted.pop(task, None)
    tasks = [joined(begin, fields[:5] + ['0'] + fields[6:]) for fields in wanted.values()] + within
    known = {tuple(row.split(',')[2:4]) for row in tasks}
    constraints = {}
    for at, fields in split(trace.constraints):
        if at < end and (fields[1], fields[2]) in known:
            constraints.setdefault(tuple(fields[1:]), ','.join(fields))
    names = {key[3] for key in constraints}
    last, later = {}, []
    for at, fields in split(trace.attributes):
        if at < end and fields[2] in names and takes(int(fields[1])):
            if at >= begin:
                later.append(','.join(fields))
            else:
                last[fields[1], fields[2]] = joined(at, fields)
    return {'machine_events': [joined(*pair) for pair in machines], 'task_events': tasks,
            'task_constraints': list(constraints.values()), 'machine_attributes': list(last.values()) + later}


class Sliced(unittest.TestCase):
    def setUp(self) -> None:
        self.folder = Path(tempfile.mkdtemp())
        self.addCleanup(shutil.rmtree, self.folder)
        self.trace = self.folder / 'trace'
        self.slice = self.folder / 'slice'

    # With several workers the tool is called as a process of its own.
    def cut(self, *words: object, begin: object = 400, end: object = 700, workers: int = 1) -> Answer:
        said = ['--quiet', '--processors', workers, *words, self.trace, self.slice, begin, end]
        if workers == 1:
            return call('slice.py', tool.main, *said)
        answer = subprocess.run([sys.executable, str(TOOLS / 'slice.py'), *map(str, said)], capture_output=True, text=True)
        return Answer(answer.returncode, answer.stdout, answer.stderr)

    def refused(self, answer: Answer, *says: str) -> None:
        self.assertEqual((answer.status, answer.out, answer.err.count('\n')), (1, '', 1), answer)
        for part in says:
            self.assertIn(part, answer.err)
        self.assertEqual([entry.name for entry in self.folder.iterdir()], ['trace'] if self.trace.exists() else [])

    def tables(self):
        return {file.stem: file.read_text().splitlines() for file in self.slice.glob('*')}


class Whole(Sliced):
    def test_by_its_meaning(self) -> None:
        for seed, parts, workers in ((1, 1, 1), (2, 5, 1), (3, 12, 3)):
            for begin, end in ((400, 700), (0, 300), (999, 1001)):
                with self.subTest(seed=seed, begin=begin):
                    trace = Trace(seed)
                    trace.write(self.trace, parts)
                    answer = self.cut(begin=begin, end=end, workers=workers)
                    self.assertEqual((answer.status, answer.err), (0, ''))
                    self.assertEqual(self.tables(), expected(trace, begin, end))
                    shutil.rmtree(self.trace)
                    shutil.rmtree(self.slice)

    def test_changes_are_laid_down_in_between(self) -> None:
        trace = Trace(4)
        trace.write(self.trace, 3)
        with mock.patch.object(trace_parts, 'MOST_CHANGES', 7):
            self.assertEqual(self.cut().status, 0)
        self.assertEqual(self.tables(), expected(trace, 400, 700))

    def test_share(self) -> None:
        trace = Trace()
        trace.write(self.trace, 3)
        share = trace_parts.share_of('1/4')
        self.assertEqual(self.cut('--share', '1/4').status, 0)
        self.assertEqual(self.tables(), expected(trace, 400, 700, lambda number: share.takes(b'%d' % number)))

    # Also over numbers that have a remainder in common, and then by each remainder.
    def test_share_is_even(self) -> None:
        for step in (1, 2, 8, 16, 1000):
            taken = [n for n in range(0, 8000 * step, step) if trace_parts.share_of('1/8').takes(b'%d' % n)]
            self.assertAlmostEqual(len(taken), 1000, delta=20)
            for remainder in range(4):
                count = sum(1 for n in taken if n // step % 4 == remainder)
                self.assertAlmostEqual(count, 250, delta=20)

    def test_all_of_it_is_a_share(self) -> None:
        trace = Trace()
        trace.write(self.trace, 2)
        self.assertEqual(self.cut('--share', '3/3').status, 0)
        self.assertEqual(self.tables(), expected(trace, 400, 700))

    def test_times_with_units(self) -> None:
        trace = Trace()
        trace.tasks = [row.replace(',', '000000,', 1) for row in trace.tasks]
        trace.write(self.trace, 2)
        self.assertEqual(self.cut(begin='6m40s', end='700s').status, 0)
        self.assertEqual(self.tables()['task_events'], expected(trace, 400_000_000, 700_000_000)['task_events'])

    # They may be missing or damaged, where the part before them reaches the end.
    def test_parts_behind_the_end(self) -> None:
        trace = Trace()
        trace.write(self.trace, 9)
        for table in ('task_events', 'task_constraints'):
            path(self.trace, table, 7, 9).unlink()
            whole = path(self.trace, table, 8, 9)
            whole.write_bytes(whole.read_bytes()[:-5])
        self.assertEqual(self.cut(end=600).status, 0)
        self.assertEqual(self.tables(), expected(trace, 400, 600))

    def test_parts_that_are_not_compressed(self) -> None:
        trace = Trace()
        trace.write(self.trace, 3)
        part = path(self.trace, 'task_events', 1, 3)
        part.with_suffix('').write_bytes(gzip.decompress(part.read_bytes()))
        part.unlink()
        self.assertEqual(self.cut().status, 0)
        self.assertEqual(self.tables(), expected(trace, 400, 700))

    def test_unusual_rows(self) -> None:
        trace = Trace()
        trace.tasks = list(UNUSUAL_ROWS)
        trace.write(self.trace, 1)
        self.assertEqual(self.cut(begin=0).status, 0)
        self.assertEqual(self.tables()['task_events'], list(UNUSUAL_ROWS))

    def test_zeros_in_front(self) -> None:
        trace = Trace()
        plain = expected(trace, 400, 700)['task_events']
        trace.tasks = [','.join(['00' + cell if place in (0, 2, 3, 5) and number % 3 == 0 else cell
                                 for place, cell in enumerate(row.split(','))]) for number, row in enumerate(trace.tasks)]
        trace.constraints = [row.replace(',', ',0', 1) for row in trace.constraints]
        trace.write(self.trace, 3)
        self.assertEqual(self.cut().status, 0)
        found = [','.join(str(int(cell)) if place in (0, 2, 3, 5) else cell for place, cell in enumerate(row.split(',')))
                 for row in self.tables()['task_events']]
        self.assertEqual(found, plain)
        self.assertGreater(len(self.tables()['task_constraints']), 0)

    def test_summary_and_progress(self) -> None:
        Trace().write(self.trace, 3)
        answer = call('slice.py', tool.main, '--processors', 1, self.trace, self.slice, 400, 700)
        used = sum(len(rows) for rows in self.tables().values())
        self.assertIn('%d rows, 0.0 %% of the 2,000,000 that omega takes' % used, answer.out)
        self.assertIn('task_events: 3 of 3 parts; ', answer.err)
        self.assertIn(' of 2,000,000 rows used', answer.err)

    def test_it_replays(self) -> None:
        Trace().write(self.trace, 3)
        self.assertEqual(self.cut().status, 0)
        report = subprocess.run([str(program(self.folder)), 'replay', '--tables', str(self.slice)], capture_output=True,
                                text=True)
        self.assertEqual((report.returncode, report.stderr), (0, ''))
        self.assertTrue(report.stdout.startswith('omega 2\nround 0\n'))

    def test_help(self) -> None:
        answer = subprocess.run([sys.executable, str(TOOLS / 'slice.py'), '--help'], capture_output=True, text=True)
        self.assertEqual((answer.returncode, answer.stderr), (0, ''))
        self.assertTrue(answer.stdout.startswith('usage: slice.py'))


class Refused(Sliced):
    def test_words(self) -> None:
        Trace().write(self.trace, 1)
        for (begin, end), says in WORD_FAULTS:
            with self.subTest(begin=begin, end=end):
                self.refused(self.cut(begin=begin, end=end), says)
        for share in ('8', '0/8', '9/8', '1/0', 'a/b', '1/8/2'):
            with self.subTest(share=share):
                self.refused(self.cut('--share', share), "'%s' is no share" % share)

    def test_rows(self) -> None:
        for table, row, says in ROW_FAULTS:
            with self.subTest(table=table, row=row):
                trace = Trace()
                trace.tables()[table].insert(0, row)
                trace.write(self.trace, 1)
                self.refused(self.cut(), '%s row 1: %s' % (path(self.trace, table, 0, 1), says))
                shutil.rmtree(self.trace)

    def test_a_row_far_behind(self) -> None:
        trace = Trace()
        trace.tasks[500] = trace.tasks[500] + ','
        trace.write(self.trace, 3)
        for workers in (1, 3):
            self.refused(self.cut(workers=workers), '%s row 201: 14 fields' % path(self.trace, 'task_events', 1, 3))

    def test_streams_that_are_cut_or_damaged(self) -> None:
        for table in ('machine_events', 'machine_attributes', 'task_events', 'task_constraints'):
            for spoil in (lambda data: data[:-9], lambda data: data[:len(data) // 2], lambda data: data[:5],
                          lambda data: data[:-8] + b'\0' * 4 + data[-4:], lambda data: data + b'more'):
                with self.subTest(table=table):
                    Trace().write(self.trace, 1)
                    part = path(self.trace, table, 0, 1)
                    part.write_bytes(spoil(part.read_bytes()))
                    self.refused(self.cut(), '%s row ' % part, 'cut or damaged')
                    shutil.rmtree(self.trace)

    def test_no_stream(self) -> None:
        Trace().write(self.trace, 3)
        part = path(self.trace, 'task_events', 1, 3)
        for data in (b'0,,3,0,,0,u,0,1,0.1,0.1,0.1,0\n', b'\x1f\x8b'):
            part.write_bytes(data)
            self.refused(self.cut(), '%s row 1' % part, 'cut or damaged')

    def test_the_last_row_is_cut(self) -> None:
        Trace().write(self.trace, 1)
        part = path(self.trace, 'task_constraints', 0, 1)
        part.write_bytes(gzip.compress(gzip.decompress(part.read_bytes())[:-1]))
        self.refused(self.cut(), '%s row 90: ' % part, 'ends in the middle of a row')

    def test_a_part_is_missing(self) -> None:
        Trace().write(self.trace, 9)
        for table, number in (('task_events', 2), ('task_events', 0), ('task_constraints', 3)):
            with self.subTest(table=table, number=number):
                part = path(self.trace, table, number, 9)
                kept = part.read_bytes()
                part.unlink()
                self.refused(self.cut(), '%s: this part is missing' % part)
                part.write_bytes(kept)

    def test_the_parts_end_too_early(self) -> None:
        trace = Trace()
        trace.write(self.trace, 9)
        for number in range(4, 9):
            path(self.trace, 'task_events', number, 9).unlink()
        last = trace.tasks[399].split(',')[0]
        self.refused(self.cut(), '%s: this part is missing, and those before it end at %s' % (
            path(self.trace, 'task_events', 4, 9), last))
        path(self.trace, 'machine_events', 0, 1).rename(path(self.trace, 'machine_events', 0, 2))
        self.refused(self.cut(), '%s: this part is missing' % path(self.trace, 'machine_events', 1, 2))

    def test_names_of_parts(self) -> None:
        for name, says in (('part-00003-of-00003.csv.gz', 'part 3 of 3'), ('part-00000-of-00004.csv.gz', 'part 0 is there twice'),
                           ('part-00003-of-00004.csv.gz', 'speak of 3 and of 4'), ('part-00001.csv.gz', 'no name of a part'),
                           ('part-00000-of-00003.csv.gz.part', 'no name of a part')):
            with self.subTest(name=name):
                Trace().write(self.trace, 3)
                (self.trace / 'task_events' / name).write_bytes(b'')
                self.refused(self.cut(), says)
                shutil.rmtree(self.trace)

    def test_a_table_is_missing(self) -> None:
        for table in ('machine_events', 'machine_attributes', 'task_events', 'task_constraints'):
            with self.subTest(table=table):
                Trace().write(self.trace, 1)
                shutil.rmtree(self.trace / table)
                self.refused(self.cut(), '%s: there are no parts in it' % (self.trace / table))
                shutil.rmtree(self.trace)

    def test_no_trace(self) -> None:
        self.refused(self.cut(), 'there are no parts in it')

    def test_order_of_time(self) -> None:
        for table in ('task_events', 'task_constraints'):
            trace = Trace()
            rows = trace.tables()[table]
            rows[5] = '999' + rows[5][rows[5].index(','):]
            trace.write(self.trace, 1)
            self.refused(self.cut(), '%s row 7: its time' % path(self.trace, table, 0, 1), 'comes before 999')
            shutil.rmtree(self.trace)

    def test_order_of_parts(self) -> None:
        Trace().write(self.trace, 3)
        first, second = (path(self.trace, 'task_events', number, 3) for number in (0, 1))
        first.rename(first.with_name('kept'))
        second.rename(first)
        first.with_name('kept').rename(second)
        self.refused(self.cut(), '%s row 1: its time' % second, 'with which the part before ends')

    def test_too_many_rows(self) -> None:
        Trace().write(self.trace, 2)
        with mock.patch.object(tool, 'MOST_ROWS', 100):
            self.refused(self.cut(), 'omega takes 100: take a shorter one, or --share 1/')

    def test_too_many_machines(self) -> None:
        Trace().write(self.trace, 2)
        with mock.patch.object(tool, 'MOST_MACHINES', 9):
            self.refused(self.cut(), 'machines, and omega takes 9')

    def test_too_many_bytes(self) -> None:
        Trace().write(self.trace, 2)
        with mock.patch.object(tool, 'MOST_BYTES', 1000):
            self.refused(self.cut(), 'bytes, and omega takes 1,000')

    def test_the_folder_is_there(self) -> None:
        Trace().write(self.trace, 1)
        self.slice.mkdir()
        (self.slice / 'mine').write_text('mine')
        answer = self.cut()
        self.assertEqual(answer.status, 1)
        self.assertIn('is there already', answer.err)
        self.assertEqual(self.tables(), {'mine': ['mine']})

    # A worker reads a part that is a pipe, into which nothing comes, and is killed there.
    @unittest.skipUnless(Path('/proc/self/fd').exists(), 'there is no /proc')
    def test_a_worker_is_killed(self) -> None:
        Trace().write(self.trace, 3)
        part = path(self.trace, 'machine_attributes', 0, 1)
        part.unlink()
        pipe = part.with_suffix('')
        os.mkfifo(pipe)
        running = subprocess.Popen([sys.executable, str(TOOLS / 'slice.py'), '--quiet', '--processors', '2', str(self.trace),
                                    str(self.slice), '400', '700'], stdout=subprocess.PIPE, stderr=subprocess.PIPE, text=True)
        self.addCleanup(running.kill)
        self.addCleanup(os.close, self.opened(pipe))
        reading = self.reader_of(pipe)
        self.assertNotEqual(reading, running.pid)
        os.kill(reading, signal.SIGKILL)
        out, err = running.communicate(timeout=20)
        self.refused(Answer(running.returncode, out, err), 'was ended from outside')

    # The pipe opened for writing, once somebody reads.
    @staticmethod
    def opened(pipe: Path) -> int:
        for _ in range(2000):
            try:
                return os.open(pipe, os.O_WRONLY | os.O_NONBLOCK)
            except OSError:
                time.sleep(0.01)
        raise AssertionError('nobody reads the pipe')

    # The process other than this one that has the pipe open.
    def reader_of(self, pipe: Path) -> int:
        for _ in range(2000):
            for process in Path('/proc').glob('[0-9]*'):
                if int(process.name) != os.getpid() and self.has_open(process, pipe):
                    return int(process.name)
            time.sleep(0.01)
        raise AssertionError('no process has the pipe open')

    @staticmethod
    def has_open(process: Path, file: Path) -> bool:
        try:
            return any(os.readlink(link) == os.path.realpath(file) for link in (process / 'fd').iterdir())
        except OSError:
            return False

    # A part that is a pipe is waited for; then the tool is asked to end.
    def test_it_is_ended_in_the_middle(self) -> None:
        Trace().write(self.trace, 3)
        part = path(self.trace, 'machine_attributes', 0, 1)
        part.unlink()
        os.mkfifo(part.with_suffix(''))
        for workers in ('1', '2'):
            running = subprocess.Popen(
                [sys.executable, str(TOOLS / 'slice.py'), '--quiet', '--processors', workers, str(self.trace),
                 str(self.slice), '400', '700'], stdout=subprocess.PIPE, stderr=subprocess.PIPE, text=True)
            for _ in range(500):
                if len(list(self.folder.iterdir())) == 2:
                    break
                time.sleep(0.01)
            time.sleep(0.1)
            running.send_signal(signal.SIGTERM)
            out, err = running.communicate(timeout=20)
            self.assertEqual((running.returncode, out, err[:2000]), (143, '', 'slice.py: terminated\n'))
            self.assertEqual([entry.name for entry in self.folder.iterdir()], ['trace'])


if __name__ == '__main__':
    unittest.main()
