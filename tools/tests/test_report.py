"""Reports that are whole, cut and spoiled."""
import base64
import bz2
import csv
import gzip
import html
import importlib.util
import io
import json
import lzma
import os
import re
import shutil
import subprocess
import sys
import tempfile
import unittest
from pathlib import Path

from called import ROOT, TOOLS, Answer, call

from omegatools import reporting as tool  # noqa: E402
from omegatools import words  # noqa: E402

CHOICES = ROOT / 'examples' / 'choices'
OWN_ENDS = ROOT / 'tests' / 'own-ends'
TEXT = CHOICES / 'batch-2' / 'report.txt'
JSON = CHOICES / 'format-json' / 'report.txt'

# A small cell's report of `simulate`: a service and a batch job on one machine.
SIMULATED = """\
omega 2
round 0
commit 1 2 5
place 5 0 1
commit 0 2 4
refuse 4 0 1 changed 2 1
refuse 4 1 1 changed 2 1
commit 0 4 4
place 4 0 1
place 4 1 1
use cpu 300000000 1000000000 mem 300000000 1000000000 disk 0 1000000000000
round 12
end 5 0 1
use cpu 200000000 1000000000 mem 200000000 1000000000 disk 0 1000000000000
entries 7 rounds 2
scheduler 0 commits 2 empty 0 placing 1 conflicted 1 placed 2 refused 2 withdrawn 0 evicted 0
scheduler 1 commits 1 empty 0 placing 1 conflicted 0 placed 1 refused 0 withdrawn 0 evicted 0
scheduler 2 commits 0 empty 0 placing 0 conflicted 0 placed 0 refused 0 withdrawn 0 evicted 0
use cpu 200000000 1000000000 mem 200000000 1000000000 disk 0 1000000000000
waiting 0 abandoned 0
busy 0 220000 880000
wait 0 1 1500000
busy 1 105000 880000
wait 1 1 0
busy 2 0 880000
wait 2 0 0
"""

# The same with the times of its commits.
TIMED = SIMULATED + """\
time 0 1 1500000 1605000
time 1 0 1500000 1610000
time 2 0 1610000 1720000
first 5 1 1500000 1500000
first 4 0 0 1500000
"""

SUMMARY = """\
omega 2
entries 250 rounds 20
scheduler 0 commits 9 empty 1 placing 8 conflicted 2 placed 20 refused 3 withdrawn 0 evicted 0
scheduler 1 commits 9 empty 1 placing 8 conflicted 0 placed 20 refused 0 withdrawn 0 evicted 0
scheduler 2 commits 0 empty 0 placing 0 conflicted 0 placed 0 refused 0 withdrawn 0 evicted 0
use cpu 0 1000000000 mem 0 1000000000 disk 0 1000000000000
waiting 3 abandoned 1
"""


def rows(answer: Answer):
    return list(csv.DictReader(io.StringIO(answer.out)))


def as_json(text: str) -> str:
    return json.dumps([[int(word) if word.isdigit() else word for word in line.split()]
                       for line in text.splitlines()], separators=(',', ':')) + '\n'


class Reported(unittest.TestCase):
    def setUp(self) -> None:
        self.folder = Path(tempfile.mkdtemp())
        self.addCleanup(shutil.rmtree, self.folder)
        self.words = self.folder / 'words'
        self.words.write_text('replay\n')      # beside what is written; so a round is five minutes

    def written(self, text, name: str = 'report.txt') -> Path:
        path = self.folder / name
        path.write_bytes(text if isinstance(text, bytes) else text.encode('latin-1'))
        return path

    def call(self, *said: object) -> Answer:
        answer = call('report.py', tool.main, *said)
        return answer

    def right(self, *said: object) -> Answer:
        answer = self.call(*said)
        self.assertEqual(answer.status, 0, answer)
        return answer

    def refused(self, says: str, *said: object) -> None:
        answer = self.call(*said)
        self.assertEqual((answer.status, answer.out, answer.err.count('\n')), (1, '', 1), answer)
        self.assertIn(says, answer.err)


class Refused(Reported):
    def of_all(self, text, says: str) -> None:
        path = self.written(text)
        for command in ('rounds', 'schedulers', 'conflicts', 'events', 'compare'):
            self.refused(says, command, path)
        self.refused(says, 'waits', CHOICES, path)

    def test_no_report(self) -> None:
        for text, says in (
                ('', 'it is empty'), ('\n', 'line 1: it is no line of a report'), ('hello\n', 'line 1: it is no line'),
                ('omega 1\n', 'of form 1, and not 2'),
                ('omega \xb2\n', 'line 1: it is no line'), ('omega %s\n' % ('2' * 500), 'line 1: it is no line'),
                ('[["omega","%s"]]' % ('2' * 5000), 'line 1: it is no line'),
                ('[["omega",%s]]' % ('2' * 5000), 'item 1 is no JSON'), ('round 0\n', "'round' follows on 'nothing'"),
                ('omega: the words are refused\n', 'line 1: it is no line'), (bytes(range(256)), 'line 1'),
                ('omega 2\nlegal 4\n', 'line 2: it is no line'), ('x' * 5000, 'line 1 is cut'),
                ('{"omega": 2}\n', 'line 1: it is no line'), ('[', 'item 1 is cut'), ('[]', 'item 1 is cut'),
                ('[1,2]', 'item 1 is cut'), ('[["omega",2.5]]', 'no word and no number'),
                ('[["omega",true]]', 'no word and no number'), ('[[omega,2]]', 'item 1 is no JSON'),
                ('[["omega",2]]', 'it ends behind line 1'), ('[["omega",2]', 'item 1 is cut')):
            with self.subTest(text=text[:20]):
                self.of_all(text, says)

    def test_cut_at_each_line(self) -> None:
        for text in (TEXT.read_text(), SUMMARY):
            lines = text.splitlines(True)
            for count in range(1, len(lines)):
                self.refused('it ends behind line %d' % count, 'rounds', self.written(''.join(lines[:count])))

    def test_cut_at_each_line_of_times(self) -> None:
        lines = SIMULATED.splitlines(True)
        for count in range(1, len(lines)):
            path = self.written(''.join(lines[:count]))
            if lines[count].startswith('busy 0'):
                self.right('rounds', path)     # what is left is a whole report of a replay
            else:
                self.refused('it ends behind line %d' % count, 'rounds', path)

    # What is cut before the first line of its own times is a whole report of sums.
    def test_cut_at_each_line_of_single_times(self) -> None:
        lines = TIMED.splitlines(True)
        self.right('rounds', self.written(TIMED))
        for count in range(len(SIMULATED.splitlines()) + 1, len(lines)):
            self.refused('it ends behind line %d' % count, 'rounds', self.written(''.join(lines[:count])))

    def test_single_times_that_do_not_fit(self) -> None:
        for before, after, says in (
                ('time 1 0', 'time 2 0', 'commit 2 stands where 1 should'),
                ('time 2 0 1610000 1720000\n', '', 'it ends behind line'),
                ('time 2 0 1610000 1720000\n', 'time 2 0 1610000 1720000\ntime 3 0 1 2\n', 'it ends behind line'),
                ('first 4 0 0', 'first 4 3 0', 'there is no scheduler 3'), ('first 4', 'second 4', 'it is no line'),
                ('first 4 0 0 1500000\n', 'first 4 0 0 1500000\ntime 3 0 1 2\n', "'time' follows on 'first'"),
                ('busy 2 0 880000\nwait 2 0 0\n', '', 'lines of scheduler 2 are missing')):
            with self.subTest(after=after):
                self.assertIn(before, TIMED)
                path = self.written(TIMED.replace(before, after))
                for command in ('rounds', 'events', 'compare'):
                    self.refused(says, command, path)

    # An end behind commits is of a task that ends by its own life, so of a report of `simulate`.
    def test_ends_behind_commits(self) -> None:
        text = (OWN_ENDS / 'placed-late-runs-as-long' / 'report.txt').read_text()
        self.assertIn('round 6\nend 10 0 1\ncommit', text)
        behind = text.replace('end 10 0 1\ncommit 1 5 12\n', 'commit 1 5 12\nend 10 0 1\n')
        self.right('rounds', self.written(behind))
        lines = behind.splitlines(True)
        for count in range(1, len(lines)):
            if lines[count].startswith('time 0 '):
                self.right('rounds', self.written(''.join(lines[:count])))     # whole but for the single times
            else:
                self.refused('it ends behind line %d' % count, 'rounds', self.written(''.join(lines[:count])))
        for more, says in (('displace 12 0 1', "'displace' follows on 'own end'"), ('place 12 0 1', "'place' follows on 'own end'"),
                           ('evict 12 0 1\nend 12 0 1', "'evict' follows on 'own end'")):
            self.refused(says, 'rounds', self.written(behind.replace('end 10 0 1\n', 'end 10 0 1\n%s\n' % more)))
        self.of_all(TEXT.read_text().replace('place 4 0 1\n', 'evict 4 0 1\nend 4 0 1\n', 1), "'end' follows on 'evict'")

    def test_cut_at_each_byte_of_the_end(self) -> None:
        for text in (TEXT.read_text(), JSON.read_text()):
            for count in range(len(text) - 60, len(text) - 2):
                self.refused('no whole report', 'rounds', self.written(text[:count]))

    def test_lines_left_out_or_exchanged(self) -> None:
        lines = TEXT.read_text().splitlines(True)
        for place, says in ((0, "'round' follows on 'nothing'"), (1, "'commit' follows on 'omega'"),
                            (2, "'place' follows on 'round'"), (4, '5 commits are counted, and 4 are there'),
                            (12, "'round' follows on 'commit'"), (len(lines) - 2, "'waiting' follows on 'scheduler'")):
            with self.subTest(place=place):
                self.of_all(''.join(lines[:place] + lines[place + 1:]), says)
        self.of_all(''.join(lines[:13] + lines[1:]), 'round 0 follows on round 0')
        self.of_all(''.join(lines + lines[-1:]), "'waiting' follows on 'waiting'")
        self.of_all(''.join(lines + ['busy 1 0 5\n', 'wait 1 0 5\n']), 'scheduler 1 stands where another should')

    def test_a_word_is_spoiled(self) -> None:
        text = TEXT.read_text()
        for old, new in (('place 4 0 1', 'place 4 0'), ('place 4 0 1', 'place 4 0 one'), ('full 0 0', 'fill 0 0'),
                         ('commit 0 3 4', 'commit  0 3 4'), ('rounds 5', 'rounds 6'), ('scheduler 2', 'scheduler 3')):
            with self.subTest(new=new):
                self.of_all(text.replace(old, new, 1), 'no whole report: line')

    def test_more_behind_the_array(self) -> None:
        self.of_all(JSON.read_text() + '[]', 'there is more behind the array')

    def test_packed_and_cut(self) -> None:
        for pack in (gzip.compress, bz2.compress, lzma.compress):
            data = pack(TEXT.read_bytes())
            for count in (len(data) - 1, len(data) // 2, 7):
                self.of_all(data[:count], 'no whole report')

    def test_no_file(self) -> None:
        self.refused('nowhere: No such file', 'rounds', self.folder / 'nowhere')
        self.refused('Is a directory', 'rounds', self.folder)
        self.refused('task_events.csv: No such file', 'waits', self.folder, TEXT)

    # How long a round is has to be known where something depends on it, and is assumed nowhere.
    def test_no_window(self) -> None:
        path = self.written(SIMULATED)
        self.words.unlink()
        says = 'has to be said by --window, as in --window 5m'
        for command in ('rounds', 'conflicts', 'events'):
            self.refused(says, command, path)
            self.right(command, '--window', '5m', path)
        self.refused(says, 'waits', CHOICES, path)
        for command in ('schedulers', 'compare'):
            self.right(command, path)
        for command in ('rounds', 'conflicts', 'events'):
            self.right(command, self.written(SUMMARY))

    def test_damaged_words(self) -> None:
        path = self.written(SIMULATED)
        for words_ in (b'', b'sim', b'simulate\n--window', b'simulate\n--nothing\n7\n', b'audit\n--kept\nk\n', b'replay\n--\n--window=9\n',
                       b'simulate\n--window\n5m\n', b'simulate\n--window\n0\n', b'\xff\xfe', b'Aachen\nAal\n'):
            with self.subTest(words=words_):
                self.words.write_bytes(words_)
                for said in (('rounds',), ('conflicts',), ('events',), ('compare',), ('waits', CHOICES)):
                    self.refused('%s has no words of a run' % self.words, *said, path)
                for said in (('rounds', '--window', '5m'), ('schedulers',)):
                    self.right(*said, path)

    # A pipe is read as often as it takes.
    def test_a_pipe(self) -> None:
        for command, words_ in (('rounds', ''), ('waits', CHOICES)):
            answer = subprocess.run(['bash', '-c', '%s %s %s --window 5m %s <(cat %s)' % (
                sys.executable, TOOLS / 'report.py', command, words_, TEXT)], capture_output=True, text=True)
            self.assertEqual((answer.returncode, answer.stdout), (0, self.right(command, *filter(None, [words_]), TEXT).out), answer)

    def test_words(self) -> None:
        self.refused("'soon' is no time", 'rounds', '--window', 'soon', TEXT)
        self.refused('at least a microsecond', 'rounds', '--window', '0', TEXT)
        self.refused('at least a microsecond', 'conflicts', '--per', '0s', TEXT)
        lines = TEXT.read_text().replace('round 4\n', 'round 9223372036854775\n')
        self.refused('more than a million', 'conflicts', '--per', '1us', self.written(lines))
        for said in ((), ('nothing',), ('rounds',), ('compare',), ('plot', TEXT)):
            self.assertEqual(self.call(*said).status, 2)
        self.words.write_text('generate\n')
        self.refused('need the folder of their tables', 'waits', self.written(SIMULATED))

    # Nobody reads what is printed.
    def test_a_closed_pipe(self) -> None:
        for said in (('events', TEXT), ('rounds', TEXT), ('waits', CHOICES, TEXT)):
            out, into = os.pipe()
            os.close(out)
            answer = subprocess.run([sys.executable, str(TOOLS / 'report.py'), *map(str, said)], stdout=into,
                                    stderr=subprocess.PIPE)
            os.close(into)
            self.assertEqual((answer.returncode, answer.stderr), (141, b''), said)
        out, into = os.pipe()
        os.close(out)
        answer = subprocess.run([sys.executable, str(TOOLS / 'report.py'), 'rounds', 'nowhere'], stderr=into)
        os.close(into)
        self.assertEqual(answer.returncode, 141)

    def test_tables_of_another_run(self) -> None:
        self.refused('is no report of', 'waits', ROOT / 'examples' / 'small-cell', TEXT)
        self.refused('is no report of', 'waits', '--window', '60s', CHOICES, TEXT)
        self.refused('is no report of', 'waits', CHOICES, self.written(SUMMARY))
        for table in CHOICES.glob('*.csv'):
            shutil.copy(table, self.folder)
        self.right('waits', self.folder, TEXT)
        events = self.folder / 'task_events.csv'
        events.write_text(events.read_text().replace(',10,2,', ',10,7,'))
        self.refused("task 2 of job 10 isn't wanted", 'waits', self.folder, TEXT)
        events.write_text('0,,x\n')
        self.refused('task_events.csv row 1: it is no row', 'waits', self.folder, TEXT)


class Shown(Reported):
    def test_rounds(self) -> None:
        self.assertEqual(self.right('rounds', TEXT).out, (
            'round,hours,cpu,mem,disk\n0,0,0.9,0.9,0\n1,0.0833333,0.9,0.9,0\n2,0.166667,0.825,0.825,0\n'
            '3,0.25,0.9,0.9,0\n4,0.333333,0.875,0.875,0\n'))
        self.assertEqual(rows(self.right('rounds', '--window', '1h', TEXT))[4]['hours'], '4')
        nothing = TEXT.read_text().replace('mem 1800000000 2000000000', 'mem 0 0')
        self.assertEqual(rows(self.right('rounds', self.written(nothing)))[0]['mem'], '')

    def test_every_form_says_the_same(self) -> None:
        text = TEXT.read_text()
        plain = self.right('events', TEXT).out
        pretty = json.dumps(json.loads(as_json(text)), indent=2)
        for data in (as_json(text), pretty, gzip.compress(text.encode()), bz2.compress(text.encode()),
                     lzma.compress(as_json(text).encode())):
            self.assertEqual(self.right('events', self.written(data)).out, plain)

    def test_standard_input(self) -> None:
        for data in (TEXT.read_bytes(), gzip.compress(TEXT.read_bytes())):
            answer = subprocess.run([sys.executable, str(TOOLS / 'report.py'), 'rounds', '--window', '5m', '-'], input=data,
                                    capture_output=True)
            self.assertEqual((answer.returncode, answer.stderr), (0, b''))
            self.assertEqual(answer.stdout.decode(), self.right('rounds', TEXT).out)
        answer = subprocess.run([sys.executable, str(TOOLS / 'report.py'), 'rounds', '-'], input=b'',
                                capture_output=True)
        self.assertEqual((answer.returncode, answer.stdout), (1, b''))
        self.assertEqual(answer.stderr, b'report.py: standard input is no whole report: it is empty\n')

    def test_schedulers(self) -> None:
        found = rows(self.right('schedulers', TEXT))
        self.assertEqual([row['name'] for row in found], ['services', 'batch 1', 'batch 2', 'MapReduce'])
        self.assertEqual((found[2]['commits'], found[2]['conflict_fraction']), ('6', '0.333333'))
        found = rows(self.right('schedulers', self.written(SIMULATED)))
        self.assertEqual([row['name'] for row in found], ['services', 'batch', 'MapReduce'])
        self.assertEqual([row['conflict_fraction'] for row in found], ['1', '0', ''])
        self.assertEqual([(row['busy'], row['mean_wait']) for row in found], [('0.25', '1.5'), ('0.119318', '0'), ('0', '')])

    def test_conflicts(self) -> None:
        path = self.written(SIMULATED)
        found = rows(self.right('conflicts', '--per', '30m', path))
        self.assertEqual([(row['hours'], row['scheduler'], row['commits'], row['placing'], row['conflicted'],
                           row['conflict_fraction']) for row in found], [
            ('0', 'services', '2', '1', '1', '1'), ('0', 'batch', '1', '1', '0', '0'), ('0', 'MapReduce', '0', '0', '0', ''),
            ('0.5', 'services', '0', '0', '0', ''), ('0.5', 'batch', '0', '0', '0', ''),
            ('0.5', 'MapReduce', '0', '0', '0', ''), ('1', 'services', '0', '0', '0', ''),
            ('1', 'batch', '0', '0', '0', ''), ('1', 'MapReduce', '0', '0', '0', '')])
        self.assertEqual(len(rows(self.right('conflicts', path))), 6)

    def test_a_summary(self) -> None:
        path = self.written(SUMMARY)
        self.assertEqual(self.right('rounds', path).out, 'round,hours,cpu,mem,disk\n')
        self.assertEqual(len(rows(self.right('schedulers', path))), 3)
        self.assertEqual(rows(self.right('compare', path))[0]['conflict_fraction'], '0.125')

    def test_events(self) -> None:
        found = [json.loads(line) for line in self.right('events', self.written(SIMULATED)).out.splitlines()]
        self.assertEqual(len(found), len(SIMULATED.splitlines()))
        self.assertEqual(found[0], {'event': 'omega', 'form': 2})
        self.assertEqual(found[5], {'event': 'refuse', 'round': 0, 'time': 0, 'commit': 1, 'scheduler': 0, 'job': 4,
                                    'index': 0, 'machine': 1, 'extra': False, 'reason': 'changed', 'now': 2, 'copy': 1})
        self.assertEqual(found[12], {'event': 'end', 'round': 12, 'time': 3600000000, 'job': 5, 'index': 0, 'machine': 1,
                                     'extra': False})
        self.assertEqual(found[13]['cpu_whole'], 1000000000)
        self.assertEqual(found[20], {'event': 'busy', 'scheduler': 0, 'busy': 220000, 'span': 880000})
        self.assertEqual(found[21], {'event': 'wait', 'scheduler': 0, 'jobs': 1, 'wait': 1500000})

    # Its own times come beside a commit by its number, in either form of the report.
    def test_events_of_single_times(self) -> None:
        for text in (TIMED, as_json(TIMED)):
            found = [json.loads(line) for line in self.right('events', self.written(text)).out.splitlines()]
            self.assertEqual(found[-4], {'event': 'time', 'commit': 1, 'scheduler': 0, 'sync': 1500000,
                                         'committed': 1610000})
            self.assertEqual(found[-2], {'event': 'first', 'job': 5, 'scheduler': 1, 'arrived': 1500000, 'sync': 1500000})

    # An end belongs to no commit, wherever it stands.
    def test_events_of_ends_behind_commits(self) -> None:
        report = OWN_ENDS / 'ends-behind-the-latest-time' / 'report.txt'
        self.assertIn('place 10 0 1\nuse', report.read_text())
        text = report.read_text().replace('place 10 0 1\nuse', 'place 10 0 1\nend 10 0 1\nuse').replace(
            'round 8388607\nend 10 0 1\n', 'round 8388607\n')
        for form in (text, as_json(text)):
            found = [json.loads(line) for line in self.right('events', self.written(form)).out.splitlines()]
            self.assertEqual([event['event'] for event in found[1:5]], ['round', 'commit', 'place', 'end'])
            self.assertEqual(found[4], {'event': 'end', 'round': 0, 'time': 0, 'job': 10, 'index': 0, 'machine': 1,
                                        'extra': False})

    # What doesn't show them stays as it is with the sums alone.
    def test_single_times_change_no_other_table(self) -> None:
        for command in ('rounds', 'conflicts'):
            self.assertEqual(self.right(command, self.written(TIMED)).out, self.right(command, self.written(SIMULATED)).out)

    def test_schedulers_with_single_times(self) -> None:
        text = TIMED.replace('wait 1 1 0', 'wait 1 3 9000000') + 'first 6 1 0 2000000\nfirst 7 1 0 7000000\n'
        found = rows(self.right('schedulers', self.written(text)))
        columns = ('mean_wait', 'p50_wait', 'p90_wait', 'p99_wait')
        self.assertEqual([[row[column] for column in columns] for row in found],
                         [['1.5'] * 4, ['3', '2', '7', '7'], [''] * 4])
        found = rows(self.right('compare', self.written(text), self.written(SIMULATED, 'sums')))
        columns = ('mean_wait_batch', 'p50_wait_batch', 'p90_wait_batch', 'p99_wait_batch', 'p99_wait_services')
        self.assertEqual([[row[column] for column in columns] for row in found],
                         [['3', '2', '7', '7', '1.5'], ['0', '', '', '', '']])

    def test_waits_of_jobs_and_commits(self) -> None:
        path = self.written(TIMED)
        answer = self.right('waits', '--of', 'jobs', path)
        self.assertEqual(answer.out, 'job,scheduler,kind,arrived,sync,wait\n5,1,batch,1500000,1500000,0\n'
                         '4,0,services,0,1500000,1500000\n')
        self.assertEqual(answer.err, self.right('waits', '--of', 'jobs', '--quantiles', path).out)
        self.assertTrue(answer.err.startswith('kind,jobs,mean,p50,p90,p99,max\nservices,1,1.5,1.5,1.5,1.5,1.5\n'))
        answer = self.right('waits', '--of', 'commits', path)
        self.assertEqual(answer.out, 'commit,job,scheduler,kind,sync,committed,decision\n'
                         '0,5,1,batch,1500000,1605000,105000\n1,4,0,services,1500000,1610000,110000\n'
                         '2,4,0,services,1610000,1720000,110000\n')
        self.assertEqual(answer.err.splitlines()[-1], 'all,3,0.108333,0.11,0.11,0.11,0.11')
        for said in ('jobs', 'commits'):
            self.refused('tells no single times', 'waits', '--of', said, self.written(SIMULATED))
            self.refused('tells no single times', 'waits', '--of', said, TEXT)

    # What a commit does has the time of the commit, by the clock of rounds, too, where a round begins late.
    def test_waits_with_decision_times(self) -> None:
        case = ROOT / 'tests' / 'times' / 'by-rounds'
        found = {(row['job'], row['index']): row for row in rows(self.right('waits', case, case / 'report.txt'))}
        lines = [line.split() for line in (case / 'report.txt').read_text().splitlines()]
        committed = [int(line[4]) for line in lines if line[0] == 'time']
        commit, placed = -1, {}
        for line in lines:
            commit += line[0] == 'commit'
            if line[0] == 'place' and (line[1], line[2]) not in placed:
                placed[line[1], line[2]] = str(committed[commit])
        self.assertGreater(len(placed), 1)
        self.assertEqual({key: found[key]['placed'] for key in placed}, placed)
        for row in found.values():
            self.assertEqual(row['wait'], row['placed'] and str(int(row['placed']) - int(row['submitted'])))
            self.assertTrue(not row['placed'] or not row['ended'] or int(row['ended']) >= int(row['placed']), row)

    # A time may be above 2^64, and stands as a string in JSON then.
    def test_large_times(self) -> None:
        text = as_json(TIMED).replace('1610000,1720000', '1610000,"%d"' % 2**64)
        found = [json.loads(line) for line in self.right('events', self.written(text)).out.splitlines()]
        self.assertEqual(found[-3]['committed'], 2**64)

    def test_events_of_every_form(self) -> None:
        for line in ('refuse 4 0 1 no-machine', 'refuse 4 0 1 running 2', 'refuse 4 0 1 victim-rank 7 8',
                     'refuse 4 0 1 same-job 7 8', 'refuse 4 0 1 full 7 8 9', 'refuse 4 0 1 withdrawn 0',
                     'place 4 2147483648 1'):
            text = SIMULATED.replace('place 4 1 1', line)
            found = [json.loads(event) for event in self.right('events', self.written(text)).out.splitlines()][9]
            self.assertEqual(found['event'], line.split()[0])
            numbers = [int(word) for word in line.split() if word.isdigit()]
            names = ('event', 'round', 'time', 'commit', 'scheduler', 'reason', 'extra')
            self.assertEqual([value for name, value in found.items() if name not in names], numbers)
            self.assertEqual(found['extra'], '2147483648' in line)

    def test_compare(self) -> None:
        self.words.unlink()
        found = rows(self.right('compare', TEXT, CHOICES / 'rule-coarse' / 'report.txt', self.written(SIMULATED)))
        self.assertEqual([(row['command'], row['batch'], row['rule']) for row in found],
                         [('replay', '2', 'fine'), ('replay', '1', 'coarse'), ('', '', '')])
        self.assertEqual([(row['commits'], row['conflicted'], row['refused'], row['extras']) for row in found],
                         [('15', '1', '1', '3'), ('18', '3', '9', '3'), ('3', '1', '2', '0')])
        self.assertEqual([row['busy_services'] for row in found], ['', '', '0.25'])
        # The first round lasts for twelve windows, and the second for one.
        self.assertEqual(found[2]['mean_cpu'], '%.6g' % ((12 * 0.3 + 0.2) / 13))

    def test_words_beside(self) -> None:
        path = self.written(SIMULATED)
        for text, expected in (('simulate\n--window=600000000\n--tables\nx', 600_000_000), ('simulate', 300_000_000),
                               ('--window\n7\nsimulate', 7), ('resume\n--kept\nk\n--window\n8', 8),
                               ('--window=9\n--\nreplay', 9)):
            self.words.write_text(text)
            found = words.words_beside(path)
            self.assertEqual(found and found.window(), expected)
        self.words.unlink()
        self.assertIsNone(words.words_beside(path))
        found = words.words_of(['simulate', '--t-job', '5', '--service-t-task', '6'])
        self.assertEqual([found.value(name) for name in ('service-t-job', 'service-t-task', 't-task', 'rule')],
                         ['5', '6', '5000', 'fine'])
        self.assertEqual(found.shown(), 'simulate --t-job 5 --service-t-task 6')

    def test_waits(self) -> None:
        answer = self.right('waits', CHOICES, TEXT)
        found = {(row['job'], row['index']): row for row in rows(answer)}
        self.assertEqual(len(found), 12)
        self.assertEqual((found['11', '1']['wait'], found['11', '1']['fate']), ('600000000', 'runs'))
        self.assertEqual((found['20', '0']['kind'], found['20', '0']['ended'], found['20', '0']['fate']),
                         ('MapReduce', '1200000000', 'ended'))
        self.assertEqual((found['14', '2']['placed'], found['14', '2']['fate']), ('', 'waits'))
        self.assertTrue(answer.err.startswith('kind,tasks,ran,never_ran,waits,mean,p50,p90,p99,max\n'
                                              'services,2,2,0,0,150,0,300,300,300\n'))
        self.assertEqual(self.right('waits', '--quantiles', CHOICES, TEXT).out, answer.err)

    # A byte order mark in front, and a field that is longer than most.
    def test_waits_of_unusual_tables(self) -> None:
        for table in CHOICES.glob('*.csv'):
            (self.folder / table.name).write_bytes(b'\xef\xbb\xbf' + table.read_bytes())
        (self.folder / 'machine_attributes.csv').write_text('0,1,name,%s,0\n' % ('v' * 200_000))
        self.assertEqual(self.right('waits', self.folder, TEXT), self.right('waits', CHOICES, TEXT))

    def test_waits_with_evictions(self) -> None:
        found = {(row['job'], row['index']): row
                 for row in rows(self.right('waits', CHOICES, CHOICES / 'preempt-service' / 'report.txt'))}
        self.assertEqual((found['10', '2']['evicted'], found['10', '2']['fate']), ('300000000', 'runs'))

    # Tasks that run for as long as they did in the trace end with a line of the report, at the time of its round.
    def test_waits_by_own_ends(self) -> None:
        found = {}
        for case in ('decided-on-after-its-life-in-the-trace', 'rows-of-a-later-piece-are-held', 'pieces',
                     'evicted-task-waits-when-it-was-due', 'waits-although-the-trace-has-ended-it'):
            answer = self.right('waits', OWN_ENDS / case, OWN_ENDS / case / 'report.txt')
            found[case] = [tuple(row[name] for name in ('job', 'submitted', 'placed', 'evicted', 'ended', 'fate'))
                           for row in rows(answer)]
        self.assertEqual(found['decided-on-after-its-life-in-the-trace'], [
            ('4', '0', '3005000', '', '', 'runs'), ('6', '0', '6010000', '', '7010000', 'ended'),
            ('8', '8000000', '8105000', '', '', 'runs')])
        self.assertEqual(found['pieces'], [
            ('10', '0', '105000', '', '4105000', 'ended'), ('10', '6000000', '6105000', '', '9105000', 'ended'),
            ('11', '20000000', '20105000', '', '', 'runs')])
        self.assertEqual(found['evicted-task-waits-when-it-was-due'][0],
                         ('10', '0', '105000', '2105000', '9210000', 'ended'))
        self.assertEqual({row[-1] for row in found['waits-although-the-trace-has-ended-it']}, {'waits', 'runs'})
        held = found['rows-of-a-later-piece-are-held']
        self.assertEqual([row for row in held if row[0] == '10'][0][4], [row for row in held if row[0] == '10'][1][1])

    # Without single times it is the time of the last row of the round.
    def test_waits_by_own_ends_to_a_round(self) -> None:
        case = OWN_ENDS / 'pieces'
        text = ''.join(line for line in (case / 'report.txt').read_text().splitlines(True)
                       if not line.startswith(('time ', 'first ')))
        answer = self.right('waits', '--window', '1s', '--ends', 'own', case, self.written(text))
        self.assertEqual([tuple(row[name] for name in ('job', 'submitted', 'placed', 'ended', 'fate'))
                          for row in rows(answer)], [
            ('10', '0', '0', '3000000', 'ended'), ('10', '6000000', '6000000', '9000000', 'ended'),
            ('11', '20000000', '20000000', '', 'runs')])

    # How tasks end is said by the words beside a report, or where it is read.
    def test_waits_of_ends_that_are_chosen(self) -> None:
        case = OWN_ENDS / 'decided-on-after-its-life-in-the-trace'
        report = self.written((case / 'report.txt').read_bytes())
        self.refused("task 0 of job 6 isn't wanted", 'waits', '--window', '1s', case, report)
        self.refused("task 0 of job 6 isn't wanted", 'waits', '--ends', 'trace', case, case / 'report.txt')
        self.assertEqual(self.right('waits', '--window', '1s', '--ends', 'own', case, report),
                         self.right('waits', case, case / 'report.txt'))
        ended = self.written((case / 'report.txt').read_text().replace('end 6 0 1', 'end 8 0 1'), 'other')
        self.refused("task 0 of job 8 doesn't run where", 'waits', '--window', '1s', '--ends', 'own', case, ended)

    def test_waits_of_every_fate(self) -> None:
        (self.folder / 'machine_events.csv').write_text('0,1,0,p,1,1\n900000000,1,1,p,1,1\n')
        (self.folder / 'task_events.csv').write_text(''.join('%d,,%d,0,,%d,u,0,1,0.1,0.1,,0\n' % row for row in (
            (10, 1, 0), (20, 2, 0), (30, 2, 5), (300_000_000, 1, 4), (300_000_001, 1, 0), (300_000_002, 3, 0),
            (600_000_000, 3, 5), (900_000_001, 4, 0))))
        use = 'use cpu 0 1 mem 0 1 disk 0 1\n'
        path = self.written('omega 2\nround 0\ncommit 1 2 1\nplace 1 0 1\n%sround 1\nend 1 0 1\ncommit 1 4 1\n'
                            'place 1 0 1\ncommit 1 5 3\nplace 3 0 1\n%sround 2\nend 3 0 1\n%sround 3\n'
                            'displace 1 0 1\n%sentries 9 rounds 4\n' % ((use,) * 4) + ''.join(
                                'scheduler %d commits %d empty 0 placing 0 conflicted 0 placed 0 refused 0 withdrawn 0 '
                                'evicted 0\n' % pair for pair in ((0, 0), (1, 3), (2, 0))) + use + 'waiting 2 abandoned 0\n')
        found = rows(self.right('waits', self.folder, path))
        self.assertEqual([(row['job'], row['submitted'], row['placed'], row['wait'], row['displaced'], row['ended'],
                           row['fate']) for row in found], [
            ('1', '10', '30', '20', '', '300000000', 'ended'), ('2', '20', '', '', '', '30', 'never ran'),
            ('1', '300000001', '300000002', '1', '900000001', '', 'waits again'),
            ('3', '300000002', '300000002', '0', '', '600000000', 'ended'), ('4', '900000001', '', '', '', '', 'waits')])

    def test_help(self) -> None:
        for said in (('--help',), ('events', '--help'), ('page', '-h')):
            answer = subprocess.run([sys.executable, str(TOOLS / 'report.py'), *said], capture_output=True, text=True)
            self.assertEqual((answer.returncode, answer.stderr), (0, ''))
            self.assertTrue(answer.stdout.startswith('usage: report.py'))


def lacking() -> str:
    return ', '.join(name for name in ('pandas', 'matplotlib') if importlib.util.find_spec(name) is None)


@unittest.skipIf(lacking(), 'this Python has no ' + lacking())
class Drawn(Reported):
    def test_plot(self) -> None:
        answer = self.right('plot', '--tables', CHOICES, TEXT, self.folder / 'plots')
        self.assertEqual([Path(line).name for line in answer.out.splitlines()], ['use.svg', 'conflicts.svg', 'waits.svg'])
        drawn = {name: (self.folder / 'plots' / (name + '.svg')).read_text() for name in ('use', 'conflicts', 'waits')}
        for name, says in (('use', ('CPU', 'memory', 'hours of the trace')), ('waits', ('services (2)', '10 min')),
                           ('conflicts', ('services', 'batch', 'MapReduce', 'hours of the trace'))):
            for word in says:
                self.assertIn('>%s<' % word, drawn[name])
        self.right('plot', '--tables', CHOICES, TEXT, self.folder / 'again')
        for name, svg in drawn.items():
            self.assertEqual((self.folder / 'again' / (name + '.svg')).read_text(), svg)

    def test_forms(self) -> None:
        self.words.write_text('generate\n')
        for form, first in (('png', b'\x89PNG'), ('pdf', b'%PDF')):
            self.right('plot', '--format', form, '--per', '10m', self.written(SIMULATED), self.folder)
            self.assertTrue((self.folder / ('use.' + form)).read_bytes().startswith(first))

    def test_nothing_to_draw(self) -> None:
        self.words.unlink()
        empty = SUMMARY.replace('entries 250 rounds 20', 'entries 0 rounds 0')
        for answer in (self.right('plot', self.written(empty), self.folder),
                       self.right('page', self.written(SUMMARY), self.folder / 'page.html')):
            self.assertEqual(answer.err, '')

    def test_page(self) -> None:
        self.right('page', TEXT, self.written(SIMULATED), self.folder / 'page.html')
        page = (self.folder / 'page.html').read_text()
        for says in ('batch-2', 'omega replay --batch 2 --tables ..', 'services', 'never ran'):
            self.assertIn(says, page)
        for outside in ('src="http', 'href="http', '<script', '<link', '@import', 'url('):
            self.assertNotIn(outside, page)

    def test_single_times(self) -> None:
        case = OWN_ENDS / 'pieces'
        answer = self.right('plot', case / 'report.txt', self.folder / 'plots')
        self.assertEqual([Path(line).stem for line in answer.out.splitlines()],
                         ['use', 'conflicts', 'waits', 'jobs', 'decisions'])
        self.assertIn('>batch (2)<', (self.folder / 'plots' / 'jobs.svg').read_text())
        self.assertIn('>how long a decision took<', (self.folder / 'plots' / 'decisions.svg').read_text())
        self.right('page', case / 'report.txt', self.folder / 'page.html')
        page = (self.folder / 'page.html').read_text()
        for says in ('<h3>Waits of jobs for a decision</h3>', '<h3>Decisions</h3>', '<td>0.105</td>'):
            self.assertIn(says, page)

    # What has a meaning in a formula, in a page or in a text has none in the name of a folder.
    def test_names_of_folders(self) -> None:
        folders = [self.folder / name for name in ('$a$', r'$\frac$', r'a\b', r'\$x', '<b>&amp;', 'two\nlines', 'caf\udce9')]
        for folder in folders:
            folder.mkdir()
            shutil.copy(TEXT, folder)
            shutil.copy(TEXT.parent / 'words', folder)
        self.right('page', '--tables', CHOICES, *(folder / 'report.txt' for folder in folders), self.folder / 'page.html')
        page = (self.folder / 'page.html').read_text()
        svgs = [base64.b64decode(data).decode() for data in re.findall('src="data:image/svg[^,]*,([^"]*)"', page)]
        for folder in folders:
            name = folder.name.replace('\udce9', '?')
            self.assertIn(html.escape(name), page)
            shown = html.escape(name.replace('\n', '?'), quote=False) + '   '
            self.assertTrue(any(shown in svg for svg in svgs), shown)
        for folder in folders:
            self.right('plot', '--tables', CHOICES, folder / 'report.txt', folder / 'plots')

    def test_no_window_is_known(self) -> None:
        path = self.written(SIMULATED)
        self.words.unlink()
        for said in (('plot', path, self.folder / 'plots'), ('page', path, self.folder / 'page.html')):
            self.refused('has to be said by --window', *said)
        self.right('plot', '--window', '5m', path, self.folder / 'plots')

    def test_a_page_of_a_cut_report(self) -> None:
        self.refused('no whole report', 'page', self.written('omega 2\n'), self.folder / 'page.html')
        self.assertFalse((self.folder / 'page.html').exists())


@unittest.skipUnless(lacking(), 'this Python has what figures need')
class NotDrawn(Reported):
    def test_the_package_is_named(self) -> None:
        for said in (('plot', TEXT, self.folder / 'plots'), ('page', TEXT, self.folder / 'page.html')):
            self.refused('figures need the Python package %s' % lacking().split(',')[0], *said)
        self.assertEqual(list(self.folder.iterdir()), [self.words])


if __name__ == '__main__':
    unittest.main()
