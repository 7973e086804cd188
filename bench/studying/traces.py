"""The traces: made by tables.py, and what has to be known of each besides its runs."""
import shutil
import subprocess
import sys
from pathlib import Path
from typing import Dict, Iterator, List, NamedTuple, Set, Tuple

from .common import BENCH, Refusal, digest_of_files
from .points import Trace

TABLES = ('machine_events', 'machine_attributes', 'task_events', 'task_constraints', 'mapreduce_jobs', 'machine_disk')
KINDS = ('services', 'batch', 'MapReduce')
SERVICE_CLASSES = ('2', '3')


class Facts(NamedTuple):
    """What is known of a trace: the time of the first row of a job that isn't there at the beginning, the time of the
    last row, in microseconds, how many such jobs of each kind come, which part of the CPU the trace's tasks ask for
    between the two times, and a digest of the tables."""
    first: int
    last: int
    came: Dict[str, int]
    asked: float
    digest: str

    def span(self) -> int:
        return self.last - self.first


def make(trace: Trace, folder: Path) -> Facts:
    """Makes the tables of a trace in a folder, under another name first, so that what stands there is whole."""
    part = folder.with_name(folder.name + '.part')
    shutil.rmtree(part, ignore_errors=True)
    shutil.rmtree(folder, ignore_errors=True)
    kind, *words = trace.workload.words()
    done = subprocess.run([sys.executable, str(BENCH / 'tables.py'), kind, str(part), *words, '--seed', str(trace.seed)],
                          capture_output=True, text=True, check=False)
    if done.returncode != 0:
        raise Refusal('tables.py ended with status %d: %s' % (done.returncode, done.stderr.strip()[-300:]))
    part.rename(folder)
    return facts_of(folder)


def facts_of(folder: Path) -> Facts:
    jobs = Jobs(folder)
    whole = sum(float(row[4]) for row in rows_of(folder / 'machine_events.csv'))
    span = jobs.last - jobs.first
    digest = digest_of_files([folder / (table + '.csv') for table in TABLES if (folder / (table + '.csv')).exists()],
                             folder)
    return Facts(jobs.first, jobs.last, jobs.came(), jobs.asked() / span / whole if span and whole else 0.0, digest)


def rows_of(path: Path) -> Iterator[List[str]]:
    if path.exists():
        with open(path, encoding='ascii') as file:
            for line in file:
                yield line.rstrip('\n').split(',')


class Jobs:
    """The jobs of a trace by their rows of tasks, which stand in order of time. Those that are there at the beginning
    have their first rows at time 0."""

    def __init__(self, folder: Path) -> None:
        self.map_reduce: Set[str] = {row[0] for row in rows_of(folder / 'mapreduce_jobs.csv')}
        self.begun: Dict[str, Tuple[int, str]] = {}     # the time and the class of the first row
        self.changes: List[Tuple[int, float]] = []      # when tasks begin and end, and the CPU of each
        self.first = self.last = 0
        for row in rows_of(folder / 'task_events.csv'):
            self.take(row)

    def take(self, row: List[str]) -> None:
        time = int(row[0])
        self.last = time
        if row[2] not in self.begun:
            self.begun[row[2]] = time, row[7]
            if time and not self.first:
                self.first = time
        self.changes.append((time, float(row[9]) if row[5] == '0' else -float(row[9])))

    def asked(self) -> float:
        """CPU times microseconds that tasks ask for between the first job that comes and the last row."""
        return sum(cpu * (self.last - max(time, self.first)) for time, cpu in self.changes)

    def came(self) -> Dict[str, int]:
        came = dict.fromkeys(KINDS, 0)
        for job, (time, klass) in self.begun.items():
            if time:
                came[self.kind(job, klass)] += 1
        return came

    def kind(self, job: str, klass: str) -> str:
        if job in self.map_reduce:
            return 'MapReduce'
        return 'services' if klass in SERVICE_CLASSES else 'batch'
