"""Makes the runs of a plan, as many at once as it is told, and keeps a line of numbers of each in a file, so that a study
that was stopped goes on. A trace is made when the first of its runs is due, and removed after the last."""
import concurrent.futures
import concurrent.futures.process
import json
import multiprocessing
import os
import shutil
import signal
import subprocess
import sys
import tempfile
import time
from pathlib import Path
from typing import Any, Dict, Iterable, List, NamedTuple, Optional, Set, Tuple

from . import measures, traces
from .common import DIGITS, ROOT, Refusal, digest_of_files, measuring
from .points import Run, Trace

Numbers = Dict[str, Any]
LONGEST_RUN = 3600      # seconds; one that takes longer is ended, and has failed
# Where the system says whether it gives memory in large pages.
PAGES = Path('/sys/kernel/mm/transparent_hugepage/enabled')


class Program(NamedTuple):
    """A built program, by digests of its own bytes and of the sources, and whether a stamp beside it says that it was
    built of them."""
    path: Path
    digest: str
    sources: str
    is_stamped: bool


def sources() -> str:
    """The digest of the program's sources as they are here."""
    said = subprocess.run([str(ROOT / 'omega.sh'), '--digest'], capture_output=True, text=True, check=False).stdout
    return said.splitlines()[0][:DIGITS] if said else ''


def program_of(path: Path) -> Program:
    if not os.access(path, os.X_OK) or path.is_dir():
        raise Refusal('there is no program %s; ./omega.sh --prove builds it' % path)
    stamp, here = path.with_name(path.name + '.stamp'), sources()
    built = stamp.read_text().splitlines()[0][:DIGITS] if stamp.exists() else None
    if built not in (None, here):
        raise Refusal('%s was built of other sources than those that are here' % path)
    return Program(path.resolve(), digest_of_files([path], path.parent), here, built is not None)


def ask_for_large_pages() -> None:
    """Has the C library of the program ask for memory in large pages, where the system gives them on request and nobody
    has said how memory is had: as omega.sh does."""
    try:
        said = PAGES.read_text()
    except OSError:
        return
    if '[madvise]' in said or '[always]' in said:
        os.environ.setdefault('GLIBC_TUNABLES', 'glibc.malloc.hugetlb=1')


# What is kept.

class Kept:
    """Two files with a line for each trace and each run that is done. A line counts only for the scripts by which it was
    made, and a run's for its program and its tables, too."""

    def __init__(self, folder: Path, program: Program) -> None:
        self.folder, self.program, self.scripts = folder, program, measuring()
        folder.mkdir(parents=True, exist_ok=True)
        self.facts: Dict[str, traces.Facts] = {
            line['name']: traces.Facts(**line['facts']) for line in self.lines('traces.jsonl')}
        self.runs: Dict[str, Numbers] = {
            line['name']: line for line in self.lines('runs.jsonl')
            if line['program'] == program.digest and line['trace'] in self.facts
            and line['tables'] == self.facts[line['trace']].digest}

    def lines(self, name: str) -> List[Numbers]:
        """The lines of a file that count. What a stop has left of a last line is cut off."""
        path = self.folder / name
        if not path.exists():
            return []
        data = path.read_bytes()
        if not data.endswith(b'\n'):
            data = data[:data.rfind(b'\n') + 1]
            path.write_bytes(data)
        found = [json.loads(line) for line in data.splitlines()]
        return [line for line in found if line['scripts'] == self.scripts]

    def put(self, name: str, line: Numbers) -> None:
        with open(self.folder / name, 'a', encoding='ascii') as file:
            file.write(json.dumps({**line, 'scripts': self.scripts}) + '\n')

    def put_facts(self, trace: Trace, facts: traces.Facts) -> None:
        self.facts[trace.name()] = facts
        self.put('traces.jsonl', {'name': trace.name(), 'facts': facts._asdict()})

    def put_run(self, run: Run, numbers: Numbers) -> None:
        line = {'name': run.name(), 'trace': run.trace.name(), 'tables': self.facts[run.trace.name()].digest,
                'program': self.program.digest, **numbers}
        self.runs[run.name()] = line
        self.put('runs.jsonl', line)


# What workers do, each in a process of its own.

def run_one(program: str, run: Run, folder: str, facts: traces.Facts) -> Numbers:
    """Runs the program, and reads its report as it comes: it stands in no file."""
    begun = time.monotonic()
    words = run.command()
    with tempfile.TemporaryFile() as said, subprocess.Popen(
            [program, *words, '--tables', folder], stdin=subprocess.DEVNULL, stdout=subprocess.PIPE, stderr=said) as process:
        signal.signal(signal.SIGALRM, lambda *_: process.kill())
        signal.alarm(LONGEST_RUN)
        fault: Optional[Refusal] = None
        numbers: Numbers = {}
        try:
            assert process.stdout is not None
            numbers = measures.measured(process.stdout, facts, int(dict(run.words)['window']))
        except Refusal as refusal:
            fault = refusal
        except BaseException:   # this worker is to end
            process.kill()
            raise
        status = process.wait()
        signal.alarm(0)
        if status != 0 or fault is not None:
            said.seek(0)
            raise Refusal('status %d, %s' % (status, said.read(300).decode('latin-1').strip() or fault))
    return {**numbers, 'seconds': round(time.monotonic() - begun, 2)}


def make_one(trace: Trace, folder: str) -> traces.Facts:
    return traces.make(trace, Path(folder))


# Who has what done, and in which order.

class Making:
    """The runs that are left, trace by trace."""

    def __init__(self, kept: Kept, runs: Iterable[Run], at_once: int) -> None:
        self.kept, self.at_once = kept, at_once
        self.place = kept.folder / 'traces'
        self.left: Dict[Trace, List[Run]] = {}
        for run in runs:
            if run.name() not in kept.runs:
                self.left.setdefault(run.trace, []).append(run)
        self.count, self.done = sum(map(len, self.left.values())), 0
        self.begun = time.monotonic()
        self.failed: List[Tuple[Run, str]] = []
        self.again: Set[Run] = set()
        self.waited: Dict['concurrent.futures.Future[Any]', Tuple[str, Any]] = {}     # whether it is a trace or a run, and which
        self.open: Dict[Trace, int] = {}                    # traces that are there or being made: runs that are left

    def folder(self, trace: Trace) -> Path:
        return self.place / trace.name()

    def go(self) -> None:
        if not self.count:
            return
        shutil.rmtree(self.place, ignore_errors=True)
        self.place.mkdir(parents=True)
        pool = concurrent.futures.ProcessPoolExecutor(self.at_once)
        try:
            while self.left or self.waited:
                self.open_traces(pool)
                done, _ = concurrent.futures.wait(self.waited, return_when=concurrent.futures.FIRST_COMPLETED)
                for future in done:
                    self.take(pool, future)
        except BaseException:
            for worker in multiprocessing.active_children():
                worker.terminate()
            raise
        finally:
            pool.shutdown(wait=True, cancel_futures=True)
            shutil.rmtree(self.place, ignore_errors=True)

    def open_traces(self, pool: concurrent.futures.Executor) -> None:
        """Has so many traces made that no worker waits for one, and no more."""
        runs = sum(what == 'run' for what, _ in self.waited.values())
        while self.left and runs < 2 * self.at_once and len(self.waited) - runs < self.at_once:
            trace = next(iter(self.left))
            self.open[trace] = len(self.left[trace])
            self.waited[pool.submit(make_one, trace, str(self.folder(trace)))] = 'trace', (trace, self.left.pop(trace))

    def take(self, pool: concurrent.futures.Executor, future: 'concurrent.futures.Future[Any]') -> None:
        what, which = self.waited.pop(future)
        if what == 'trace':
            trace, runs = which
            facts = future.result()
            self.kept.put_facts(trace, facts)
            for run in runs:
                self.start(pool, run)
        else:
            self.take_run(pool, which, future)

    def start(self, pool: concurrent.futures.Executor, run: Run) -> None:
        facts = self.kept.facts[run.trace.name()]
        self.waited[pool.submit(run_one, str(self.kept.program.path), run, str(self.folder(run.trace)), facts)] = 'run', run

    def take_run(self, pool: concurrent.futures.Executor, run: Run, future: 'concurrent.futures.Future[Any]') -> None:
        try:
            self.kept.put_run(run, future.result())
        except Refusal as refusal:
            if run not in self.again:
                self.again.add(run)
                self.start(pool, run)
                return
            self.failed.append((run, str(refusal)))
        self.done += 1
        self.tell()
        self.open[run.trace] -= 1
        if not self.open[run.trace]:
            shutil.rmtree(self.folder(run.trace), ignore_errors=True)

    def tell(self) -> None:
        if self.done % 20 and self.done != self.count:
            return
        minutes = (time.monotonic() - self.begun) / 60
        print('study.py: %d of %d runs after %.1f minutes, some %.0f minutes are left' % (
            self.done, self.count, minutes, minutes / self.done * (self.count - self.done)), file=sys.stderr, flush=True)


MOST_POOLS = 5


def make_runs(kept: Kept, runs: List[Run], at_once: int) -> None:
    """Makes the runs that aren't there yet. Where one fails twice it is told, once all others are done. A worker that is
    ended from outside, as where memory is short, ends all others; then new ones go on."""
    ask_for_large_pages()
    for _ in range(MOST_POOLS):
        making = Making(kept, runs, at_once)
        if making.count < len(runs):
            print('study.py: %d of %d runs are there already' % (len(runs) - making.count, len(runs)), file=sys.stderr)
        try:
            making.go()
            break
        except concurrent.futures.process.BrokenProcessPool:
            print('study.py: a worker was ended; the rest is begun anew', file=sys.stderr)
    else:
        raise Refusal('workers were ended again and again')
    for run, why in making.failed:
        print('study.py: %s: %s' % (run.name(), why), file=sys.stderr)
    if making.failed:
        raise Refusal('%d runs have failed' % len(making.failed))
