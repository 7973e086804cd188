"""Runs omega with every combination of lists of values, and keeps each run.

    %(prog)s FOLDER replay --tables slice --rule fine,coarse --batch 1,2,4,8 --seed 1..5

A list is values with commas between them; 1..5 stands for 1,2,3,4,5. Each run is kept in FOLDER under a name
made of its words, with its words, report, seconds and status, a file each. What is there already isn't run
again, unless the program or the tables have changed or it was ended from outside; tables that were moved are
known by their bytes. At the end FOLDER/runs.csv has a row for each run, FOLDER/seeds.csv a row for all that differ
in their seeds alone, with mean, 95 per cent interval and range (the printed table has mean and range), and
FOLDER/differences.csv what each choice changes against its first value, on the same tables and seeds. Tables that
differ in the seed of their generator alone, by their file `workload`, are counted together. The status is 0 where
every run ended with status 0.
"""
import argparse
import contextlib
import importlib
import os
import shutil
import subprocess
import sys
import threading
import uuid
from concurrent.futures import FIRST_COMPLETED, Future, ProcessPoolExecutor, ThreadPoolExecutor, wait
from concurrent.futures.process import BrokenProcessPool
from pathlib import Path
from typing import Any, Dict, Generator, Iterator, List, Optional, Sequence, Tuple

from . import running
from .common import Refusal, ends, own_name, processors
from .pools import end_all, pool_of
from .run_numbers import is_short, kept_numbers, pack_reader, read_numbers, try_to_read
from .sweep_tables import (Result, differences_table, groups_of, runs_table, seeds_table, text_table, write_csv)
from .sweeps import Kept, Run, all_kept, command_line, digest, kept_in, runs_of, still_to_be_made

# Where the system says whether it gives memory in large pages.
PAGES = Path('/sys/kernel/mm/transparent_hugepage/enabled')

HERE = Path(__file__).resolve().parent
ROOT = HERE.parent.parent       # of a repository, if this is in one
BUILT = ROOT / 'crates' / 'omega' / 'out' / 'omega'

DASK_PATIENCE = 20  # seconds

Outcome = Dict[str, object]     # what running.run_one answers
Call = Tuple[str, str, str, List[str], List[str], str]     # and what it is called with


def tell(words: str) -> None:
    print('%s: %s' % (own_name(), words), file=sys.stderr, flush=True)


# The program.

def is_program(path: Path) -> bool:
    return path.is_file() and os.access(path, os.X_OK)


def program_of(chosen: Optional[Path]) -> Path:
    """The program that is named by --program, by OMEGA_PROGRAM, that is built in this repository, or on the path."""
    named = [(chosen, ''), (os.environ.get('OMEGA_PROGRAM') or None, ', which OMEGA_PROGRAM names')]
    for path, says in named:
        if path is not None:
            program = Path(path).resolve()
            if not is_program(program):
                raise Refusal('there is no program %s%s' % (program, says))
            return program
    on_path = shutil.which('omega')
    if is_program(BUILT):
        return BUILT
    if on_path is not None:
        return Path(on_path).resolve()
    if (ROOT / 'omega.sh').is_file():
        raise Refusal('there is no program %s; omega.sh --prove builds it' % BUILT)
    raise Refusal('there is no program: it is named by --program or OMEGA_PROGRAM, or is `omega` on the path')


# Making the runs.

def form_of_numbers() -> str:
    """Stands for the way in which numbers are read of a report: these are read anew where it has changed."""
    return digest([HERE / 'reports.py', HERE / 'tables.py'])


def call_of(run: Run, folder: Path, program: Path, sweep: str) -> Call:
    return str(folder), run.name, str(program), run.words.plain(), run.inputs, sweep


class Stopped(Exception):
    """All is to end, so nothing more begins."""


class Stoppable(running.Starter):
    """Knows the programs that run, so that they can be ended."""

    def __init__(self) -> None:
        self.lock = threading.Lock()
        self.programs: List['subprocess.Popen[bytes]'] = []
        self.stopped = False

    def start(self, command: List[str], **how: Any) -> 'subprocess.Popen[bytes]':
        with self.lock:
            if self.stopped:
                raise Stopped
            self.programs = [program for program in self.programs if program.poll() is None]
            self.programs.append(super().start(command, **how))
            return self.programs[-1]

    def is_stopped(self) -> bool:
        return self.stopped

    def stop(self) -> None:
        with self.lock:
            self.stopped = True
            for program in self.programs:
                program.terminate()


def make_and_read(call: Call, starter: running.Starter, readers: ProcessPoolExecutor, form: str) -> Outcome:
    """Makes a run, and has its report read, where it is long by a process beside this one."""
    outcome, place = running.run_one(*call, starter), Path(call[0]) / call[1]
    if outcome['status'] == 0 and place.exists():
        if is_short(place):
            try_to_read(place, form)
        else:
            with contextlib.suppress(BrokenProcessPool):
                readers.submit(try_to_read, place, form).result()
    return outcome


def run_here(calls: Sequence[Call], at_once: int) -> Generator[Outcome, None, None]:
    """Makes the runs on this machine, so many at once."""
    starter, form = Stoppable(), form_of_numbers()
    with pool_of(min(at_once, processors())) as readers, ThreadPoolExecutor(at_once) as pool:
        futures = {pool.submit(make_and_read, call, starter, readers, form) for call in calls}
        try:
            while futures:
                done, futures = wait(futures, return_when=FIRST_COMPLETED)
                yield from (future.result() for future in done)
        except BaseException:
            starter.stop()
            end_all()
            pool.shutdown(wait=True, cancel_futures=True)
            raise


def dask_client(address: str) -> Any:
    """The package that has dask's scheduler, and a client of one. Its workers needn't have this package."""
    try:
        cloudpickle: Any = importlib.import_module('cloudpickle')
        distributed: Any = importlib.import_module('distributed')
    except ImportError as fault:
        raise Refusal('--dask needs the Python package distributed, which this Python hasn\'t (in Debian it is '
                      'python3-distributed, for /usr/bin/python3)') from fault
    cloudpickle.register_pickle_by_value(running)
    try:
        return distributed, distributed.Client(address, timeout=DASK_PATIENCE)
    except (OSError, ValueError) as fault:
        raise Refusal('no scheduler of dask answers at %s' % address) from fault


def run_by_dask(calls: Sequence[Call], address: str) -> Generator[Outcome, None, None]:
    """Hands the runs to the workers of a scheduler of dask. What a worker that goes was doing is done by
    another."""
    distributed, client = dask_client(address)
    packed = Path(calls[0][0]) / ('.%s-reader' % calls[0][-1])
    pack_reader(packed)
    reader = [str(packed), form_of_numbers()]
    with client:
        tell('%d workers are there' % len(client.scheduler_info()['workers']))
        futures = [client.submit(running.run_and_read, *call, reader, key='omega-%s-%d' % (call[-1], place), retries=10)
                   for place, call in enumerate(calls)]
        for future in distributed.as_completed(futures):
            try:
                yield future.result()
            except (distributed.KilledWorker, OSError) as fault:
                raise Refusal('a run failed on every worker that had it: %s' % fault) from fault


def make_runs(todo: Sequence[Run], words: argparse.Namespace, folder: Path, program: Path) -> None:
    """Makes the runs that aren't kept yet, and tells of each."""
    sweep = uuid.uuid4().hex[:12]
    calls = [call_of(run, folder, program, sweep) for run in todo]
    outcomes = run_by_dask(calls, words.dask) if words.dask else run_here(calls, words.at_once)
    try:
        with contextlib.closing(outcomes):
            for done, outcome in enumerate(outcomes, 1):
                tell('%d of %d: %s, status %s, %s s%s' % (
                    done, len(todo), outcome['name'], outcome['status'], outcome['seconds'],
                    ' at %s' % outcome['where'] if words.dask else ''))
    finally:
        for left in folder.glob('.%s-*' % sweep):
            if left.is_dir():
                shutil.rmtree(left, ignore_errors=True)
            else:
                left.unlink(missing_ok=True)


# What came of them.

def results_of(kept: Sequence[Kept], at_once: int) -> Iterator[Result]:
    """The numbers of runs. Long reports that nobody has read yet are read by some processes."""
    form = form_of_numbers()
    known = {run.name: {} if run.status else kept_numbers(run.report.parent, form) for run in kept}
    unread = [run for run in kept if known[run.name] is None and not is_short(run.report.parent)]
    with contextlib.ExitStack() as stack:
        futures: Dict[str, 'Future[Dict[str, float]]'] = {}
        if unread:
            pool = stack.enter_context(pool_of(min(at_once, len(unread))))
            futures = {run.name: pool.submit(read_numbers, run.report.parent, form) for run in unread}
        for run in kept:
            try:
                numbers = futures[run.name].result() if run.name in futures else known[run.name]
            except BrokenProcessPool as fault:
                raise Refusal('a process that read a report was ended from outside; perhaps memory ran out') from fault
            numbers = read_numbers(run.report.parent, form) if numbers is None else numbers
            yield Result(run, {'seconds': run.seconds, **numbers} if numbers else {})


def show_tables(folder: Path, kept: Sequence[Kept], at_once: int) -> int:
    """Writes the tables, prints the one for reading, and names the runs that failed."""
    if not kept:
        raise Refusal('no run is kept in %s' % folder)
    if len({run.inputs[0] for run in kept}) > 1:
        tell('these runs are not all of the same program')
    found = list(results_of(kept, at_once))
    groups = groups_of(found)
    write_csv(folder / 'runs.csv', runs_table(found))
    write_csv(folder / 'seeds.csv', seeds_table(groups))
    write_csv(folder / 'differences.csv', differences_table(groups))
    for line in text_table(groups):
        print(line)
    failed = [run for run in kept if run.status != 0]
    for run in failed:
        tell('%s: %s' % (run.name, run.fault()))
    return 1 if failed else 0


def sweep(words: argparse.Namespace) -> int:
    folder, program = words.folder.absolute(), program_of(words.program)
    runs = runs_of(words.words, program, Path.cwd())
    folder.mkdir(parents=True, exist_ok=True)
    todo = still_to_be_made(folder, runs)
    if words.print:
        for run in todo:
            print(command_line(folder, run, program))
        return 0
    tell('%d runs, of which %d are there already' % (len(runs), len(runs) - len(todo)))
    if todo:
        make_runs(todo, words, folder, program)
    kept = [kept_in(folder, run.name) for run in runs]
    return show_tables(folder, [run for run in kept if run is not None], words.at_once)


def parser() -> argparse.ArgumentParser:
    whole = argparse.ArgumentParser(
        description=__doc__, formatter_class=argparse.RawDescriptionHelpFormatter,
        epilog='On one machine:      %(prog)s FOLDER WORDS\n'
               'On workers of dask:  %(prog)s --dask tcp://HOST:8786 FOLDER WORDS\n'
               'By GNU parallel:     %(prog)s --print FOLDER WORDS | parallel; %(prog)s --collect FOLDER\n'
               'By Slurm:            %(prog)s --print FOLDER WORDS >lines; then an array of jobs, each of which does\n'
               '                     sed -n "${SLURM_ARRAY_TASK_ID}p" lines | sh; then %(prog)s --collect FOLDER\n'
               '\nProgram, tables and FOLDER lie where every machine finds them under the same path.')
    whole.add_argument('--program', metavar='PROGRAM', type=Path, help='the built program; where it is left out that of '
                       'OMEGA_PROGRAM, else the one that is built in the repository of this tool, else `omega` on the '
                       'path')
    whole.add_argument('--at-once', metavar='N', type=int, default=processors(),
                       help='make so many runs at once; as many as there are processors where it is left out')
    ways = whole.add_mutually_exclusive_group()
    ways.add_argument('--dask', metavar='ADDRESS', help='hand the runs to the scheduler of dask at this address')
    ways.add_argument('--print', action='store_true', help='print the commands of the runs that are still to be made, '
                      'a line each, and make none')
    ways.add_argument('--collect', action='store_true', help='make no run; the tables are of all runs in FOLDER')
    whole.add_argument('folder', metavar='FOLDER', type=Path, help='where the runs are kept')
    whole.add_argument('words', metavar='WORDS', nargs=argparse.REMAINDER, help='the words of omega, with lists')
    return whole


def ask_for_large_pages() -> None:
    """Has the C library of programs that are started ask for memory in large pages, where the system gives them on
    request and nobody has said how memory is had: as omega.sh does."""
    try:
        said = PAGES.read_text()
    except OSError:
        return
    if '[madvise]' in said or '[always]' in said:
        os.environ.setdefault('GLIBC_TUNABLES', 'glibc.malloc.hugetlb=1')


def main(arguments: Optional[List[str]]) -> int:
    words = parser().parse_args(arguments)
    if words.at_once < 1:
        raise Refusal('--at-once is at least 1')
    if words.collect:
        if words.words:
            raise Refusal('with --collect there are no words: the tables are of all runs in the folder')
        return show_tables(words.folder.absolute(), all_kept(words.folder), words.at_once)
    ask_for_large_pages()
    return sweep(words)


def command() -> int:
    return ends(own_name(), main)
