"""Cuts a slice of the published trace of 2011 and lays it down as tables for omega.

TRACE is the folder with machine_events, machine_attributes, task_events and task_constraints, each a folder
of parts (part-00000-of-00500.csv.gz and so on). The slice has what happens from FROM up to TO, and at FROM
what was there before: the machines and their attributes, and the tasks that were submitted and hadn't ended.
Of the attributes it has those that a constraint of the slice names, since no other has an effect.

FROM and TO are times of the trace: microseconds, or with units, as 25h or 1d2h. Of the two long tables,
task_events and task_constraints, parts that begin at TO or later needn't be there. All that is read is
checked: the numbers of the parts, that each is whole, the columns that omega reads, and that the rows of the
long tables are in order of time. What is wrong is named by file and row; then no folder is written.
"""
import argparse
import os
import pickle
import shutil
import sys
import tempfile
import time
from concurrent.futures import Future, ProcessPoolExecutor
from concurrent.futures.process import BrokenProcessPool
from contextlib import contextmanager
from functools import partial
from pathlib import Path
from typing import Any, BinaryIO, Callable, Dict, Iterator, List, Optional, Sequence, Set, Tuple

from .common import Refusal, duration, ends, own_name, processors, to_its_end
from .pools import pool_of
from .trace_parts import (LAYOUTS, READERS, Change, Cut, Part, Piece, Wanted, know_jobs, lines_of, share_of, table_up_to,
                          whole_table)

MOST_ROWS = 2_000_000
MOST_BYTES = 268_435_456
MOST_MACHINES = 65_536


# Progress, on standard error.

class Progress:
    def __init__(self, silent: bool) -> None:
        self.silent, self.told, self.read = silent, time.monotonic(), 0

    def tell(self, words: str) -> None:
        if not self.silent:
            print('%s: %s' % (own_name(), words), file=sys.stderr, flush=True)

    def of_part(self, part: Part, of: int, done: int, rows: int, taken: int) -> None:
        """Tells of a part that is done, at most once a second but for the last one."""
        self.read += rows
        if done == of or time.monotonic() - self.told >= 1:
            self.told = time.monotonic()
            self.tell('%s: %d of %d parts; %s rows read in all; %s of %s rows used' % (
                part.table, done, of, thousands(self.read), thousands(taken), thousands(MOST_ROWS)))


def thousands(number: int) -> str:
    return '{:,}'.format(number)


# Putting the pieces together.

class Slice:
    """The tables as they grow in a folder of their own, which gets its name when all is done."""

    def __init__(self, cut: Cut, folder: Path, progress: Progress) -> None:
        self.cut, self.folder, self.progress = cut, folder, progress
        self.rows = {table: 0 for table in LAYOUTS}
        self.living = 0

    def used(self) -> int:
        return sum(self.rows.values())

    def table(self, name: str) -> BinaryIO:
        return open(self.folder / (name + '.csv'), 'wb')

    def put(self, file: BinaryIO, table: str, line: bytes) -> None:
        file.write(line + b'\n')
        self.rows[table] += 1

    def at_begin(self, line: bytes) -> bytes:
        """A row from before the slice, at the slice's beginning."""
        return b'%d%s' % (self.cut.begin, line[line.index(b','):])


def pieces(reads: Sequence['Read'], wanted: Wanted, end: int) -> Iterator[Tuple[Part, Piece]]:
    """The pieces in order of the parts, where the table was in order of time over all of them."""
    last = 0
    for part, read in zip(wanted.parts, reads):
        piece = read()
        if LAYOUTS[part.table].in_order and piece.first is not None:
            if piece.first < last:
                raise Refusal('%s row 1: its time %d comes before %d, with which the part before ends' % (
                    part.path, piece.first, last))
            last = piece.last
        yield part, piece
    if wanted.lacking is not None and last < end:
        raise Refusal('%s: this part is missing, and those before it end at %d, before the end of the slice'
                      % (wanted.lacking, last))


def put_machines(slice_: Slice, found: Iterator[Tuple[Part, Piece]], of: int) -> None:
    """Rows before the slice get the time of its beginning and stay in their order."""
    rows: List[Tuple[int, bytes]] = []
    for done, (part, piece) in enumerate(found, 1):
        rows += ((int(line[:line.index(b',')]), line) for line in lines_of(piece.within))
        slice_.progress.of_part(part, of, done, piece.rows, slice_.used() + len(rows))
    rows.sort(key=lambda row: row[0])
    machines = {line.split(b',', 2)[1] for _, line in rows}
    if len(machines) > MOST_MACHINES:
        raise Refusal('the slice has %s machines, and omega takes %s' % (
            thousands(len(machines)), thousands(MOST_MACHINES)))
    with slice_.table('machine_events') as file:
        for at, line in rows:
            slice_.put(file, 'machine_events', slice_.at_begin(line) if at < slice_.cut.begin else line)


def loads(path: Path) -> Iterator[Any]:
    """What a worker laid down, piece by piece."""
    with open(path, 'rb') as file:
        while True:
            try:
                yield pickle.load(file)
            except EOFError:
                return


def apply(wanted: Dict[bytes, bytes], changes: Dict[bytes, Change]) -> None:
    """What is wanted once these rows are applied, still in the order in which the tasks came."""
    for task, (ended, line, submitted) in changes.items():
        if ended:
            wanted.pop(task, None)
        if line is not None and (submitted or task in wanted):
            wanted[task] = line


def submitted_at_begin(slice_: Slice, line: bytes) -> bytes:
    fields = slice_.at_begin(line).split(b',')
    fields[5] = b'0'
    return b','.join(fields)


def put_tasks(slice_: Slice, found: Iterator[Tuple[Part, Piece]], of: int) -> None:
    """A task that is wanted where the slice begins is submitted there, with what its last row asks for."""
    wanted: Dict[bytes, bytes] = {}
    with slice_.table('task_events') as file:
        begun = False
        for done, (part, piece) in enumerate(found, 1):
            for changes in loads(piece.before):
                apply(wanted, changes)
            if piece.last >= slice_.cut.begin and not begun:
                begun = True
                put_living(slice_, file, wanted)
            for line in lines_of(piece.within):
                slice_.put(file, 'task_events', line)
            slice_.progress.of_part(part, of, done, piece.rows, slice_.used() + len(wanted) * (not begun))
            piece.before.unlink()
            piece.within.unlink()
        if not begun:
            put_living(slice_, file, wanted)


def put_living(slice_: Slice, file: BinaryIO, wanted: Dict[bytes, bytes]) -> None:
    slice_.living = len(wanted)
    for line in wanted.values():
        slice_.put(file, 'task_events', submitted_at_begin(slice_, line))
    wanted.clear()


def tasks_of_slice(folder: Path) -> Set[bytes]:
    """The tasks that the slice's rows name, each as its job and index with a comma between them."""
    with open(folder / 'task_events.csv', 'rb') as file:
        return {b'%d,%d' % (int(job), int(index)) for _, _, job, index, _ in (line.split(b',', 4) for line in file)}


def put_constraints(slice_: Slice, found: Iterator[Tuple[Part, Piece]], of: int,
                    tasks: Set[bytes]) -> Set[bytes]:
    """The constraints of the slice's tasks, each once. Answers the attributes that they name."""
    seen: Set[bytes] = set()
    names: Set[bytes] = set()
    with slice_.table('task_constraints') as file:
        for done, (part, piece) in enumerate(found, 1):
            for line in lines_of(piece.within):
                _, constraint = line.split(b',', 1)
                job, index, _, name, _ = constraint.split(b',')
                if b'%d,%d' % (int(job), int(index)) in tasks and constraint not in seen:
                    seen.add(constraint)
                    names.add(name)
                    slice_.put(file, 'task_constraints', line)
            slice_.progress.of_part(part, of, done, piece.rows, slice_.used())
            piece.within.unlink()
    return names


def put_attributes(slice_: Slice, found: Iterator[Tuple[Part, Piece]], of: int, names: Set[bytes]) -> None:
    """The attributes that a constraint names: the last row before the slice for each machine, and its rows."""
    last: Dict[Tuple[bytes, ...], Tuple[int, bytes]] = {}
    withins: List[Path] = []
    for done, (part, piece) in enumerate(found, 1):
        for changes in loads(piece.before):
            for key, (at, line) in changes.items():
                if key[1] in names and at >= last.get(key, (0,))[0]:
                    last[key] = at, line
        withins.append(piece.within)
        slice_.progress.of_part(part, of, done, piece.rows, slice_.used())
    with slice_.table('machine_attributes') as file:
        for _, line in last.values():
            slice_.put(file, 'machine_attributes', slice_.at_begin(line))
        for path in withins:
            for line in lines_of(path):
                if line.split(b',', 3)[2] in names:
                    slice_.put(file, 'machine_attributes', line)


# Who reads the parts.

Read = Callable[[], Piece]     # answers what was made of a part, once that is done


class Readers:
    """Does work in this process, when its result is asked for."""

    def __init__(self, jobs: Set[bytes]) -> None:
        self.jobs = jobs

    def submit(self, part: Part, cut: Cut, scratch: Path) -> Read:
        return partial(self.read, part, cut, scratch)

    def read(self, part: Part, cut: Cut, scratch: Path) -> Piece:
        know_jobs(self.jobs)
        return READERS[part.table](part, cut, scratch)


class Workers(Readers):
    """Does work in processes of its own, beside each other."""

    def __init__(self, jobs: Set[bytes], pool: ProcessPoolExecutor) -> None:
        super().__init__(jobs)
        self.pool = pool

    def submit(self, part: Part, cut: Cut, scratch: Path) -> Read:
        with to_its_end():  # a process may be started for it
            return partial(result_of, self.pool.submit(READERS[part.table], part, cut, scratch))


def result_of(future: 'Future[Piece]') -> Piece:
    try:
        return future.result()
    except BrokenProcessPool as fault:
        raise Refusal('a process that read a part was ended from outside; perhaps memory ran out') from fault


@contextmanager
def readers_of(count: int, jobs: Set[bytes]) -> Iterator[Readers]:
    if count == 1:
        yield Readers(jobs)
        return
    with pool_of(count, know_jobs, jobs) as pool:
        yield Workers(jobs, pool)


def cut_slice(trace: Path, slice_: Slice, workers: int) -> None:
    """Reads all tables and lays down the slice's. Constraints are read once it is known which jobs the
    slice has; all else is read beside each other."""
    cut, scratch = slice_.cut, slice_.folder / 'scratch'
    scratch.mkdir()

    def start(readers: Readers, wanted: Wanted) -> Iterator[Tuple[Part, Piece]]:
        return pieces([readers.submit(part, cut, scratch) for part in wanted.parts], wanted, cut.end)

    machines = whole_table(trace, 'machine_events')
    attributes = whole_table(trace, 'machine_attributes')
    tasks = table_up_to(trace, 'task_events', cut.end)
    constraints = table_up_to(trace, 'task_constraints', cut.end)
    with readers_of(workers, set()) as first:
        of_machines, of_attributes, of_tasks = (start(first, table) for table in (machines, attributes, tasks))
        put_machines(slice_, of_machines, len(machines.parts))
        put_tasks(slice_, of_tasks, len(tasks.parts))
        known = tasks_of_slice(slice_.folder)
        with readers_of(workers, {task[:task.index(b',')] for task in known}) as second:
            names = put_constraints(slice_, start(second, constraints), len(constraints.parts), known)
        put_attributes(slice_, of_attributes, len(attributes.parts), names)
    shutil.rmtree(scratch)


def check_limits(slice_: Slice) -> None:
    """Refuses a slice that omega would."""
    used = slice_.used()
    if used > MOST_ROWS:
        whole = slice_.cut.share.whole / slice_.cut.share.part if slice_.cut.share else 1
        raise Refusal('the slice has %s rows, and omega takes %s: take a shorter one, or --share 1/%d' % (
            thousands(used), thousands(MOST_ROWS), -(-used * whole // MOST_ROWS)))
    for table in LAYOUTS:
        size = (slice_.folder / (table + '.csv')).stat().st_size
        if size > MOST_BYTES:
            raise Refusal('%s has %s bytes, and omega takes %s: take a shorter slice' % (
                table, thousands(size), thousands(MOST_BYTES)))


def tell_summary(slice_: Slice) -> None:
    for table, rows in slice_.rows.items():
        print('%-20s%12s rows' % (table, thousands(rows)))
    print('%-20s%12s rows, %.1f %% of the %s that omega takes' % (
        'all', thousands(slice_.used()), 100 * slice_.used() / MOST_ROWS, thousands(MOST_ROWS)))
    print('%s tasks were there at the beginning' % thousands(slice_.living))


def words_of(arguments: Optional[List[str]]) -> argparse.Namespace:
    parser = argparse.ArgumentParser(
        description=__doc__, formatter_class=argparse.RawDescriptionHelpFormatter,
        epilog='For example: %(prog)s clusterdata-2011-2 slice 25h 27h\n'
               '             %(prog)s --share 1/8 clusterdata-2011-2 day 1d 2d')
    parser.add_argument('trace', metavar='TRACE', type=Path, help="the trace's folder")
    parser.add_argument('folder', metavar='FOLDER', type=Path, help='the folder to write; it must not be there')
    parser.add_argument('begin', metavar='FROM', help='when the slice begins')
    parser.add_argument('end', metavar='TO', help='when it ends')
    parser.add_argument('--share', metavar='N/M', help='take N of M jobs and of M machines, chosen by their '
                        'numbers and so the same in every table; a day of the whole cell fits as 1/8')
    parser.add_argument('--processors', metavar='N', type=int, default=processors(),
                        help='read so many parts at once; as many as there are processors where it is left out')
    parser.add_argument('--quiet', action='store_true', help='tell no progress')
    return parser.parse_args(arguments)


@contextmanager
def folder_to_be(folder: Path) -> Iterator[Path]:
    """A folder under another name, which gets its own once all went well; else nothing is left."""
    folder.parent.mkdir(parents=True, exist_ok=True)
    own = Path(tempfile.mkdtemp(prefix=folder.name + '.', dir=folder.parent))
    try:
        yield own
        mask = os.umask(0)
        os.umask(mask)
        own.chmod(0o777 & ~mask)
        own.rename(folder)
    finally:
        shutil.rmtree(own, ignore_errors=True)


def main(arguments: Optional[List[str]]) -> int:
    words = words_of(arguments)
    cut = Cut(duration(words.begin), duration(words.end), share_of(words.share) if words.share else None)
    if cut.begin >= cut.end:
        raise Refusal('the slice would end at %d and begin at %d: FROM comes before TO' % (cut.end, cut.begin))
    if words.processors < 1:
        raise Refusal('--processors is at least 1')
    folder = words.folder.absolute()
    if folder.exists() or folder.is_symlink():
        raise Refusal('%s is there already' % words.folder)
    with folder_to_be(folder) as own:
        slice_ = Slice(cut, own, Progress(words.quiet))
        cut_slice(words.trace, slice_, words.processors)
        check_limits(slice_)
    tell_summary(slice_)
    return 0


def command() -> int:
    return ends(own_name(), main)
