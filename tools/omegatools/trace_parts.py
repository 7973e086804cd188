"""The parts of the published trace: what a row has to have, which parts there are, and what is made of each."""
import gzip
import pickle
import re
import zlib
from pathlib import Path
from typing import Dict, Iterator, List, NamedTuple, Optional, Sequence, Set, Tuple

from .common import GREATEST_TIME, Refusal, shown

BLOCK = 1 << 22          # so many bytes are unpacked at a time
MOST_CHANGES = 1 << 17   # so many tasks are held by a worker before it lays down what became of them


# The tables of the trace, and the columns of each that omega reads.

class Column(NamedTuple):
    place: int              # from 1
    greatest: int           # of a whole number; 0 where it is a quantity
    blank: bool = False     # whether it may be empty


class Layout(NamedTuple):
    fields: int
    columns: Tuple[Column, ...]
    keys: Tuple[int, ...]   # the columns that the slice is cut by, after the time
    in_order: bool          # whether the rows must be in order of time


TIME = Column(1, GREATEST_TIME)
ID = 2 ** 64 - 1
INDEX = 2 ** 31 - 1

LAYOUTS = {
    'machine_events': Layout(6, (TIME, Column(2, ID), Column(3, 2), Column(5, 0, True), Column(6, 0, True)),
                             (2,), False),
    'machine_attributes': Layout(5, (TIME, Column(2, ID), Column(5, 1)), (2, 3), False),
    'task_events': Layout(13, (TIME, Column(3, ID), Column(4, INDEX), Column(6, 8), Column(8, 3, True),
                               Column(9, 255, True), Column(10, 0, True), Column(11, 0, True),
                               Column(12, 0, True), Column(13, 1, True)),
                          (3, 4, 6), True),
    'task_constraints': Layout(6, (TIME, Column(2, ID), Column(3, INDEX), Column(4, 3)), (2,), True),
}

QUANTITY = re.compile(rb'(?=.{1,32}\Z)([0-9]+\.?[0-9]*|\.[0-9]+)([eE][+-]?[0-9]+)?')


def usual(column: Column) -> bytes:
    """A pattern of the texts that a column mostly has, each of which is right."""
    if column.greatest == 0:
        text = b'[0-9]{1,2}(?:\\.[0-9]{1,25})?'
    elif column.greatest < 10:
        text = b'[0-%d]' % column.greatest
    else:
        text = b'(?:0|[1-9][0-9]{0,%d})' % (len(str(column.greatest)) - 2)
    return b'(?:%s)?' % text if column.blank else text


def usual_row(layout: Layout) -> 're.Pattern[bytes]':
    """A pattern of rows that are right. A row that it doesn't match is looked at column by column."""
    fields = [b'[^,"]*'] * layout.fields
    for column in layout.columns:
        fields[column.place - 1] = usual(column)
    for key in (1,) + layout.keys:
        fields[key - 1] = b'(' + fields[key - 1] + b')'
    return re.compile(b','.join(fields))


def fault_of_column(text: bytes, column: Column) -> Optional[str]:
    """What is wrong with the text of a column, if something is."""
    if text == b'' and column.blank:
        return None
    if column.greatest == 0:
        return None if QUANTITY.fullmatch(text) and float(text) <= 1000 else 'not a quantity'
    if not text.isdigit() or len(text) > 32 or int(text) > ID:
        return 'not a whole number'
    return None if int(text) <= column.greatest else 'out of range'


def unusual_row(line: bytes, layout: Layout) -> Tuple[bytes, ...]:
    """The time and the keys of a row, looked at column by column. A key that is a number has no zeros in front."""
    if b'"' in line:
        raise Refusal('a quoted field, which the trace has none of')
    fields = line.split(b',')
    if len(fields) != layout.fields:
        raise Refusal('%d field%s, and not %d' % (len(fields), '' if len(fields) == 1 else 's', layout.fields))
    for column in layout.columns:
        fault = fault_of_column(fields[column.place - 1], column)
        if fault is not None:
            raise Refusal('column %d: %s' % (column.place, fault))
    numbers = {column.place for column in layout.columns}
    return tuple(b'%d' % int(fields[key - 1]) if key in numbers else fields[key - 1] for key in (1,) + layout.keys)


# Reading a part.

def blocks_of(path: Path, size: int) -> Iterator[bytes]:
    with (gzip.open(path) if path.suffix == '.gz' else open(path, 'rb')) as file:
        while True:
            block = file.read(size)
            if not block:
                return
            yield block


def lines_of(path: Path, size: int = BLOCK) -> Iterator[bytes]:
    """The lines of a part, without their line feeds. A refusal says where the part is cut or damaged."""
    rest, count = b'', 0
    try:
        for block in blocks_of(path, size):
            lines = (rest + block).split(b'\n')
            rest = lines.pop()
            yield from lines
            count += len(lines)
    except (EOFError, zlib.error, gzip.BadGzipFile) as fault:
        raise Refusal('%s row %d: the part is cut or damaged here or behind it (%s)' % (
            path, count + 1, str(fault).lower().rstrip('.'))) from fault
    if rest:
        raise Refusal('%s row %d: the part ends in the middle of a row' % (path, count + 1))


# Of a row: its number in its part, from 1; its time; its time and keys as texts; and its line.
Row = Tuple[int, int, Tuple[bytes, ...], bytes]


def rows_of(path: Path, layout: Layout, size: int = BLOCK) -> Iterator[Row]:
    """The rows of a part, each of them checked."""
    matches, last = usual_row(layout).fullmatch, 0
    for number, line in enumerate(lines_of(path, size), 1):
        match = matches(line)
        try:
            keys = match.groups() if match else unusual_row(line, layout)
        except Refusal as fault:
            raise Refusal('%s row %d: %s' % (path, number, fault)) from fault
        at = int(keys[0])
        if at < last and layout.in_order:
            raise Refusal('%s row %d: its time %d comes before %d, the time of the row before' % (
                path, number, at, last))
        last = at
        yield number, at, keys, line


# Which jobs and machines are taken.

class Share(NamedTuple):
    """So many of so many jobs and machines. One is taken if the fractional part of its number times the
    golden ratio is below the share. These parts lie evenly, whatever the numbers have in common. (With
    every eighth number by remainder all batch jobs would go to one of two, four or eight schedulers,
    since a job's scheduler is a remainder of its number.)"""
    part: int
    whole: int

    def takes(self, number: bytes) -> bool:
        return (int(number) * 0x9E3779B97F4A7C15 % 2 ** 64) * self.whole < self.part << 64


def share_of(words: str) -> Share:
    match = re.fullmatch('([0-9]{1,6})/([0-9]{1,6})', words)
    if not match or not 0 < int(match.group(1)) <= int(match.group(2)):
        raise Refusal('%s is no share: it is two numbers as in 1/8, the first at least 1 and at most the second'
                      % shown(words))
    return Share(int(match.group(1)), int(match.group(2)))


class Cut(NamedTuple):
    """What is cut: from a time up to a time, and a share of all jobs and machines."""
    begin: int
    end: int
    share: Optional[Share]

    def takes(self, number: bytes) -> bool:
        return self.share is None or self.share.takes(number)


# What a worker makes of one part. It lays down in files beside each other what is too much to hold.

class Part(NamedTuple):
    table: str
    number: int
    path: Path


class Piece(NamedTuple):
    """What was read of a part, and where it lies."""
    rows: int               # of the part
    first: Optional[int]    # time
    last: int               # time
    before: Path            # what was before the slice
    within: Path            # the rows of the slice


class Scratch:
    """Where a worker lays down what it makes of a part."""

    def __init__(self, part: Part, folder: Path) -> None:
        base = folder / ('%s-%05d' % (part.table, part.number))
        self.before, self.within = base.with_suffix('.before'), base.with_suffix('.within')

    def piece(self, rows: int, first: Optional[int], last: int) -> Piece:
        return Piece(rows, first, last, self.before, self.within)


# What some rows made of a task: whether it ended, and then what it asks for, if they tell; and whether they
# submitted it. If they didn't, what it asks for counts only where it was wanted before.
Change = Tuple[bool, Optional[bytes], bool]
ENDED: Change = (True, None, False)


def note(changes: Dict[bytes, Change], task: bytes, code: bytes, line: bytes) -> None:
    """Adds a row of task_events. Tasks stand in the order in which they were submitted."""
    old = changes.get(task)
    if code in b'01':
        if old is not None and not old[2]:
            del changes[task]
        changes[task] = (old is not None and old[0], line, True)
    elif code in b'3456':
        changes[task] = ENDED
    elif code in b'78' and (old is None or old[1] is not None):
        changes[task] = (False, line, False) if old is None else (old[0], line, old[2])


def read_tasks(part: Part, cut: Cut, folder: Path) -> Piece:
    """Lays down what became of tasks before the slice, and the slice's rows as they are."""
    scratch = Scratch(part, folder)
    changes: Dict[bytes, Change] = {}
    number, at, first = 0, 0, None
    with open(scratch.before, 'wb') as before, open(scratch.within, 'wb') as within:
        for number, at, (_, job, index, code), line in rows_of(part.path, LAYOUTS[part.table]):
            first = at if first is None else first
            if at >= cut.end or not cut.takes(job):
                continue
            if at >= cut.begin:
                within.write(line + b'\n')
                continue
            note(changes, job + b',' + index, code, line)
            if len(changes) >= MOST_CHANGES:
                pickle.dump(changes, before)
                changes = {}
        pickle.dump(changes, before)
    return scratch.piece(number, first, at)


def read_machines(part: Part, cut: Cut, folder: Path) -> Piece:
    """Lays down the rows of the slice's machines up to its end."""
    scratch, number = Scratch(part, folder), 0
    with open(scratch.within, 'wb') as within:
        for number, at, (_, machine), line in rows_of(part.path, LAYOUTS[part.table]):
            if at < cut.end and cut.takes(machine):
                within.write(line + b'\n')
    return scratch.piece(number, None, 0)


def read_attributes(part: Part, cut: Cut, folder: Path) -> Piece:
    """Lays down the last row before the slice for each machine and name, and the slice's rows."""
    scratch, number = Scratch(part, folder), 0
    last: Dict[Tuple[bytes, bytes], Tuple[int, bytes]] = {}
    with open(scratch.before, 'wb') as before, open(scratch.within, 'wb') as within:
        for number, at, (_, machine, name), line in rows_of(part.path, LAYOUTS[part.table]):
            if at >= cut.end or not cut.takes(machine):
                continue
            if at >= cut.begin:
                within.write(line + b'\n')
            elif at >= last.get((machine, name), (0,))[0]:
                last[machine, name] = at, line
        pickle.dump(last, before)
    return scratch.piece(number, None, 0)


def read_constraints(part: Part, cut: Cut, folder: Path) -> Piece:
    """Lays down the rows before the slice's end of jobs that the slice has."""
    scratch = Scratch(part, folder)
    number, at, first = 0, 0, None
    with open(scratch.within, 'wb') as within:
        for number, at, (_, job), line in rows_of(part.path, LAYOUTS[part.table]):
            first = at if first is None else first
            if at < cut.end and job in jobs_of_slice:
                within.write(line + b'\n')
    return scratch.piece(number, first, at)


READERS = {'machine_events': read_machines, 'machine_attributes': read_attributes, 'task_events': read_tasks,
           'task_constraints': read_constraints}

# Of a worker that reads constraints.
jobs_of_slice: Set[bytes] = set()


def know_jobs(jobs: Set[bytes]) -> None:
    jobs_of_slice.clear()
    jobs_of_slice.update(jobs)


def first_time(part: Part) -> Optional[int]:
    """The time of the part's first row, if it has one."""
    return next((at for _, at, _, _ in rows_of(part.path, LAYOUTS[part.table], 1 << 14)), None)


# Which parts are there, and which are wanted.

NAME = re.compile(r'part-([0-9]{1,9})-of-([0-9]{1,9})\.csv(\.gz)?')


def parts_of(trace: Path, table: str) -> Tuple[List[Part], int]:
    """The parts of a table that are there, by their numbers, and how many its names speak of."""
    found: Dict[int, Part] = {}
    wholes: Dict[int, Path] = {}
    for path in sorted((trace / table).glob('part-*')):
        match = NAME.fullmatch(path.name)
        if not match:
            raise Refusal('%s: no name of a part, such as part-00000-of-00500.csv.gz' % path)
        number, whole = int(match.group(1)), int(match.group(2))
        if number in found:
            raise Refusal('%s: part %d is there twice, also as %s' % (path, number, found[number].path.name))
        if number >= whole:
            raise Refusal('%s: part %d of %d, where the first is part 0' % (path, number, whole))
        found[number] = Part(table, number, path)
        wholes.setdefault(whole, path)
    if not found:
        raise Refusal('%s: there are no parts in it' % (trace / table))
    if len(wholes) > 1:
        raise Refusal('%s: the names of the parts speak of %s parts' % (
            trace / table, ' and of '.join(map(str, sorted(wholes)))))
    return [found[number] for number in sorted(found)], next(iter(wholes))


def missing(parts: Sequence[Part], whole: int) -> Optional[int]:
    """The first number of a part that isn't there."""
    there = {part.number for part in parts}
    return next((number for number in range(whole) if number not in there), None)


def name_beside(part: Part, number: int) -> Path:
    """The name that a part of another number has, beside this one."""
    match = NAME.fullmatch(part.path.name)
    assert match is not None
    return part.path.with_name('part-%0*d%s' % (
        len(match.group(1)), number, part.path.name[match.end(1):]))


class Wanted(NamedTuple):
    """The parts of a table that are to be read, and the one that must not be wanted behind them, since it
    isn't there."""
    parts: List[Part]
    lacking: Optional[Path]


def whole_table(trace: Path, table: str) -> Wanted:
    parts, whole = parts_of(trace, table)
    gap = missing(parts, whole)
    if gap is not None:
        raise Refusal('%s: this part is missing' % name_beside(parts[0], gap))
    return Wanted(parts, None)


def table_up_to(trace: Path, table: str, end: int) -> Wanted:
    """The parts that begin before the end of the slice. One that is missing before such a part is refused
    here, and one behind them once it is known when they end."""
    parts, whole = parts_of(trace, table)
    gap = missing(parts, whole)
    lacking = None if gap is None else name_beside(parts[0], gap)
    wanted: List[Part] = []
    for part in parts:
        at = first_time(part)
        if at is not None and at >= end:
            break
        if gap is not None and gap < part.number:
            raise Refusal('%s: this part is missing' % lacking)
        wanted.append(part)
    behind = wanted[-1].number + 1 if wanted else 0
    return Wanted(wanted, lacking if gap == behind else None)
