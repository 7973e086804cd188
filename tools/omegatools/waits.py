"""How long tasks waited: the tables tell when a task was submitted and ended, and the report when it was
placed and stopped, to a round, or where it tells single times to the commit."""
import csv
from pathlib import Path
from typing import Dict, Iterable, Iterator, List, NamedTuple, Optional, Sequence, Set, Tuple

from .common import Refusal
from .reports import FIRST_EXTRA, KINDS, Decision, Line, report_lines
from .tables import SPREAD, spread

Key = Tuple[int, int]   # job and index


class Wish:
    """A task from when it is submitted until it ends. One that is submitted again is another. Times are in
    microseconds. What isn't a row of the trace happens at the time of the last row of its round; where single times
    are told a commit has its own, and what isn't a commit happens no sooner than the commits before it."""
    __slots__ = ('job', 'index', 'kind', 'submitted', 'placed', 'since', 'evicted', 'displaced', 'ended', 'runs')

    def __init__(self, key: Key, kind: str, submitted: int) -> None:
        self.job, self.index = key
        self.kind, self.submitted = kind, submitted
        self.placed: Optional[int] = None       # for the first time
        self.since = submitted                  # when it was placed for the last time
        self.evicted: List[int] = []
        self.displaced: List[int] = []
        self.ended: Optional[int] = None
        self.runs = False

    def wait(self) -> Optional[int]:
        return None if self.placed is None else self.placed - self.submitted

    def fate(self) -> str:
        """What became of it by the end of the report."""
        if self.placed is None:
            return 'waits' if self.ended is None else 'never ran'
        if self.ended is None:
            return 'runs' if self.runs else 'waits again'
        return 'ended' if self.runs else 'ended while it waited again'


COLUMNS = ('job', 'index', 'kind', 'submitted', 'placed', 'wait', 'evicted', 'displaced', 'ended', 'fate')


def row_of(wish: Wish) -> Tuple[object, ...]:
    """A wish as a row; several times in a column have blanks between them."""
    return (wish.job, wish.index, wish.kind, wish.submitted, wish.placed, wish.wait(),
            ' '.join(map(str, wish.evicted)), ' '.join(map(str, wish.displaced)), wish.ended, wish.fate())


# The tables. A fault in them is told, but it is omega that checks them.

class Event(NamedTuple):
    time: int
    key: Key
    code: int
    is_service: bool


MARK_OF_BYTE_ORDER = '\xef\xbb\xbf'     # in latin-1
csv.field_size_limit(1 << 28)           # no table that omega takes is longer


def fields_of(tables: Path, table: str, needed: bool) -> Iterator[List[str]]:
    """The rows of a table. A byte order mark in front is dropped."""
    path = tables / (table + '.csv')
    if not needed and not path.exists():
        return
    with open(path, encoding='latin-1', newline='') as file:
        if file.read(3) != MARK_OF_BYTE_ORDER:
            file.seek(0)
        try:
            yield from (row for row in csv.reader(file) if row)
        except csv.Error as fault:  # a byte 0, for an older Python
            raise Refusal('%s can\'t be read: %s' % (path, fault)) from fault


def numbers_of(tables: Path, table: str, columns: Iterable[int], needed: bool = True) -> Iterator[List[int]]:
    """Some columns of a table as numbers, an empty one as 0."""
    for number, fields in enumerate(fields_of(tables, table, needed), 1):
        try:
            yield [int(fields[column - 1] or 0) for column in columns]
        except (ValueError, IndexError) as fault:
            raise Refusal('%s row %d: it is no row of this table' % (tables / (table + '.csv'), number)) from fault


# The codes of rows that ask for a task, and that end it.
ASKING, ENDING = (0, 1), (3, 4, 5, 6)
SCHEDULED = 1


class Tables:
    """What the tables of a folder say of tasks, by the number of the window: the rows in order of time, and
    the time of the last row of any table."""

    def __init__(self, folder: Path, window: int) -> None:
        self.folder = folder
        self.events: Dict[int, List[Event]] = {}
        self.last: Dict[int, int] = {}
        self.services: Set[int] = set()
        self.map_reduce = {job for job, _ in numbers_of(folder, 'mapreduce_jobs', (1, 2), needed=False)}
        rows = [Event(time, (job, index), code, of_class >= 2)
                for time, job, index, code, of_class in numbers_of(folder, 'task_events', (1, 3, 4, 6, 8))]
        rows.sort(key=lambda event: event.time)
        jobs: Set[int] = set()
        for event in rows:
            self.events.setdefault(event.time // window, []).append(event)
            if event.key[0] not in jobs:
                jobs.add(event.key[0])
                if event.is_service:
                    self.services.add(event.key[0])
        others = (time for table in ('machine_events', 'machine_attributes')
                  for time, in numbers_of(folder, table, (1,), table == 'machine_events'))
        for time in (*others, *(event.time for event in rows)):
            number = time // window
            self.last[number] = max(time, self.last.get(number, 0))

    def lives(self) -> Dict[Key, List[int]]:
        """How long each task ran in the trace, each time: from the last row that scheduled it, or else the first that
        submitted it, to the one that ended it."""
        found: Dict[Key, List[int]] = {}
        begun: Dict[Key, int] = {}
        for number in sorted(self.events):
            for event in self.events[number]:
                if event.code == SCHEDULED or event.code in ASKING and event.key not in begun:
                    begun[event.key] = event.time
                elif event.code in ENDING and event.key in begun:
                    found.setdefault(event.key, []).append(event.time - begun.pop(event.key))
        return found

    def kind(self, job: int) -> str:
        if job in self.map_reduce:
            return KINDS[2]
        return KINDS[0] if job in self.services else KINDS[1]


class Waits:
    """The wishes of a report, in order of their submission. Each ends with a row of the trace. Where the report tells
    single times these are its decisions, in order."""

    def __init__(self, tables: Tables, report: str, decisions: Sequence[Decision] = ()) -> None:
        self.tables, self.report, self.decisions = tables, report, decisions
        self.wishes: List[Wish] = []
        self.open: Dict[Key, Wish] = {}
        self.now = self.latest = self.commits = self.rounds = 0
        for line in report_lines(report):
            self.take(str(line[0]), line)

    def take(self, kind: str, line: Line) -> None:
        if kind == 'round':
            self.rounds += 1
            self.begin_round(int(line[1]))
        elif kind == 'commit':
            if self.decisions:
                self.now = self.latest = self.decisions[self.commits].committed
            self.commits += 1
        elif kind in ('place', 'evict', 'displace') and int(line[2]) < FIRST_EXTRA:
            self.change(kind, (int(line[1]), int(line[2])), self.now)
        elif kind == 'end' and int(line[2]) < FIRST_EXTRA:
            self.end((int(line[1]), int(line[2])), self.now)
        elif kind == 'entries' and self.rounds != len(self.tables.last):
            raise self.strange('the tables have %d windows with rows, and the report has %d rounds' % (
                len(self.tables.last), self.rounds))

    def strange(self, what: str) -> Refusal:
        return Refusal('%s is no report of %s: %s (perhaps another --window was chosen)' % (
            self.report, self.tables.folder, what))

    def begin_round(self, number: int) -> None:
        """Applies the round's rows of tasks, and takes the time of its last row."""
        if number not in self.tables.last:
            raise self.strange('the tables have no row in round %d' % number)
        for event in self.tables.events.get(number, ()):
            self.take_row(event)
        self.now = max(self.tables.last[number], self.latest)

    def take_row(self, event: Event) -> None:
        if event.code in ASKING and event.key not in self.open:
            self.begin(event.key, event.time)
        elif event.code in ENDING and event.key in self.open:
            wish = self.open.pop(event.key)
            wish.ended = max(event.time, self.latest) if wish.runs else event.time

    def begin(self, key: Key, now: int) -> None:
        wish = Wish(key, self.tables.kind(key[0]), now)
        self.open[key] = wish
        self.wishes.append(wish)

    def end(self, key: Key, now: int) -> None:
        """A task ends in the report, with a row that is taken already."""

    def change(self, what: str, key: Key, now: int) -> None:
        """A task is placed or stops. One that was displaced and ends in the same round isn't open any more."""
        wish = self.open.get(key)
        if what == 'displace' and (wish is None or not wish.runs):
            return
        if wish is None:
            raise self.strange('task %d of job %d isn\'t wanted where the report has it' % (key[1], key[0]))
        wish.runs = what == 'place'
        if what == 'evict':
            wish.evicted.append(now)
        elif what == 'displace':
            wish.displaced.append(now)
        else:
            wish.since = now
            wish.placed = now if wish.placed is None else wish.placed


class OwnWaits(Waits):
    """The same where tasks run for as long as they ran in the trace. Each wish ends with a line of the report, and a
    task that has come again in the trace by then is submitted with that end. Where single times are told that is its
    life after it was placed."""

    def __init__(self, tables: Tables, report: str, decisions: Sequence[Decision] = ()) -> None:
        self.asked: Set[Key] = set()            # no row has ended these since one asked for them
        self.held: Dict[Key, int] = {}          # how often rows of the trace have asked for a task too early
        self.lives = tables.lives() if decisions else {}    # those that aren't over, of each task
        super().__init__(tables, report, decisions)

    def take_row(self, event: Event) -> None:
        if event.code in ASKING and event.key not in self.asked:
            self.asked.add(event.key)
            if event.key in self.open:
                self.held[event.key] = self.held.get(event.key, 0) + 1
            else:
                self.begin(event.key, event.time)
        elif event.code in ENDING:
            self.asked.discard(event.key)

    def end(self, key: Key, now: int) -> None:
        wish = self.open.pop(key, None)
        if wish is None or not wish.runs:
            raise self.strange('task %d of job %d doesn\'t run where the report has its end' % (key[1], key[0]))
        if self.decisions:
            if not self.lives.get(key):
                raise self.strange('task %d of job %d ends once more than in the trace' % (key[1], key[0]))
            now = wish.since + self.lives[key].pop(0)
            self.latest = max(self.latest, now)
        wish.ended = now
        if self.held.get(key):
            self.held[key] -= 1
            self.begin(key, now)


def wishes_of(tables: Tables, report: str, has_own_ends: bool, decisions: Sequence[Decision]) -> List[Wish]:
    """The wishes of a report whose tasks end with rows of the trace, or by their own lives."""
    return (OwnWaits if has_own_ends else Waits)(tables, report, decisions).wishes


QUANTILE_COLUMNS = ('kind', 'tasks', 'ran', 'never_ran', 'waits') + SPREAD


def quantile_rows(wishes: Iterable[Wish]) -> Iterator[Tuple[object, ...]]:
    """For each kind of job and for all how many tasks ran, never ran and still wait to run, and how long
    those that ran waited for it, in seconds."""
    kept = list(wishes)
    for kind in (*KINDS, 'all'):
        of_kind = [wish for wish in kept if kind in (wish.kind, 'all')]
        waits = [wait for wait in (wish.wait() for wish in of_kind) if wait is not None]
        fates = [wish.fate() for wish in of_kind]
        yield (kind, len(of_kind), len(waits), fates.count('never ran'), fates.count('waits'), *spread(waits))
