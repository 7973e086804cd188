"""Reading a report of omega, as text or as JSON, whole and in order."""
import bz2
import contextlib
import gzip
import json
import lzma
import os
import re
import shutil
import stat
import sys
import tempfile
import zlib
from typing import IO, Any, Callable, Dict, Iterator, List, NamedTuple, Optional, Tuple, Union, cast

from .common import Refusal, shown

FIRST_EXTRA = 2 ** 31
AMOUNTS = ('cpu', 'mem', 'disk')
COUNTS = ('commits', 'empty', 'placing', 'conflicted', 'placed', 'refused', 'withdrawn', 'evicted')
KINDS = ('services', 'batch', 'MapReduce')
MOST_BYTES_OF_LINE = 1000

Line = List[Union[int, str]]

# The lines of a report, with N for each number.
FORMS = frozenset((
    'omega N', 'round N', 'commit N N N', 'evict N N N', 'place N N N', 'refuse N N N no-machine',
    'refuse N N N running N', 'refuse N N N changed N N', 'refuse N N N victim-rank N N',
    'refuse N N N same-job N N', 'refuse N N N full N N N', 'refuse N N N withdrawn N', 'displace N N N',
    'end N N N', 'use cpu N N mem N N disk N N', 'entries N rounds N',
    'scheduler N ' + ' '.join('%s N' % count for count in COUNTS), 'waiting N abandoned N', 'busy N N N',
    'wait N N N', 'time N N N N', 'first N N N N'))


# From bytes to lines.

copies: Dict[str, IO[bytes]] = {}   # of what can be read once only


def copy_of(path: str) -> IO[bytes]:
    """What can be read once only, as standard input or a pipe, put where it can be read again."""
    if path not in copies:
        copies[path] = tempfile.TemporaryFile()
        with contextlib.ExitStack() as stack:
            shutil.copyfileobj(sys.stdin.buffer if path == '-' else stack.enter_context(open(path, 'rb')), copies[path])
    return copies[path]


def is_pipe(path: str) -> bool:
    return path == '-' or stat.S_ISFIFO(os.stat(path).st_mode)


@contextlib.contextmanager
def opened(path: str) -> Iterator[IO[bytes]]:
    """A report's bytes: of a file, or of standard input where the path is `-`; unpacked where they are packed
    by gzip, bzip2 or xz."""
    with contextlib.ExitStack() as stack:
        file: IO[bytes]
        if is_pipe(path):
            file = copy_of(path)
            file.seek(0)
        else:
            file = stack.enter_context(open(path, 'rb'))
        yield unpacked(file, stack)


def unpacked(file: IO[bytes], stack: contextlib.ExitStack) -> IO[bytes]:
    """The same bytes, or those that were packed, by what they begin with."""
    first = file.peek(6)[:6]  # type: ignore[attr-defined]
    ways: Dict[bytes, Callable[[Any], Any]] = {
        b'\x1f\x8b': lambda it: gzip.GzipFile(fileobj=it), b'BZh': bz2.BZ2File, b'\xfd7zXZ': lzma.LZMAFile}
    for mark, way in ways.items():
        if first.startswith(mark):
            return cast(IO[bytes], stack.enter_context(way(file)))
    return file


def word_or_number(word: str) -> Union[int, str]:
    """A word of digits as the number that it is. None has more than 39, those of 128 bits."""
    return int(word) if word.isdigit() and word.isascii() and len(word) < 40 else word


def text_lines(file: IO[bytes], first: bytes) -> Iterator[Line]:
    """The lines of a text. Each must end with a line feed."""
    for number, data in enumerate(whole_lines(file, first), 1):
        if not data.endswith(b'\n'):
            raise Refusal('line %d is cut, or it is no line of a report' % number)
        yield [word_or_number(word) for word in data[:-1].decode('latin-1').split(' ')]


def whole_lines(file: IO[bytes], first: bytes) -> Iterator[bytes]:
    yield first + file.readline(MOST_BYTES_OF_LINE)
    while True:
        data = file.readline(MOST_BYTES_OF_LINE)
        if not data:
            return
        yield data


ITEM = re.compile(r'\s*(\[[^\[\]]*\])\s*([,\]])')


def json_lines(file: IO[bytes]) -> Iterator[Line]:
    """The items of an array of arrays, read piece by piece. Its first bracket is already read."""
    text, number, closed = '', 0, False
    for block in iter(lambda: file.read(1 << 20), b''):
        text += block.decode('latin-1')
        at = 0
        while not closed:
            match = ITEM.match(text, at)
            if match is None:
                break
            number += 1
            at, closed = match.end(), match.group(2) == ']'
            yield json_item(match.group(1), number)
        text = text[at:]
        if len(text) > MOST_BYTES_OF_LINE + (1 << 20):
            break
    if not closed:
        raise Refusal('item %d is cut, or it is no array of words and numbers' % (number + 1))
    if text.strip():
        raise Refusal('there is more behind the array')


def json_item(text: str, number: int) -> Line:
    try:
        item = json.loads(text)
    except ValueError as fault:
        raise Refusal('item %d is no JSON' % number) from fault
    if not all(isinstance(word, (int, str)) and word is not True and word is not False for word in item):
        raise Refusal('item %d has something that is no word and no number' % number)
    return [word_or_number(word) if isinstance(word, str) else word for word in item]


def lines_of(file: IO[bytes]) -> Iterator[Line]:
    try:
        first = file.read(1)
        if not first:
            raise Refusal('it is empty')
        yield from json_lines(file) if first == b'[' else text_lines(file, first)
    except (EOFError, zlib.error, lzma.LZMAError, gzip.BadGzipFile, OSError) as fault:
        raise Refusal('it can\'t be unpacked or read: %s' % str(fault).lower().rstrip('.')) from fault


# The order of lines. A report of a run has rounds, each of them lines of rows, then of commits, then its use;
# a summary has none. On `simulate` a task may end behind commits, where tasks end by their own lives. Both end with the
# same block; behind it may stand sums of times, and then the single ones.

# What may follow what.
NEXT = {
    'nothing': ('omega',),
    'omega': ('round', 'entries'),
    'round': ('displace', 'end', 'commit', 'use'),
    'displace': ('displace', 'end', 'commit', 'use'),
    'end': ('displace', 'end', 'commit', 'use'),
    'commit': ('evict', 'place', 'refuse', 'own end', 'commit', 'use'),
    'evict': ('evict', 'place'),
    'place': ('evict', 'place', 'refuse', 'own end', 'commit', 'use'),
    'refuse': ('evict', 'place', 'refuse', 'own end', 'commit', 'use'),
    'own end': ('own end', 'commit', 'use'),
    'use': ('round', 'entries'),
    'entries': ('scheduler',),
    'scheduler': ('scheduler', 'last use'),
    'last use': ('waiting',),
    'waiting': ('busy',),
    'busy': ('wait',),
    'wait': ('busy', 'time'),
    'time': ('time', 'first'),
    'first': ('first',),
}


def form_of(line: Line) -> str:
    return ' '.join('N' if isinstance(word, int) else word for word in line)


class Order:
    """Follows the lines of a report, and refuses the first that doesn't belong where it stands."""

    def __init__(self) -> None:
        self.before = 'nothing'
        self.number = 0
        self.rounds = 0
        self.last_round = -1
        self.schedulers = 0     # how many have a line of counts
        self.timed = 0          # how many have lines of time
        self.jobs = 0           # how many jobs have commits, by the lines of waits
        self.told = {'time': 0, 'first': 0}     # how many commits and jobs have a line with their own times
        self.commits: Dict[int, int] = {}
        self.has_own_ends = False   # whether a task ends behind commits

    def fault(self, line: Line) -> Optional[str]:
        """What is wrong with the next line, if something is."""
        self.number += 1
        kind = str(line[0]) if line else ''
        if form_of(line) not in FORMS:
            return 'it is no line of a report: %s' % shown(' '.join(map(str, line)))
        if kind == 'use' and self.before == 'scheduler':
            kind = 'last use'
        if kind == 'end' and 'own end' in NEXT[self.before]:
            kind, self.has_own_ends = 'own end', True
        if kind not in NEXT[self.before]:
            return 'a line %s follows on %s' % (shown(str(line[0])), shown(self.before))
        self.before = kind
        return self.fault_of_numbers(kind, [word for word in line if isinstance(word, int)])

    def fault_of_numbers(self, kind: str, numbers: List[int]) -> Optional[str]:
        if kind == 'omega' and numbers[0] != 2:
            return 'the report is of form %d, and not 2' % numbers[0]
        if kind == 'round':
            self.rounds += 1
            if numbers[0] <= self.last_round:
                return 'round %d follows on round %d' % (numbers[0], self.last_round)
            self.last_round = numbers[0]
        if kind == 'entries' and self.rounds and numbers[1] != self.rounds:
            return '%d rounds are counted, and %d are there' % (numbers[1], self.rounds)
        if kind == 'commit':
            self.commits[numbers[0]] = self.commits.get(numbers[0], 0) + 1
        if kind == 'scheduler':
            self.schedulers += 1
            if self.rounds and numbers[1] != self.commits.get(numbers[0], 0):
                return '%d commits are counted, and %d are there' % (numbers[1], self.commits.get(numbers[0], 0))
            if numbers[0] != self.schedulers - 1:
                return 'scheduler %d stands where %d should' % (numbers[0], self.schedulers - 1)
        if kind in ('busy', 'wait'):
            self.timed += kind == 'wait'
            self.jobs += numbers[1] if kind == 'wait' else 0
            if numbers[0] != self.timed - (kind == 'wait') or numbers[0] >= self.schedulers:
                return 'scheduler %d stands where another should' % numbers[0]
        if kind in self.told:
            return self.fault_of_times(kind, numbers)
        return None

    def fault_of_times(self, kind: str, numbers: List[int]) -> Optional[str]:
        """What is wrong with a line that tells the times of a commit, or of a job's first one."""
        if self.timed != self.schedulers:
            return 'lines of scheduler %d are missing' % self.timed
        if kind == 'time' and numbers[0] != self.told[kind]:
            return 'commit %d stands where %d should' % (numbers[0], self.told[kind])
        if numbers[1] >= self.schedulers:
            return 'there is no scheduler %d' % numbers[1]
        self.told[kind] += 1
        return None

    def is_whole(self) -> bool:
        if self.before in self.told:
            return self.told == {'time': sum(self.commits.values()), 'first': self.jobs}
        if self.before == 'waiting':
            return not self.has_own_ends
        return self.before == 'wait' and self.timed == self.schedulers


def report_lines(path: str) -> Iterator[Line]:
    """The lines of a report. One that doesn't begin, go on and end as a report does is refused."""
    order = Order()
    try:
        with opened(path) as file:
            for line in lines_of(file):
                fault = order.fault(line)
                if fault is not None:
                    raise Refusal('line %d: %s' % (order.number, fault))
                yield line
        if not order.is_whole():
            raise Refusal('it ends behind line %d, before its end' % order.number)
    except Refusal as fault:
        raise Refusal('%s is no whole report: %s' % ('standard input' if path == '-' else path, fault)) from fault


# What a report comes to.

Use = Dict[str, Tuple[int, int]]    # used and whole, of each amount


def use_of(line: Line) -> Use:
    numbers = [word for word in line if isinstance(word, int)]
    return dict(zip(AMOUNTS, zip(numbers[::2], numbers[1::2])))


class Times(NamedTuple):
    """Of `simulate`, in microseconds: how long a scheduler decided, of how long, and how long its jobs waited
    for the first decision in all."""
    busy: int
    span: int
    jobs: int
    wait: int


class Decision(NamedTuple):
    """With the times of single commits: what a commit was of, when its scheduler began to decide, and when it was
    done, in microseconds."""
    job: int
    scheduler: int
    sync: int
    committed: int


class First(NamedTuple):
    """With the times of single commits: when the first row of a job came, and when its scheduler began to decide on it
    for the first time, in microseconds."""
    job: int
    scheduler: int
    arrived: int
    sync: int


class Commits:
    """Counts of the commits of one scheduler in one round."""
    __slots__ = ('commits', 'placing', 'conflicted')

    def __init__(self) -> None:
        self.commits = self.placing = self.conflicted = 0


class Report:
    """A report, without its single claims."""

    def __init__(self, path: str) -> None:
        self.rounds: List[Tuple[int, Use]] = []
        self.commits: Dict[Tuple[int, int], Commits] = {}   # by round and scheduler
        self.schedulers: List[Dict[str, int]] = []
        self.times: List[Times] = []
        self.jobs: List[int] = []               # of the commits, in order
        self.decisions: List[Decision] = []     # these and the next where times are told of single commits
        self.firsts: List[First] = []
        self.entries = self.round_count = self.extras = self.waiting = self.abandoned = 0
        self.open = Commits()
        self.claims = [False, False]                        # whether the open commit has a claim placed, and one not
        self.round, self.busy, self.has_ended = 0, (0, 0), False
        self.single: List[List[int]] = []                   # the times of single commits
        for line in report_lines(path):
            numbers = [word for word in line if isinstance(word, int)]
            (self.take_end if self.has_ended else self.take)(line, numbers)
        self.decisions = [Decision(job, *times) for job, times in zip(self.jobs, self.single)]

    def take(self, line: Line, numbers: List[int]) -> None:
        """A line of a round."""
        kind = line[0]
        if kind == 'round':
            self.round = numbers[0]
        elif kind == 'commit':
            self.close_commit()
            self.open = self.commits.setdefault((self.round, numbers[0]), Commits())
            self.open.commits += 1
            self.jobs.append(numbers[2])
        elif kind in ('place', 'refuse'):
            self.claims[kind == 'refuse'] = True
            self.extras += kind == 'place' and numbers[1] >= FIRST_EXTRA
        elif kind == 'use':
            self.close_commit()
            self.rounds.append((self.round, use_of(line)))
        elif kind == 'entries':
            self.entries, self.round_count = numbers
            self.has_ended = True

    def take_end(self, line: Line, numbers: List[int]) -> None:
        """A line behind the rounds."""
        kind = line[0]
        if kind == 'scheduler':
            self.schedulers.append(dict(zip(COUNTS, numbers[1:])))
        elif kind == 'waiting':
            self.waiting, self.abandoned = numbers
        elif kind == 'busy':
            self.busy = numbers[1], numbers[2]
        elif kind == 'wait':
            self.times.append(Times(*self.busy, numbers[1], numbers[2]))
        elif kind == 'time':
            self.single.append(numbers[1:])
        elif kind == 'first':
            self.firsts.append(First(*numbers))

    def close_commit(self) -> None:
        placing, conflicted = self.claims
        self.open.placing += placing
        self.open.conflicted += conflicted
        self.claims = [False, False]

    def waits_of_jobs(self) -> Dict[int, List[int]]:
        """By scheduler how long each of its jobs waited for its first decision, where single times are told."""
        found: Dict[int, List[int]] = {}
        for first in self.firsts:
            found.setdefault(first.scheduler, []).append(first.sync - first.arrived)
        return found

    def decision_times(self) -> Dict[int, List[int]]:
        """By scheduler how long each of its decisions took, where single times are told."""
        found: Dict[int, List[int]] = {}
        for decision in self.decisions:
            found.setdefault(decision.scheduler, []).append(decision.committed - decision.sync)
        return found

    def of_kinds(self, found: Dict[int, List[int]]) -> Dict[str, List[int]]:
        """The same by kind of scheduler."""
        by_kind: Dict[str, List[int]] = {kind: [] for kind in KINDS}
        for scheduler, values in found.items():
            by_kind[self.kind(scheduler)] += values
        return by_kind

    def total(self, count: str) -> int:
        return sum(counts[count] for counts in self.schedulers)

    def kind(self, scheduler: int) -> str:
        """What a scheduler works on."""
        if scheduler == 0:
            return KINDS[0]
        return KINDS[2] if scheduler == len(self.schedulers) - 1 else KINDS[1]

    def name(self, scheduler: int) -> str:
        """What a scheduler is called: batch schedulers are counted from 1 where there are several."""
        kind = self.kind(scheduler)
        return '%s %d' % (kind, scheduler) if kind == 'batch' and len(self.schedulers) > 3 else kind


def share(part: float, whole: float) -> Optional[float]:
    """A fraction, where there is something to divide by."""
    return part / whole if whole else None
