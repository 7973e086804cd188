"""What is measured in a run: its report is read once, line by line, and what is kept of it are numbers.

All is counted between the first row of a job that isn't there at the beginning and the last row of the trace; a decision
that goes on across one of these times is cut there. Jobs that are there at the beginning are counted nowhere.
"""
import hashlib
from typing import IO, Any, Dict, Iterator, List, NamedTuple, Optional, Sequence, Tuple

from .common import DIGITS, Refusal
from .traces import KINDS, Facts

FIRST_EXTRA = 2 ** 31
PIECES = 72                             # of the time that is looked at, for the use over time
QUANTILES = tuple(at / 20 for at in range(21))
PLACED, REFUSED = 1, 2                  # whether a commit has a claim that is placed, and one that isn't


class Commit:
    """A commit, as its lines tell it: whether claims are placed and refused, and how many own and extra tasks are placed."""
    __slots__ = ('scheduler', 'job', 'claims', 'placed', 'extra')

    def __init__(self, scheduler: int, job: int) -> None:
        self.scheduler, self.job, self.claims, self.placed, self.extra = scheduler, job, 0, 0, 0


def lines_in(file: IO[bytes], digest: Any) -> Iterator[List[bytes]]:
    """The lines of a file, some thousands at a time, without their ends; the digest takes all bytes."""
    rest = b''
    for block in iter(lambda: file.read(1 << 18), b''):
        digest.update(block)
        lines = (rest + block).split(b'\n')
        rest = lines.pop()
        yield lines


NO_COMMIT = Commit(0, 0)    # to which a line of a claim belongs that stands before all commits, as none does


class Report:
    """A report of `simulate --times yes`, as far as it is measured."""

    def __init__(self, file: IO[bytes]) -> None:
        self.commits: List[Commit] = []
        self.rounds: List[Tuple[int, int, float]] = []      # number, commits up to its end, part of the CPU in use
        self.times: List[Tuple[int, int, int]] = []         # scheduler, sync and commit
        self.firsts: List[Tuple[int, int, int, int]] = []   # job, scheduler, arrival and first sync
        self.round = self.schedulers = self.waiting = self.abandoned = 0
        self.is_whole = False
        digest = hashlib.sha256()
        for lines in lines_in(file, digest):
            self.take(lines)
        self.digest = digest.hexdigest()[:DIGITS]

    def take(self, lines: Sequence[bytes]) -> None:
        """Most lines are of claims and ends, so these come first and are hardly looked at."""
        commit = self.commits[-1] if self.commits else NO_COMMIT
        for line in lines:
            kind = line[:2]
            if kind == b'pl':
                commit.claims |= PLACED
                commit.placed += 1
                if int(line.split(b' ', 3)[2]) >= FIRST_EXTRA:
                    commit.extra += 1
            elif kind == b'en' and line[:4] == b'end ':
                pass
            elif kind == b're':
                commit.claims |= REFUSED
            elif kind == b'co':
                words = line.split(b' ')
                commit = Commit(int(words[1]), int(words[3]))
                self.commits.append(commit)
            else:
                self.other(kind, line.split(b' '))

    def other(self, kind: bytes, words: List[bytes]) -> None:
        """A line that is no commit's."""
        if kind == b'ro':
            self.round = int(words[1])
        elif kind == b'us' and not self.schedulers:
            self.rounds.append((self.round, len(self.commits), int(words[2]) / (int(words[3]) or 1)))
        elif kind == b'ti':
            self.times.append((int(words[2]), int(words[3]), int(words[4])))
        elif kind == b'fi':
            self.firsts.append((int(words[1]), int(words[2]), int(words[3]), int(words[4])))
        elif kind == b'sc':
            self.schedulers += 1
        elif words[0] == b'waiting':
            self.waiting, self.abandoned, self.is_whole = int(words[1]), int(words[3]), True

    def kind(self, scheduler: int) -> str:
        if scheduler == 0:
            return KINDS[0]
        return KINDS[2] if scheduler == self.schedulers - 1 else KINDS[1]

    def fault(self) -> Optional[str]:
        """What keeps it from being measured."""
        if not self.is_whole or len(self.times) != len(self.commits):
            return 'the report is cut, or has no times of its commits'
        return None


class Kind(NamedTuple):
    """What a run comes to for the jobs and schedulers of one kind. Times are in seconds."""
    came: int               # jobs
    decided: int            # of which somebody had begun to decide on so many by the last row
    ended: int              # so many ended before
    late: int               # so many waited still
    commits: int
    placing: int            # commits with a claim that was placed
    conflicted: int         # commits with one that wasn't
    empty: int              # commits without a claim
    busy: float             # the part of the time that its schedulers decide, the mean over them
    empty_share: Optional[float]    # of the time of decisions, what went into commits without a claim
    conflict_fraction: Optional[float]  # `conflicted` for each of `placing`
    per_job: Optional[float]        # `conflicted` for each of `decided`
    wait: Optional[float]           # from a job's first row until somebody began to decide on it, the mean
    wait_90: Optional[float]        # the 90 per cent quantile of that
    beyond: float           # how far its last commit is behind the last row, as a part of the time that is looked at


def quantile(values: Sequence[float], part: float) -> float:
    """The least of the values, which are in order, that so great a part of them doesn't exceed."""
    place = int(part * len(values))
    return values[min(len(values) - 1, place - (place == part * len(values) and place > 0))]


def share(part: float, whole: float) -> Optional[float]:
    return part / whole if whole else None


def within(begin: int, end: int, facts: Facts) -> int:
    """How much of a decision lies in the time that is looked at."""
    return max(0, min(end, facts.last) - max(begin, facts.first))


class Sums:
    """Adds up what one kind of schedulers did."""

    def __init__(self) -> None:
        self.commits = self.placing = self.conflicted = self.empty = 0
        self.time = self.empty_time = self.last = 0
        self.waits: List[float] = []
        self.late = 0

    def take(self, commit: Commit, begin: int, end: int, facts: Facts) -> None:
        time = within(begin, end, facts)
        self.time += time
        self.last = max(self.last, end)
        if not commit.claims:
            self.empty_time += time
        if facts.first <= end <= facts.last:
            self.commits += 1
            self.empty += not commit.claims
            self.placing += bool(commit.claims & PLACED)
            self.conflicted += bool(commit.claims & REFUSED)

    def first(self, arrived: int, sync: int, facts: Facts) -> None:
        if arrived < facts.first:
            return
        if sync > facts.last:
            self.late += 1
        else:
            self.waits.append((sync - arrived) / 1e6)

    def found(self, came: int, schedulers: int, facts: Facts) -> Kind:
        self.waits.sort()
        decided, span = len(self.waits), facts.span()
        return Kind(
            came, decided, came - decided - self.late, self.late, self.commits, self.placing, self.conflicted, self.empty,
            self.time / span / schedulers if schedulers and span else 0.0, share(self.empty_time, self.time),
            share(self.conflicted, self.placing), share(self.conflicted, decided), share(sum(self.waits), decided),
            quantile(self.waits, 0.9) if self.waits else None, max(0, self.last - facts.last) / span if span else 0.0)


def kinds_of(report: Report, facts: Facts) -> Dict[str, Kind]:
    sums = {kind: Sums() for kind in KINDS}
    for commit, (scheduler, begin, end) in zip(report.commits, report.times):
        sums[report.kind(scheduler)].take(commit, begin, end, facts)
    for _, scheduler, arrived, sync in report.firsts:
        sums[report.kind(scheduler)].first(arrived, sync, facts)
    return {kind: sums[kind].found(facts.came[kind], report.schedulers - 2 if kind == 'batch' else 1, facts)
            for kind in KINDS}


# The use of the cell over time. A line `use` says what is used where a round ends, that is, where the next one opens.

def opened(report: Report, window: int) -> List[int]:
    """When each round has opened at the latest: when its window is over, or where all before it was committed later, then.
    By the free clock nothing is: there a commit belongs to the last round that has opened."""
    found, before, last = [], 0, 0
    for number, commits, _ in report.rounds:
        found.append(max((number + 1) * window, last))
        last = max([last, *(end for _, _, end in report.times[before:commits])])
        before = commits
    return found


def uses(report: Report, facts: Facts, window: int) -> List[Tuple[int, int, float]]:
    """Spans of time, each with the part of the CPU that is in use in it, cut at the ends of what is looked at."""
    begins = opened(report, window)
    ends = [*begins[1:], facts.last]
    spans = [(max(begin, facts.first), min(end, facts.last), part)
             for begin, end, (_, _, part) in zip(begins, ends, report.rounds)]
    return [span for span in spans if span[0] < span[1]]


def mean_use(spans: Sequence[Tuple[int, int, float]]) -> Optional[float]:
    return share(sum(part * (end - begin) for begin, end, part in spans), sum(end - begin for begin, end, _ in spans))


def use_over_time(spans: Sequence[Tuple[int, int, float]], facts: Facts) -> List[float]:
    """The use in the middle of each of so many pieces of the time, as far as spans tell it."""
    found, at = [], 0
    for piece in range(PIECES):
        time = facts.first + facts.span() * (2 * piece + 1) // (2 * PIECES)
        while at + 1 < len(spans) and spans[at][1] <= time:
            at += 1
        found.append(round(spans[at][2], 6) if spans else 0.0)
    return found


def speedups(report: Report, facts: Facts) -> List[float]:
    """Of each MapReduce job that came, was decided on and has a task placed: its own and its extra tasks, for each of its
    own, in order. So much sooner it would be done if its work was divided evenly among all of them."""
    came = {job for job, _, arrived, sync in report.firsts if arrived >= facts.first and sync <= facts.last}
    own: Dict[int, int] = {}
    extra: Dict[int, int] = {}
    for commit in report.commits:
        if commit.job in came and report.kind(commit.scheduler) == 'MapReduce':
            own[commit.job] = own.get(commit.job, 0) + commit.placed - commit.extra
            extra[commit.job] = extra.get(commit.job, 0) + commit.extra
    return sorted((own[job] + extra[job]) / own[job] for job in own if own[job])


def measured(file: IO[bytes], facts: Facts, window: int) -> Dict[str, Any]:
    """The numbers of a run, from its report."""
    report = Report(file)
    fault = report.fault()
    if fault:
        raise Refusal(fault)
    spans, found = uses(report, facts, window), speedups(report, facts)
    return {'kinds': {kind: numbers._asdict() for kind, numbers in kinds_of(report, facts).items()},
            'use': mean_use(spans), 'over_time': use_over_time(spans, facts),
            'speedups': [quantile(found, part) for part in QUANTILES] if found else [],
            'waiting': report.waiting, 'abandoned': report.abandoned,
            'report': report.digest}
