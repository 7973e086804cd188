"""Tables made of reports, each as a line of names and then rows; None is an empty cell."""
import csv
import sys
from pathlib import Path
from typing import Callable, Dict, Iterable, Iterator, List, Optional, Sequence, TextIO, Tuple

from .common import Refusal
from .reports import AMOUNTS, COUNTS, KINDS, Report, share
from .words import OPTIONS, Words, words_beside

Row = Sequence[object]
HOUR = 3_600_000_000
MOST_CELLS = 1_000_000


def show(rows: Iterable[Row], to: Optional[TextIO] = None) -> None:
    """Prints rows as CSV, once all are made. Fractions have at most six digits."""
    made = list(rows)
    writer = csv.writer(to or sys.stdout, lineterminator='\n')
    for row in made:
        writer.writerow(['%.6g' % cell if isinstance(cell, float) else cell for cell in row])


def hours(number: int, window: int) -> float:
    """When a round begins, in hours of the trace."""
    return number * window / HOUR


Window = Callable[[], int]  # how long a round is; it is asked for where there are rounds


def rounds_table(report: Report, window_of: Window) -> Iterator[Row]:
    """What is used where each round ends, as fractions of what there is."""
    yield ('round', 'hours') + AMOUNTS
    window = window_of() if report.rounds else 0
    for number, use in report.rounds:
        yield (number, hours(number, window), *(share(*use[amount]) for amount in AMOUNTS))


# Quantiles.

SHARES = (50, 90, 99)
QUANTILES = tuple('p%d' % part for part in SHARES)


def quantile(ordered: Sequence[int], percent: int) -> int:
    """The least value that so many per cent of the values don't pass."""
    return ordered[max(0, -(-len(ordered) * percent // 100) - 1)]


def quantiles(times: Iterable[int]) -> List[Optional[float]]:
    """The quantiles of some times, in seconds; nothing where there are none."""
    ordered = sorted(times)
    return [quantile(ordered, part) / 1e6 if ordered else None for part in SHARES]


def spread(times: Sequence[int]) -> List[Optional[float]]:
    """The mean of some times, their quantiles and the greatest one, in seconds."""
    if not times:
        return [None] * (len(SHARES) + 2)
    return [sum(times) / len(times) / 1e6, *quantiles(times), max(times) / 1e6]


SPREAD = ('mean', *QUANTILES, 'max')


def schedulers_table(report: Report) -> Iterator[Row]:
    """The counts of each scheduler, and how many of its commits were in conflict for each that placed
    something. A report of `simulate` has times, too: which part of the time a scheduler was busy, and how
    many seconds a job waited for its first decision, on an average, and where single times are told by quantiles."""
    timed = ('busy', 'mean_wait') if report.times else ()
    single = tuple(name + '_wait' for name in QUANTILES) if report.firsts else ()
    waits = report.waits_of_jobs()
    yield ('scheduler', 'name') + COUNTS + ('conflict_fraction',) + timed + single
    for number, counts in enumerate(report.schedulers):
        row: List[object] = [number, report.name(number), *(counts[count] for count in COUNTS),
                             share(counts['conflicted'], counts['placing'])]
        if report.times:
            times = report.times[number]
            row += [share(times.busy, times.span), share(times.wait / 1e6, times.jobs)]
        if single:
            row += quantiles(waits.get(number, []))
        yield row


def jobs_table(report: Report) -> Iterator[Row]:
    """Each job with a commit: when it came, when its scheduler began to decide on it for the first time, and the time
    between, in microseconds."""
    yield 'job', 'scheduler', 'kind', 'arrived', 'sync', 'wait'
    for first in report.firsts:
        yield (first.job, first.scheduler, report.kind(first.scheduler), first.arrived, first.sync,
               first.sync - first.arrived)


def commits_table(report: Report) -> Iterator[Row]:
    """Each commit with when its scheduler began to decide, when it was done, and the time between, in microseconds."""
    yield 'commit', 'job', 'scheduler', 'kind', 'sync', 'committed', 'decision'
    for place, made in enumerate(report.decisions):
        yield (place, made.job, made.scheduler, report.kind(made.scheduler), made.sync, made.committed,
               made.committed - made.sync)


def spreads_table(by_kind: Dict[str, List[int]], what: str) -> Iterator[Row]:
    """For each kind of scheduler and for all how many times there are, and how they are spread, in seconds."""
    yield ('kind', what) + SPREAD
    everything = [time for times in by_kind.values() for time in times]
    for kind, times in (*by_kind.items(), ('all', everything)):
        yield (kind, len(times), *spread(times))


def conflict_rows(report: Report, window_of: Window, per: int) -> Iterator[Tuple[float, int, int, int, int]]:
    """For each span of time and scheduler the commits, those that placed something, and those in conflict."""
    if not report.rounds:
        return
    window = window_of()
    first, last = (report.rounds[end][0] * window // per for end in (0, -1))
    if (last - first + 1) * len(report.schedulers) > MOST_CELLS:
        raise Refusal('the spans of --per are too short: there would be more than a million')
    counted: Dict[Tuple[int, int], List[int]] = {}
    for (number, scheduler), commits in report.commits.items():
        sums = counted.setdefault((number * window // per, scheduler), [0, 0, 0])
        for place, count in enumerate((commits.commits, commits.placing, commits.conflicted)):
            sums[place] += count
    for span in range(first, last + 1):
        for scheduler in range(len(report.schedulers)):
            commits_, placing, conflicted = counted.get((span, scheduler), (0, 0, 0))
            yield span * per / HOUR, scheduler, commits_, placing, conflicted


def conflicts_table(report: Report, window_of: Window, per: int) -> Iterator[Row]:
    yield 'hours', 'scheduler', 'commits', 'placing', 'conflicted', 'conflict_fraction'
    for at, scheduler, commits, placing, conflicted in conflict_rows(report, window_of, per):
        yield at, report.name(scheduler), commits, placing, conflicted, share(conflicted, placing)


# Runs beside each other.

def mean_use(report: Report, amount: str) -> Optional[float]:
    """The mean over time of what is used; a round's use lasts until the next round."""
    numbers = [number for number, _ in report.rounds]
    lasts = [after - number for number, after in zip(numbers, numbers[1:])] + [1]
    shares = [share(*use[amount]) for _, use in report.rounds]
    kept = [(part, last) for part, last in zip(shares, lasts) if part is not None]
    return share(sum(part * last for part, last in kept), sum(last for _, last in kept))


RESULTS = (
    'rounds', 'entries', 'commits', 'empty', 'placing', 'conflicted', 'conflict_fraction',
    *('conflict_fraction_' + kind for kind in KINDS), 'placed', 'refused', 'withdrawn', 'evicted', 'extras',
    'waiting', 'abandoned', *('mean_' + amount for amount in AMOUNTS),
    *('busy_' + kind for kind in KINDS), *('mean_wait_' + kind for kind in KINDS),
    *('%s_wait_%s' % (name, kind) for name in QUANTILES for kind in KINDS))


def by_kind(report: Report, part: List[float], whole: List[float]) -> Dict[str, Optional[float]]:
    """The quotient of two sums over the schedulers of each kind."""
    return {kind: share(*(sum(values[number] for number in range(len(report.schedulers))
                              if report.kind(number) == kind) for values in (part, whole))) for kind in KINDS}


def results(report: Report) -> Dict[str, object]:
    """What a report comes to, by name. Waits are in seconds; times are there for `simulate` alone, and quantiles where
    it told single times."""
    found: Dict[str, object] = {'rounds': report.round_count, 'entries': report.entries, 'extras': report.extras,
                                'waiting': report.waiting, 'abandoned': report.abandoned}
    found.update((count, report.total(count)) for count in COUNTS)
    found['conflict_fraction'] = share(report.total('conflicted'), report.total('placing'))
    conflicts = by_kind(report, *([float(counts[count]) for counts in report.schedulers]
                                  for count in ('conflicted', 'placing')))
    found.update(('conflict_fraction_' + kind, value) for kind, value in conflicts.items())
    found.update(('mean_' + amount, mean_use(report, amount)) for amount in AMOUNTS)
    if report.times:
        busy = by_kind(report, [float(times.busy) for times in report.times],
                       [float(times.span) for times in report.times])
        waits = by_kind(report, [times.wait / 1e6 for times in report.times],
                        [float(times.jobs) for times in report.times])
        found.update(('busy_' + kind, value) for kind, value in busy.items())
        found.update(('mean_wait_' + kind, value) for kind, value in waits.items())
    for kind, times in report.of_kinds(report.waits_of_jobs()).items():
        found.update(('%s_wait_%s' % (name, kind), value) for name, value in zip(QUANTILES, quantiles(times)))
    return found


def options_of(runs: Iterable[Optional[Words]]) -> List[str]:
    """The options that one of the runs names, in the order of the pages."""
    named = {option for words in runs if words is not None for option in words.options}
    return [option for option in OPTIONS if option in named]


def compare_table(paths: Sequence[str]) -> Iterator[Row]:
    """A row for each report: the words of its run, where they stand in a file beside it, and what it comes
    to. An option that another run names has its default where this one doesn't."""
    runs = [words_beside(Path(path)) if path != '-' else None for path in paths]
    options = options_of(runs)
    found = [results(Report(path)) for path in paths]
    columns = [column for column in RESULTS if any(result.get(column) is not None for result in found)]
    yield ('report', 'command', *options, *columns)
    for path, words, result in zip(paths, runs, found):
        said = [words.value(option) if words else None for option in options]
        yield (path, words.command if words else None, *said, *(result.get(column) for column in columns))
