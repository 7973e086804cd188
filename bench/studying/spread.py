"""Points made of runs: means over traces with their intervals, differences on the same traces, and the files of both."""
import csv
import io
import math
from pathlib import Path
from typing import Callable, Dict, Iterable, List, NamedTuple, Optional, Sequence, Tuple

from .common import Refusal, digest_of_bytes
from .measures import PIECES, QUANTILES
from .points import Point, Run, policy_of, spoken
from .running import Kept, Numbers

KINDS = {'services': 'services', 'batch': 'batch', 'MapReduce': 'map_reduce'}  # and how columns name them
MOST_UNDECIDED = 0.01       # of the jobs that came, more of which are too many
MOST_BEYOND = 0.05          # of the time that is looked at, beyond which a run goes on for too long
MUCH_EMPTY = 0.1            # of the time of decisions, above which empty commits are marked

# Of Student's distribution the bounds between which nineteen of twenty values lie, by the degrees of freedom.
BOUNDS = (12.706, 4.303, 3.182, 2.776, 2.571, 2.447, 2.365, 2.306, 2.262, 2.228, 2.201, 2.179, 2.160, 2.145, 2.131,
          2.120, 2.110, 2.101, 2.093, 2.086, 2.080, 2.074, 2.069, 2.064, 2.060, 2.056, 2.052, 2.048, 2.045, 2.042)

Spread = Tuple[Optional[float], Optional[float]]    # a mean, and half the length of its interval


def spread(values: Sequence[Optional[float]]) -> Spread:
    """The mean over traces, and how far on both sides of it an interval goes that has the true mean in nineteen of twenty
    cases. It is there only where each trace has a value, and the interval where there are two at least."""
    known = [value for value in values if value is not None]
    if not known or len(known) < len(values):
        return None, None
    mean = sum(known) / len(known)
    if len(known) < 2:
        return mean, None
    deviation = math.sqrt(sum((value - mean) ** 2 for value in known) / (len(known) - 1))
    return mean, BOUNDS[min(len(known) - 1, len(BOUNDS)) - 1] * deviation / math.sqrt(len(known))


# Columns of a point: which words it has, then what it comes to, then what it was made of.
AXES = ('clock', 'ends', 'window', 'rule', 'mode', 'batch', 't-job', 't-task', 'service-t-job', 'service-t-task', 'extra',
        'cap')
COUNTS = ('came', 'decided', 'ended', 'late', 'commits', 'placing', 'conflicted', 'empty')
MEANS = ('busy', 'conflict_fraction', 'per_job', 'wait', 'wait_90', 'empty_share')
DIGESTS = ('sources', 'program', 'scripts', 'tables', 'reports')


def columns() -> List[str]:
    found = ['figure', 'asked', 'rate', *AXES, 'load', 'load_95', 'wanted', 'abandoned']
    for kind in KINDS.values():
        found += ['%s_%s' % (kind, name) for name in (*COUNTS, 'beyond', 'overtaken')]
        found += ['%s_%s%s' % (kind, name, part) for name in MEANS for part in ('', '_95')]
    return [*found, 'workload', 'words', 'seeds', *DIGESTS]


Row = Dict[str, str]


def text(value: Optional[float]) -> str:
    return '' if value is None else '%.6g' % value


def seeds_of(runs: Sequence[Run]) -> str:
    return '%d..%d' % (runs[0].trace.seed, runs[-1].trace.seed)


def is_overtaken(numbers: Sequence[Numbers], kind: str) -> bool:
    """Whether too many jobs of a kind were undecided over all traces, or one of the runs goes on for too long."""
    kinds = [each['kinds'][kind] for each in numbers]
    came, decided = (sum(each[name] for each in kinds) for name in ('came', 'decided'))
    return came - decided > MOST_UNDECIDED * came or any(each['beyond'] > MOST_BEYOND for each in kinds)


def kind_columns(numbers: Sequence[Numbers], kind: str) -> Row:
    """What a point comes to for one kind of jobs and schedulers. Where these are overtaken it has no waits."""
    kinds, name = [each['kinds'][kind] for each in numbers], KINDS[kind]
    row = {'%s_%s' % (name, count): str(sum(each[count] for each in kinds)) for count in COUNTS}
    overtaken = is_overtaken(numbers, kind)
    row['%s_beyond' % name] = text(max(each['beyond'] for each in kinds))
    row['%s_overtaken' % name] = 'yes' if overtaken else 'no'
    for measure in MEANS:
        told = (None, None) if overtaken and measure.startswith('wait') else spread([each[measure] for each in kinds])
        row['%s_%s' % (name, measure)], row['%s_%s_95' % (name, measure)] = map(text, told)
    return row


def made_of(kept: Kept, runs: Sequence[Run], numbers: Sequence[Numbers]) -> Row:
    return {'workload': ' '.join(runs[0].trace.workload.words()), 'words': ' '.join(spoken(runs[0].words)),
            'seeds': seeds_of(runs), 'sources': kept.program.sources, 'program': kept.program.digest,
            'scripts': kept.scripts,
            'tables': digest_of_bytes(' '.join(each['tables'] for each in numbers).encode()),
            'reports': digest_of_bytes(' '.join(each['report'] for each in numbers).encode())}


def row_of(kept: Kept, point: Point) -> Row:
    runs = point.runs()
    numbers = numbers_of(kept, runs)
    row = {'figure': point.figure, 'asked': text(point.workload.load / 100), 'rate': point.workload.rate}
    row.update((axis, point.value(axis)) for axis in AXES)
    row['load'], row['load_95'] = map(text, spread([each['use'] for each in numbers]))
    row['wanted'] = text(sum(kept.facts[run.trace.name()].asked for run in runs) / len(runs))
    row['abandoned'] = str(sum(each['abandoned'] for each in numbers))
    for kind in KINDS:
        row.update(kind_columns(numbers, kind))
    row.update(made_of(kept, runs, numbers))
    return row


def numbers_of(kept: Kept, runs: Iterable[Run]) -> List[Numbers]:
    try:
        return [kept.runs[run.name()] for run in runs]
    except KeyError as missing:
        raise Refusal('a run is missing: %s' % missing) from missing


# Differences on the same traces: of a measure with one choice of words less that with another.

class Choice(NamedTuple):
    """Two values of some words, of which the first is compared with the second."""
    figure: str
    name: str
    these: Dict[str, str]
    those: Dict[str, str]


FREE_OWN, FREE_TRACE = {'clock': 'free', 'ends': 'own'}, {'clock': 'free', 'ends': 'trace'}
ROUNDS = {'clock': 'rounds', 'ends': 'trace'}
CHOICES = (
    Choice('busyness', 'own ends less those of the trace', FREE_OWN, FREE_TRACE),
    Choice('busyness', 'rounds less the free clock', ROUNDS, FREE_TRACE),
    *(Choice('conflicts', 'coarse less fine, ' + mode, {'rule': 'coarse', 'mode': mode}, {'rule': 'fine', 'mode': mode})
      for mode in ('incremental', 'gang')),
    *(Choice('conflicts', 'gang less incremental, ' + rule, {'rule': rule, 'mode': 'gang'},
             {'rule': rule, 'mode': 'incremental'}) for rule in ('fine', 'coarse')),
    Choice('load', 'coarse less fine', {'rule': 'coarse'}, {'rule': 'fine'}))
DIFFERENCE_COLUMNS = ['figure', 'choice', 'asked', 'service-t-job', 'kind', 'measure', 'mean', 'mean_95', 'traces']
COMPARED = ('busy', 'conflict_fraction', 'wait')


def has_words(point: Point, choice: Dict[str, str]) -> bool:
    return all(point.value(option) == value for option, value in choice.items())


def pairs_of(points: Sequence[Point], choice: Choice) -> List[Tuple[Point, Point]]:
    """The points that differ in the words of a choice alone."""
    def rest(point: Point) -> Tuple[object, ...]:
        others = tuple(point.value(axis) for axis in AXES if axis not in choice.these)
        return (point.workload, others)

    own = [point for point in points if point.figure == choice.figure]
    those = {rest(point): point for point in own if has_words(point, choice.those)}
    return [(point, those[rest(point)]) for point in own if has_words(point, choice.these) and rest(point) in those]


def difference_rows(kept: Kept, points: Sequence[Point]) -> List[Row]:
    found = []
    for choice in CHOICES:
        for these, those in pairs_of(points, choice):
            numbers = [numbers_of(kept, point.runs()) for point in (these, those)]
            for kind in ('services', 'batch'):
                if any(is_overtaken(each, kind) for each in numbers):
                    continue
                for measure in COMPARED:
                    mean, half = spread([less(*(each['kinds'][kind][measure] for each in both)) for both in zip(*numbers)])
                    found.append(dict(zip(DIFFERENCE_COLUMNS, (
                        choice.figure, choice.name, text(these.workload.load / 100), these.value('service-t-job'),
                        KINDS[kind], measure, text(mean), text(half), str(len(numbers[0]))))))
    return found


def less(this: Optional[float], that: Optional[float]) -> Optional[float]:
    return None if this is None or that is None else this - that


# MapReduce: the use over time, and how many tasks a job gets.

USE_COLUMNS = ['policy', 'hours', 'use', 'use_95', 'words', 'seeds', *DIGESTS]
SPEEDUP_COLUMNS = ['policy', 'quantile', 'ratio', 'ratio_95', 'words', 'seeds', *DIGESTS]


def lines_of_policies(kept: Kept, points: Sequence[Point], name: str, count: int, at: Callable[[Point, int], float],
                      columns_: Sequence[str]) -> List[Row]:
    """For each policy a row for each place of a list that each run has."""
    found = []
    for point in points:
        if point.figure == 'map-reduce':
            runs = point.runs()
            numbers = numbers_of(kept, runs)
            rest = made_of(kept, runs, numbers)
            for place in range(count):
                values = [each[name][place] if each[name] else None for each in numbers]
                cells = (policy_of(point), text(at(point, place)), *map(text, spread(values)))
                found.append({**dict(zip(columns_, cells)), **{column: rest[column] for column in columns_[4:]}})
    return found


def use_rows(kept: Kept, points: Sequence[Point]) -> List[Row]:
    return lines_of_policies(kept, points, 'over_time', PIECES,
                             lambda point, place: point.workload.hours() * (place + 0.5) / PIECES, USE_COLUMNS)


def speedup_rows(kept: Kept, points: Sequence[Point]) -> List[Row]:
    return lines_of_policies(kept, points, 'speedups', len(QUANTILES), lambda _, place: QUANTILES[place], SPEEDUP_COLUMNS)


# Files.

def csv_text(names: Sequence[str], rows: Sequence[Row]) -> str:
    out = io.StringIO()
    writer = csv.DictWriter(out, names, lineterminator='\n', extrasaction='ignore')
    writer.writeheader()
    writer.writerows(rows)
    return out.getvalue()


def rows_in(path: Path) -> List[Row]:
    try:
        with open(path, newline='', encoding='utf-8') as file:
            return list(csv.DictReader(file))
    except OSError as fault:
        raise Refusal('there are no points in %s; study.py all makes them' % path) from fault


def files_of(kept: Kept, points: Sequence[Point]) -> Dict[str, str]:
    """The files of points by name, each as its text: one for each figure, the differences, and two of MapReduce jobs."""
    found = {}
    for figure in dict.fromkeys(point.figure for point in points):
        found[figure + '.csv'] = csv_text(columns(), [row_of(kept, point) for point in points if point.figure == figure])
    if any(point.figure in ('busyness', 'conflicts', 'load') for point in points):
        found['differences.csv'] = csv_text(DIFFERENCE_COLUMNS, difference_rows(kept, points))
    if any(point.figure == 'map-reduce' for point in points):
        found['use.csv'] = csv_text(USE_COLUMNS, use_rows(kept, points))
        found['speedup.csv'] = csv_text(SPEEDUP_COLUMNS, speedup_rows(kept, points))
    return found
