"""The plan of the study: which points each figure has, and which runs they are made of."""
import itertools
from typing import Dict, Iterator, List, NamedTuple, Sequence, Tuple

Words = Tuple[Tuple[str, str], ...]     # options of the program and their values
SECOND = 1_000_000
MANY, FEW = 10, 5                       # traces of a point; of one on a map, or of scaling


class Cell(NamedTuple):
    """How large the cell is, and for how long it is looked at."""
    machines: int = 2000
    hours: int = 6


class Workload(NamedTuple):
    """The words of tables.py for a trace, without its seed."""
    cell: Cell
    load: int = 75
    rate: str = '1'
    map_reduce: int = 0

    def hours(self) -> int:
        """A faster trace is shorter, so that it has no more rows than there may be."""
        return max(1, min(self.cell.hours, round(2 * self.cell.hours / float(self.rate))))

    def words(self) -> List[str]:
        more = ['--rate', self.rate] if self.rate != '1' else []
        more += ['--map-reduce', str(self.map_reduce)] if self.map_reduce else []
        return ['steady', str(self.cell.machines), str(self.hours()), str(self.load), *more]

    def name(self) -> str:
        return '-'.join(word.strip('-') for word in self.words())


class Trace(NamedTuple):
    workload: Workload
    seed: int

    def name(self) -> str:
        return '%s-seed-%d' % (self.workload.name(), self.seed)


class Run(NamedTuple):
    trace: Trace
    words: Words

    def command(self) -> List[str]:
        """The words of the program, without the folder of tables."""
        return [*spoken(self.words), '--times', 'yes', '--seed', str(self.trace.seed)]

    def name(self) -> str:
        return '%s: %s' % (self.trace.name(), ' '.join(spoken(self.words)))


def spoken(words: Words) -> List[str]:
    return ['simulate', *itertools.chain.from_iterable(('--' + name, value) for name, value in words)]


class Point(NamedTuple):
    """A point of a figure: what its runs have in common, and how many there are, each on a trace of its own."""
    figure: str
    workload: Workload
    words: Words
    traces: int

    def runs(self) -> List[Run]:
        return [Run(Trace(self.workload, seed), self.words) for seed in range(1, self.traces + 1)]

    def value(self, option: str) -> str:
        """What an option says here, be it named or not."""
        return {**DEFAULTS, **dict(self.words)}[option]


DEFAULTS = {'clock': 'rounds', 'ends': 'trace', 'window': '300000000', 'rule': 'fine', 'mode': 'incremental',
            'batch': '1', 't-job': '100000', 't-task': '5000', 'service-t-job': '100000', 'service-t-task': '5000',
            'extra': 'relative', 'cap': '60'}

# Choices of clock and ends. By the clock of rounds tasks end by the trace alone.
FREE_OWN: Words = (('clock', 'free'), ('ends', 'own'))
FREE_TRACE: Words = (('clock', 'free'), ('ends', 'trace'))
ROUNDS: Words = (('clock', 'rounds'), ('ends', 'trace'))
WINDOW = '1000000'


def seconds(*values: float) -> List[str]:
    """Times in seconds, in microseconds as the program takes them."""
    return [str(round(value * SECOND)) for value in values]


DECISIONS = seconds(0.1, 1, 3, 10, 20, 30, 50, 100)
LONG = '10000000'           # the decision on a service where something else is varied
MAP_JOBS = seconds(0.1, 1, 3, 10, 30, 50)
MAP_TASKS = seconds(0.005, 0.05, 0.5, 1.5, 5)
LOADS = (45, 55, 65, 75, 85, 90)
WINDOWS = seconds(0.1, 1, 5, 20, 60, 120, 300)
POLICIES: Dict[str, Words] = {
    'none': (('extra', 'cap'), ('cap', '0')), 'relative': (('extra', 'relative'),),
    'cap': (('extra', 'cap'), ('cap', '70')), 'max': (('extra', 'max'),)}
MAP_REDUCE_LOAD, MAP_REDUCE_PERCENT = 60, 10
SCALING_DECISION = '5000000'
# The rates of batch jobs, as multiples of the usual one, for each number of their schedulers: from where all of them
# could do with one scheduler to where these have more to decide than there is time for.
RATES = {1: ('0.125', '0.1875', '0.25', '0.375'),
         2: ('0.125', '0.25', '0.375', '0.5', '0.75'),
         4: ('0.125', '0.25', '0.5', '0.75', '1', '1.5'),
         8: ('0.25', '0.5', '1', '1.5', '2', '3'),
         16: ('0.25', '0.5', '1', '2', '3', '4', '6'),
         30: ('0.25', '0.5', '1', '2', '3', '4', '6', '8')}


def words(*parts: Words, window: str = WINDOW, **options: str) -> Words:
    """Words in one order, whatever they are put together of, so that two figures share the runs they have in common."""
    found = {'window': window}
    for part in parts:
        found.update(part)
    found.update({name.replace('_', '-'): value for name, value in options.items()})
    return tuple((name, found[name]) for name in (*DEFAULTS,) if name in found)


class Study(NamedTuple):
    """How large the study is."""
    cell: Cell = Cell()
    traces: int = MANY
    few: int = FEW

    def is_whole(self) -> bool:
        return self == Study()

    def busyness(self) -> Iterator[Point]:
        for how, decision in itertools.product((FREE_OWN, FREE_TRACE, ROUNDS), DECISIONS):
            yield Point('busyness', Workload(self.cell), words(how, service_t_job=decision), self.traces)

    def conflicts(self) -> Iterator[Point]:
        for rule, mode, decision in itertools.product(('fine', 'coarse'), ('incremental', 'gang'), DECISIONS):
            more: Words = (() if rule == 'fine' else (('rule', rule),)) + (() if mode == 'incremental' else (('mode', mode),))
            yield Point('conflicts', Workload(self.cell), words(FREE_OWN, more, service_t_job=decision), self.traces)

    def maps(self) -> Iterator[Point]:
        for job, task in itertools.product(MAP_JOBS, MAP_TASKS):
            more: Words = () if task == DEFAULTS['service-t-task'] else (('service-t-task', task),)
            yield Point('maps', Workload(self.cell), words(FREE_OWN, more, service_t_job=job), self.few)

    def scaling(self) -> Iterator[Point]:
        for batch, rates in RATES.items():
            for rate in rates:
                yield Point('scaling', Workload(self.cell, rate=rate),
                            words(FREE_OWN, batch=str(batch), t_job=SCALING_DECISION, service_t_job=SCALING_DECISION),
                            self.few)

    def load(self) -> Iterator[Point]:
        for rule, load in itertools.product(('fine', 'coarse'), LOADS):
            more: Words = () if rule == 'fine' else (('rule', rule),)
            yield Point('load', Workload(self.cell, load=load), words(FREE_OWN, more, service_t_job=LONG), self.traces)

    def windows(self) -> Iterator[Point]:
        for how, window in itertools.product((FREE_OWN, ROUNDS), WINDOWS):
            yield Point('windows', Workload(self.cell), words(how, service_t_job=LONG, window=window), self.traces)

    def map_reduce(self) -> Iterator[Point]:
        for policy in POLICIES.values():
            yield Point('map-reduce', Workload(self.cell, load=MAP_REDUCE_LOAD, map_reduce=MAP_REDUCE_PERCENT),
                        words(FREE_OWN, policy), self.traces)

    def points(self) -> List[Point]:
        return [*self.busyness(), *self.conflicts(), *self.maps(), *self.scaling(), *self.load(), *self.windows(),
                *self.map_reduce()]


FIGURES = ('busyness', 'conflicts', 'maps', 'scaling', 'load', 'windows', 'map-reduce')


def policy_of(point: Point) -> str:
    """The name of a policy for extra tasks."""
    return next(name for name, policy in POLICIES.items() if set(policy) <= set(point.words))


def runs_of(points: Sequence[Point]) -> List[Run]:
    """Each run once, those of a trace together."""
    found = dict.fromkeys(run for point in points for run in point.runs())
    by_trace: Dict[Trace, List[Run]] = {}
    for run in found:
        by_trace.setdefault(run.trace, []).append(run)
    return [run for runs in by_trace.values() for run in runs]


def plan_lines(points: Sequence[Point]) -> Iterator[str]:
    """What is to be run, figure by figure."""
    before: Dict[Run, None] = {}
    for figure in FIGURES:
        own = [point for point in points if point.figure == figure]
        if not own:
            continue
        runs = runs_of(own)
        new = [run for run in runs if run not in before]
        before.update(dict.fromkeys(new))
        yield '%-11s %4d points %5d runs, of which %4d are not yet in a figure above, on %3d traces' % (
            figure, len(own), len(runs), len(new), len({run.trace for run in runs}))
    yield '%-11s %4d points %5d runs on %d traces' % (
        'in all', len(points), len(before), len({run.trace for run in before}))
