"""Tables of kept runs: each by itself, those that differ in their seeds alone, and what choices change."""
import csv
import itertools
from pathlib import Path
from typing import Dict, Iterable, Iterator, List, NamedTuple, Optional, Sequence, Tuple

from .run_numbers import Numbers
from .estimates import Estimate, estimate
from .sweeps import Kept
from .tables import RESULTS, options_of
from .words import COMMANDS, OPTIONS, Words


class Result(NamedTuple):
    kept: Kept
    numbers: Numbers    # empty where the run has no report


def columns_of(found: Sequence[Result]) -> List[str]:
    return [name for name in (*RESULTS, 'seconds') if any(name in result.numbers for result in found)]


def runs_table(found: Sequence[Result]) -> Iterator[List[object]]:
    """A row for each run."""
    options = options_of(result.kept.words for result in found)
    columns = [name for name in columns_of(found) if name != 'seconds']
    workload = ['workload'] if any(result.kept.workload() for result in found) else []
    yield ['run', 'command', *workload, *options, 'status', 'seconds', *columns]
    for kept, numbers in found:
        yield [kept.name, kept.words.command, *(kept.workload() for _ in workload),
               *(kept.words.value(option) for option in options), kept.status, kept.seconds,
               *(numbers.get(column) for column in columns)]


# Runs of one choice.

def samples(values: Iterable[Tuple[str, float]]) -> List[float]:
    """Values that are drawn independently of each other, of some by trace: a mean for each trace, or where there is one
    trace alone, each value."""
    by_trace: Dict[str, List[float]] = {}
    for trace, value in values:
        by_trace.setdefault(trace, []).append(value)
    if len(by_trace) == 1:
        return next(iter(by_trace.values()))
    return [sum(of_trace) / len(of_trace) for of_trace in by_trace.values()]


class Group(NamedTuple):
    """Runs that differ in their seeds alone: their own, or those that their tables were made with."""
    words: Words            # without seed and tables
    workload: str           # what their tables are, or which ones where that isn't told
    results: List[Result]

    def estimate(self, column: str) -> Optional[Estimate]:
        return estimate(samples((result.kept.tables(), result.numbers[column]) for result in self.results
                                if column in result.numbers))

    def range(self, column: str) -> Tuple[Optional[float], Optional[float]]:
        """The least and the greatest value of the runs that have one."""
        values = [result.numbers[column] for result in self.results if column in result.numbers]
        return (min(values), max(values)) if values else (None, None)

    def traces(self) -> int:
        return len({result.kept.tables() for result in self.results})

    def named_workload(self) -> Optional[str]:
        return self.results[0].kept.workload()

    def tables(self) -> Optional[str]:
        """The folder of tables, where all have the same."""
        folders = {result.kept.words.options.get('tables') for result in self.results}
        return folders.pop() if len(folders) == 1 else None

    def value(self, name: str) -> Optional[str]:
        """What stands in a column of choices."""
        if name == 'command':
            return self.words.command
        if name == 'workload':
            return self.named_workload()
        return self.tables() if name == 'tables' else self.words.value(name)


def groups_of(found: Sequence[Result]) -> List[Group]:
    groups: Dict[Tuple[object, ...], Group] = {}
    for result in found:
        words, workload = result.kept.words, result.kept.workload() or result.kept.tables()
        rest = {option: value for option, value in words.options.items() if option not in ('seed', 'tables')}
        key = (words.command, workload, tuple(sorted(rest.items())))
        groups.setdefault(key, Group(Words(words.command, rest), workload, [])).results.append(result)
    return list(groups.values())


def choices_of(groups: Sequence[Group]) -> List[str]:
    """The columns that tell groups apart."""
    told = [name for name in ('workload', 'tables') if any(group.value(name) for group in groups)]
    return ['command', *told, *options_of(group.words for group in groups)]


def seeds_table(groups: Sequence[Group]) -> Iterator[List[object]]:
    """A row for all runs that differ in their seeds alone, with the mean of each column, its 95 per cent interval, and
    the range."""
    choices = choices_of(groups)
    columns = columns_of([result for group in groups for result in group.results])
    yield [*choices, 'runs', 'traces', 'failed',
           *('%s_%s' % (column, part) for column in columns for part in ('mean', 'low', 'high', 'min', 'max'))]
    for group in groups:
        failed = sum(1 for result in group.results if not result.numbers)
        parts = ((*(group.estimate(column) or (None,) * 3), *group.range(column)) for column in columns)
        yield [*map(group.value, choices), len(group.results), group.traces(), failed, *itertools.chain.from_iterable(parts)]


# Choices beside each other.

class Difference(NamedTuple):
    """What a choice changes against another one, where all else is the same."""
    option: str
    group: Group
    against: Group

    def estimate(self, column: str) -> Optional[Estimate]:
        """The mean of the differences between runs on the same tables and with the same seed."""
        return estimate(samples((trace, numbers[column] - other[column]) for trace, numbers, other in self.pairs()
                                if column in numbers and column in other))

    def pairs(self) -> Iterator[Tuple[str, Numbers, Numbers]]:
        against = {twin(result): result.numbers for result in self.against.results}
        for result in self.group.results:
            if result.numbers and against.get(twin(result)):
                yield result.kept.tables(), result.numbers, against[twin(result)]


def twin(result: Result) -> Tuple[str, str]:
    """What runs on the same tables and with the same seed have in common."""
    return result.kept.tables(), result.kept.words.value('seed')


def rank(option: str, value: Optional[str]) -> Tuple[bool, int, int, str]:
    """Where a value of a choice stands: its default first, then numbers by their size, and then words."""
    if option == 'command':
        return False, COMMANDS.index(str(value)), 0, ''
    text = str(value)
    return value != OPTIONS[option], 0, int(text) if text.isdigit() and len(text) < 40 else -1, text


def differences_of(groups: Sequence[Group]) -> Iterator[Difference]:
    """For each choice the groups that differ in it alone, against the one with its first value."""
    options = ['command', *options_of(group.words for group in groups)]
    for option in options:
        alike: Dict[Tuple[object, ...], List[Group]] = {}
        for group in groups:
            rest = (group.workload, *(group.value(other) for other in options if other != option))
            alike.setdefault(rest, []).append(group)
        for of_rest in alike.values():
            first, *others = sorted(of_rest, key=lambda group: rank(option, group.value(option)))
            yield from (Difference(option, other, first) for other in others if other.value(option) != first.value(option))


def differences_table(groups: Sequence[Group]) -> Iterator[List[object]]:
    """A row for each choice and value that isn't its first, with the mean difference of each column, and its 95 per
    cent interval."""
    choices = choices_of(groups)
    columns = columns_of([result for group in groups for result in group.results])
    yield ['choice', 'value', 'against', *choices, 'pairs',
           *('%s_%s' % (column, part) for column in columns for part in ('mean', 'low', 'high'))]
    for difference in differences_of(groups):
        estimates = (difference.estimate(column) or (None,) * 3 for column in columns)
        yield [difference.option, difference.group.value(difference.option), difference.against.value(difference.option),
               *map(difference.group.value, choices), sum(1 for _ in difference.pairs()),
               *itertools.chain.from_iterable(estimates)]


def write_csv(path: Path, rows: Iterable[Sequence[object]]) -> None:
    part = path.with_name(path.name + '.part')
    with open(part, 'w', newline='') as file:
        for row in rows:
            csv.writer(file, lineterminator='\n').writerow(
                ['%.6g' % cell if isinstance(cell, float) else cell for cell in row])
    part.replace(path)


# The columns of the table for reading, and how they are headed.
HEADS = {'conflict_fraction': 'conflict fraction', 'evicted': 'evicted', 'waiting': 'waiting', 'mean_cpu': 'CPU in use',
         'busy_services': 'services busy', 'busy_batch': 'batch busy', 'mean_wait_services': 'services wait, s',
         'mean_wait_batch': 'batch waits, s', 'seconds': 'seconds'}


def text_of(group: Group, column: str) -> str:
    """The mean, and in brackets the range where there is one."""
    found, (least, greatest) = group.estimate(column), group.range(column)
    if found is None or least is None or greatest is None:
        return '-'
    return '%.4g' % found.mean if least == greatest else '%.4g (%.4g to %.4g)' % (found.mean, least, greatest)


def text_table(groups: Sequence[Group]) -> Iterator[str]:
    """The same for reading: the choices that differ, and some of the columns."""
    choices = [name for name in choices_of(groups) if len({group.value(name) for group in groups}) > 1]
    columns = [column for column in HEADS if any(group.estimate(column) for group in groups)]
    rows = [[*(name if name in ('command', 'workload') else '--' + name for name in choices), 'runs',
             *(HEADS[column] for column in columns)]]
    for group in groups:
        rows.append([*(group.value(name) or '' for name in choices), str(len(group.results)),
                     *(text_of(group, column) for column in columns)])
    widths = [max(map(len, column)) for column in zip(*rows)]
    for row in rows:
        yield '  '.join(cell.ljust(width) for cell, width in zip(row, widths)).rstrip()
