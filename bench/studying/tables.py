"""The tables of docs/STUDY.md, each made of rows of points alone and put between its marks on the page."""
import re
from typing import Callable, Dict, List, Sequence, Tuple

from .common import Refusal
from .figures import ENDS, Rows, chosen, decision, number, policies
from .spread import MUCH_EMPTY, Row

NAMES = {'services': 'services', 'batch': 'batch', 'map_reduce': 'MapReduce'}
Made = Dict[str, object]    # how the points were made


def table(heads: Sequence[str], rows: Sequence[Sequence[str]]) -> List[str]:
    return ['| ' + ' | '.join(cells) + ' |' for cells in (heads, ['---'] * len(heads), *rows)]


def value_of(row: Row, column: str, form: str) -> str:
    """A mean and the half of its interval, where they are there."""
    value, half = number(row, column), number(row, column + '_95')
    if value is None:
        return '-'
    return form % value if half is None else ('%s ± %s' % (form, form.replace('+', ''))) % (value, half)


def told(row: Row, kind: str, measure: str) -> str:
    """What a point says of a measure: in brackets where it is overtaken, and no wait then; with a cross where much of the
    time of decisions went into commits without claims."""
    is_overtaken = row[kind + '_overtaken'] == 'yes'
    if measure.startswith('wait'):
        return 'overtaken' if is_overtaken else value_of(row, '%s_%s' % (kind, measure), '%.1f')
    value = value_of(row, '%s_%s' % (kind, measure), '%.3f')
    value += ' †' if (number(row, kind + '_empty_share') or 0) > MUCH_EMPTY else ''
    return '(%s)' % value if is_overtaken else value


def share_of(row: Row, kind: str) -> str:
    value = number(row, kind + '_empty_share')
    return '-' if value is None else '%.3f' % value


def undecided(row: Row, kind: str) -> str:
    """How many jobs of all were undecided."""
    came, decided = (int(row['%s_%s' % (kind, name)]) for name in ('came', 'decided'))
    return '%d of %d' % (came - decided, came)


def jobs(row: Row, kind: str) -> List[str]:
    return [row['%s_%s' % (kind, name)] for name in ('came', 'decided', 'ended', 'late')]


JOBS = ['came', 'decided', 'ended before', 'waited at the end']
EMPTY = 'time for empty commits'


def of_kind(rows: Rows, kind: str) -> List[str]:
    lines = []
    for label, clock, ends in ENDS:
        for row in sorted(chosen(rows['busyness'], clock=clock, ends=ends), key=decision):
            lines.append([label, '%g' % decision(row), told(row, kind, 'busy'), told(row, kind, 'wait'),
                          told(row, kind, 'wait_90'), *jobs(row, kind), share_of(row, kind)])
    return table(['clock', 'decision on a service, s', NAMES[kind] + ' busy', 'mean wait, s', '90 per cent, s', *JOBS, EMPTY],
                 lines)


def conflicts(rows: Rows, kind: str) -> List[str]:
    choices = [(rule, mode) for rule in ('fine', 'coarse') for mode in ('incremental', 'gang')]
    by_decision = {at: chosen(rows['conflicts'], service_t_job=at) for at in decisions(rows['conflicts'])}
    return table(['decision on a service, s', *('%s, %s' % choice for choice in choices), 'undecided, fine and incremental'], [
        ['%g' % (int(at) / 1e6), *(told(chosen(own, rule=rule, mode=mode)[0], kind, 'conflict_fraction')
                                   for rule, mode in choices), undecided(chosen(own, rule='fine', mode='incremental')[0], kind)]
        for at, own in by_decision.items()])


def decisions(rows: Sequence[Row]) -> List[str]:
    return sorted({row['service-t-job'] for row in rows}, key=int)


def differences(rows: Rows, figure: str, kind: str, measures: Sequence[Tuple[str, str, str]],
                axis: str, shown: Callable[[str], str]) -> List[str]:
    """A line for each place on an axis, a column for each choice and measure."""
    own = [row for row in rows['differences'] if row['figure'] == figure and row['kind'] == kind]
    choices = list(dict.fromkeys(row['choice'] for row in own))
    columns = [(choice, measure, says, form) for choice in choices for measure, says, form in measures]
    places = sorted({row[axis] for row in own}, key=float)
    found = {(row['choice'], row['measure'], row[axis]): row for row in own}
    return table(['decision on a service, s' if axis == 'service-t-job' else 'load asked for',
                  *('%s: %s' % (choice, says) for choice, _, says, _ in columns)], [
        [shown(place), *(value_of(found[choice, measure, place], 'mean', form) if (choice, measure, place) in found else '-'
                         for choice, measure, _, form in columns)] for place in places])


def in_seconds(at: str) -> str:
    return '%g' % (int(at) / 1e6)


def clocks(rows: Rows, kind: str) -> List[str]:
    return differences(rows, 'busyness', kind, (('busy', 'busy', '%+.3f'), ('wait', 'mean wait, s', '%+.1f')),
                       'service-t-job', in_seconds)


def rules(rows: Rows) -> List[str]:
    return differences(rows, 'conflicts', 'services', (('conflict_fraction', 'conflicts', '%+.3f'),), 'service-t-job', in_seconds)


def maps(rows: Rows) -> List[str]:
    return table(['time for a job, s', 'time for a task, s', 'services busy', 'conflicts', 'undecided'], [
        [in_seconds(row['service-t-job']), in_seconds(row['service-t-task']), told(row, 'services', 'busy'),
         told(row, 'services', 'conflict_fraction'), undecided(row, 'services')] for row in rows['maps']])


def scaling(rows: Rows) -> List[str]:
    return table(['batch schedulers', 'rate', 'rate decided on', 'CPU in use', 'batch busy', 'conflicts', 'mean wait, s', *JOBS,
                  EMPTY], [
        [row['batch'], row['rate'], '%.2f' % (float(row['rate']) * int(row['batch_decided']) / int(row['batch_came'])),
         value_of(row, 'load', '%.3f'), told(row, 'batch', 'busy'), told(row, 'batch', 'conflict_fraction'),
         told(row, 'batch', 'wait'), *jobs(row, 'batch'), share_of(row, 'batch')] for row in rows['scaling']])


def load(rows: Rows) -> List[str]:
    return table(['rule', 'asked for', 'in use', 'conflicts, services', 'undecided', 'conflicts, batch', 'undecided'], [
        [row['rule'], row['asked'], value_of(row, 'load', '%.3f'), told(row, 'services', 'conflict_fraction'),
         undecided(row, 'services'), told(row, 'batch', 'conflict_fraction'), undecided(row, 'batch')]
        for row in rows['load']])


def windows(rows: Rows) -> List[str]:
    lines = []
    for row in rows['windows']:
        for kind in ('services', 'batch'):
            lines.append([row['clock'], in_seconds(row['window']), NAMES[kind], told(row, kind, 'conflict_fraction'),
                          told(row, kind, 'wait'), row[kind + '_empty'], share_of(row, kind), undecided(row, kind),
                          row['abandoned']])
    return table(['clock', 'window, s', 'of', 'conflicts', 'mean wait, s', 'empty commits', EMPTY, 'undecided', 'jobs given up'],
                 lines)


QUANTILES = ('0.1', '0.5', '0.9')


def map_reduce(rows: Rows) -> List[str]:
    """A line for each policy, in the order of its points."""
    lines = []
    for policy, row in zip(policies(rows['speedup']), rows['map-reduce']):
        own = {each['quantile']: each for each in rows['speedup'] if each['policy'] == policy}
        lines.append([policy, value_of(row, 'load', '%.3f'), *(value_of(own[at], 'ratio', '%.2f') for at in QUANTILES),
                      told(row, 'map_reduce', 'wait'), *jobs(row, 'map_reduce'), told(row, 'batch', 'wait'),
                      *(share_of(row, kind) for kind in NAMES)])
    return table(['policy', 'CPU in use', *('tasks for each own one, %d per cent of jobs' % round(100 * float(at))
                                           for at in QUANTILES),
                  'mean wait of MapReduce, s', *JOBS, 'mean wait of batch, s',
                  *('%s, %s' % (EMPTY, name) for name in NAMES.values())], lines)


def loads(rows: Rows) -> List[str]:
    """For each kind of trace what it was made for, what its tasks ask for, and what is in use."""
    found: Dict[str, Row] = {}
    for row in (*rows['busyness'], *rows['load'], *rows['map-reduce']):
        found.setdefault(row['workload'], row)
    # Of scaling the run with the most schedulers, which come last.
    found.update({row['workload']: row for row in rows['scaling'] if row['workload'] not in found})
    lines = [['`%s`' % workload, row['seeds'], row['asked'], row['wanted'], value_of(row, 'load', '%.3f'),
              *(row[kind + '_came'] for kind in NAMES)] for workload, row in found.items()]
    return table(['trace', 'seeds', 'asked for', 'wanted by its tasks', 'in use', 'services', 'batch jobs', 'MapReduce jobs'], lines)


def about(rows: Rows, made: Made, digests: Dict[str, str]) -> List[str]:
    first = rows['busyness'][0]
    return table(['what', 'which'], [
        ['program', '`%s`%s' % (first['program'], '' if made['stamped'] else ', without a stamp of its sources')],
        ['its sources', '`%s`' % first['sources']],
        ['what makes traces and measures', '`%s`' % first['scripts']],
        ['what makes points of runs', '`%s`' % made['points_by']],
        ['runs', '%s, on %s traces' % (made['runs'], made['traces_made'])],
        ['traces of a point', '%s; on maps and of scaling %s' % (made['traces'], made['few'])],
        ['time', '%s minutes of runs, one after the other; %s went on at once' % (made['minutes'], made['at_once'])],
        *(['`figures/%s`' % name, '`%s`' % digest] for name, digest in sorted(digests.items()))])


TABLES: Dict[str, Callable[[Rows], List[str]]] = {
    'loads': loads, 'services': lambda rows: of_kind(rows, 'services'), 'batch': lambda rows: of_kind(rows, 'batch'),
    'clocks-services': lambda rows: clocks(rows, 'services'), 'clocks-batch': lambda rows: clocks(rows, 'batch'),
    'conflicts-services': lambda rows: conflicts(rows, 'services'), 'conflicts-batch': lambda rows: conflicts(rows, 'batch'),
    'rules': rules, 'maps': maps, 'scaling': scaling, 'load': load, 'windows': windows, 'map-reduce': map_reduce}


def all_tables(rows: Rows, made: Made, digests: Dict[str, str]) -> Dict[str, List[str]]:
    return {'about': about(rows, made, digests), **{name: make(rows) for name, make in TABLES.items()}}


# The page.

END = '<!-- end -->'


def mark(name: str) -> str:
    return '<!-- study: %s -->' % name


def marked(page: str) -> List[str]:
    """The names of the tables that a page has a place for."""
    return re.findall('<!-- study: ([a-z-]+) -->', page)


def has_tables(page: str) -> bool:
    """Whether something stands between two marks."""
    return any(page[page.index(mark(name)) + len(mark(name)):].lstrip()[:len(END)] != END for name in marked(page))


def with_tables(page: str, tables: Dict[str, List[str]]) -> str:
    """The page with each table between its marks. Each table has a place, and each place a table."""
    names = marked(page)
    if sorted(names) != sorted(tables):
        raise Refusal('the page has marks for %s, and the tables are %s' % (', '.join(names), ', '.join(tables)))
    for name, lines in tables.items():
        begin = page.index(mark(name)) + len(mark(name))
        end = page.index(END, begin)
        page = page[:begin] + '\n' + '\n'.join(lines) + '\n' + page[end:]
    return page
