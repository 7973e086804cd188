"""One page of HTML on some runs, which needs nothing else."""
import base64
import html
from typing import Callable, Dict, Iterable, List, NamedTuple, Optional, Sequence, Tuple

from .common import Refusal
from .figures import (DECISIONS, JOBS, NARROW, WIDE, Draw, Size, conflicts_over_time, picture, runs_beside, shares_within,
                      use_over_time, waits_by_kind)
from .reports import KINDS, Report
from .tables import options_of, results, spreads_table
from .waits import Tables, Wish, quantile_rows, wishes_of
from .words import Told, Words

STYLE = """
:root { color-scheme: light; }
body { font: 16px/1.5 system-ui, sans-serif; color: #1a1a1a; background: #fff; margin: 0 auto; max-width: 62rem;
  padding: 1rem; overflow-wrap: anywhere; }
h1 { font-size: 1.6rem; line-height: 1.2; margin: .5rem 0; }
h2 { font-size: 1.2rem; margin: 2.2rem 0 .4rem; border-top: 1px solid #ccc; padding-top: 1rem; }
h3 { font-size: 1rem; margin: 1.4rem 0 .2rem; }
p { margin: .4rem 0; max-width: 44rem; }
figure { margin: .8rem 0 1rem; }
img { width: 100%; max-width: 46rem; height: auto; display: block; }
.scroll { overflow-x: auto; }
table { border-collapse: collapse; font-size: .875rem; font-variant-numeric: tabular-nums; overflow-wrap: normal; }
th, td { padding: .3rem .6rem; border-bottom: 1px solid #ddd; text-align: right; white-space: nowrap; }
th { border-bottom: 2px solid #888; vertical-align: bottom; white-space: normal; min-width: 4.6rem; }
th:first-child { min-width: 0; }
th.word { white-space: nowrap; }
.scroll td a { white-space: normal; overflow-wrap: anywhere; }
.scroll td:has(a) { white-space: normal; min-width: 13rem; max-width: 18rem; }
th:first-child, td:first-child, td.word, th.word { text-align: left; }
code { font: .875em ui-monospace, monospace; background: #f3f3f3; padding: .1em .3em; border-radius: 3px; }
nav ul { padding-left: 1.2rem; margin: .3rem 0; }
a { color: #0b57a4; }
"""

# The columns of the table of runs: their names on the page, and how many digits behind the point.
COLUMNS: Dict[str, Tuple[str, int]] = {
    'commits': ('commits', 0), 'conflicted': ('in conflict', 0),
    'conflict_fraction': ('conflict fraction', 3), 'placed': ('tasks placed', 0), 'evicted': ('evicted', 0),
    'extras': ('extra tasks', 0), 'waiting': ('waiting at the end', 0), 'abandoned': ('jobs given up', 0),
    'mean_cpu': ('CPU in use', 3), 'mean_mem': ('memory in use', 3),
    'busy_services': ('services busy', 3), 'busy_batch': ('batch busy', 3),
    'mean_wait_services': ('wait of services, s', 1), 'p90_wait_services': ('90 % of them within, s', 1),
    'mean_wait_batch': ('wait of batch jobs, s', 1), 'p90_wait_batch': ('90 % of them within, s', 1)}


MOST_SECTIONS = 12  # with more runs the page has no figures of single ones


class Run(NamedTuple):
    name: str
    report: Report
    words: Optional[Words]
    window: Callable[[], int]
    waits: Optional[List[Wish]]
    why_no_waits: str


def waits_of(report: Report, told: Told) -> Tuple[Optional[List[Wish]], str]:
    """The waits of a report, or why there are none."""
    tables = told.tables()
    if tables is None:
        return None, 'The page wasn\'t told which tables the run had (--tables).'
    if not report.rounds:
        return None, 'The report is a summary.'
    window = told.window()
    try:
        return wishes_of(Tables(tables, window), told.report, told.has_own_ends(), report.decisions), ''
    except FileNotFoundError as fault:
        return None, '%s isn\'t there.' % fault.filename
    except Refusal as refusal:
        return None, '%s.' % refusal


def has_sections(runs: Sequence[Run]) -> bool:
    return len(runs) <= MOST_SECTIONS


def number(value: object, digits: int) -> str:
    if value is None:
        return ''
    return '{:,.{}f}'.format(value, digits) if isinstance(value, (int, float)) else html.escape(str(value))


def table(head: Sequence[Tuple[str, bool]], rows: Iterable[Sequence[str]]) -> str:
    """A table of cells that are HTML already; a column is of words or of numbers."""
    def cells(tag: str, texts: Sequence[str]) -> str:
        return ''.join('<%s%s>%s</%s>' % (tag, ' class="word"' if is_word else '', text, tag)
                       for text, (_, is_word) in zip(texts, head))
    body = '\n'.join('<tr>%s</tr>' % cells('td', row) for row in rows)
    return '<div class="scroll"><table>\n<thead><tr>%s</tr></thead>\n<tbody>\n%s\n</tbody></table></div>' % (
        cells('th', [html.escape(text) for text, _ in head]), body)


def figure(draw: Draw, says: str, wide: Size = WIDE, narrow: Size = NARROW) -> str:
    """A figure in two sizes, of which the browser takes the one that fits."""
    def data(size: Size) -> str:
        return 'data:image/svg+xml;base64,' + base64.b64encode(picture(draw, 'svg', size)).decode('ascii')
    return ('<figure><picture><source media="(max-width: 560px)" srcset="%s"><img src="%s" alt="%s"></picture></figure>'
            % (data(narrow), data(wide), html.escape(says, quote=True)))


def runs_table(runs: Sequence[Run]) -> str:
    found = [results(run.report) for run in runs]
    options = [option for option in options_of(run.words for run in runs) if option != 'tables']
    columns = [column for column in COLUMNS if any(result.get(column) is not None for result in found)]
    head = [('', True), ('run', True), *((('--' + option), True) for option in options),
            *((COLUMNS[column][0], False) for column in columns)]
    rows = []
    for place, (run, result) in enumerate(zip(runs, found)):
        said = [html.escape(run.words.value(option)) if run.words else '' for option in options]
        name = html.escape(run.name)
        rows.append([str(place + 1), '<a href="#run-%d">%s</a>' % (place, name) if has_sections(runs) else name, *said,
                     *(number(result.get(column), COLUMNS[column][1]) for column in columns)])
    return table(head, rows)


def beside(runs: Sequence[Run]) -> str:
    """The runs beside each other: conflicts, and busyness where it is told."""
    names = [run.name for run in runs]
    found = [results(run.report) for run in runs]
    parts = []
    for start, label in (('conflict_fraction_', 'conflicts per commit that placed a task'),
                         ('busy_', 'part of the time that the scheduler decides'),
                         ('mean_wait_', 'mean wait of a job for its first decision, seconds'),
                         ('p90_wait_', 'wait that 90 % of jobs do not pass, seconds')):
        values = [{kind: _float(result.get(start + kind)) for kind in KINDS} for result in found]
        if any(value is not None for by_kind in values for value in by_kind.values()):
            high = 1.2 + 0.28 * len(runs)
            parts.append(figure(runs_beside(names, values, label), label, Size(WIDE.width, high),
                                Size(NARROW.width, high)))
    return '\n'.join(parts)


def _float(value: object) -> Optional[float]:
    return float(value) if isinstance(value, (int, float)) else None


SPREAD = tuple((name, False) for name in ('mean, s', 'half within, s', '90 % within, s', '99 % within, s', 'longest, s'))


def waits_table(wishes: List[Wish]) -> str:
    head = [('jobs', True), ('tasks', False), ('ran', False), ('never ran', False), ('still wait', False), *SPREAD]
    rows = [[html.escape(str(row[0])), *(number(cell, 0) for cell in row[1:5]), *(number(cell, 1) for cell in row[5:])]
            for row in quantile_rows(wishes) if row[1]]
    return table(head, rows)


def times_table(by_kind: Dict[str, List[int]], what: str) -> str:
    """How times that are told one by one are spread, for each kind of scheduler."""
    _, *rows = spreads_table(by_kind, what)
    return table([('schedulers', True), (what, False), *SPREAD],
                 [[html.escape(str(row[0])), number(row[1], 0), *(number(cell, 3) for cell in row[2:])]
                  for row in rows if row[1]])


def single_times(report: Report) -> List[str]:
    """How long jobs wait for a decision, and how long decisions take."""
    parts = []
    for title, by_kind, (says, of) in (
            ('Waits of jobs for a decision', report.of_kinds(report.waits_of_jobs()), JOBS),
            ('Decisions', report.of_kinds(report.decision_times()), DECISIONS)):
        parts += ['<h3>%s</h3>' % title, figure(shares_within(by_kind, says, of), 'part of the %s within a time' % of),
                  times_table(by_kind, of)]
    return parts


def section(place: int, run: Run) -> str:
    """One run by itself."""
    parts = ['<h2 id="run-%d">%d. %s</h2>' % (place, place + 1, html.escape(run.name))]
    if run.words is not None:
        parts.append('<p><code>omega %s</code></p>' % html.escape(run.words.shown()))
    if run.report.rounds:
        parts += ['<h3>Use over time</h3>',
                  figure(use_over_time(run.report, run.window), 'part of the cell in use over time'),
                  '<h3>Conflicts over time</h3>',
                  figure(conflicts_over_time(run.report, run.window), 'conflicts over time by kind of scheduler')]
    parts.append('<h3>Waits</h3>')
    if run.waits is None:
        parts.append('<p>%s</p>' % html.escape(run.why_no_waits))
    else:
        parts += [figure(waits_by_kind(run.waits), 'part of the tasks that ran within a time'), waits_table(run.waits)]
    if run.report.decisions:
        parts += single_times(run.report)
    return '\n'.join(parts)


EXPLAINED = """<p>Each figure is of a report that <code>omega</code> printed. A commit is in conflict if a claim of it
isn't placed; the <em>conflict fraction</em> is the number of these for each commit that placed a task. What is used
is told where a round ends, and stays so until the next round. A task waits from when it is submitted to the last row
of the round in which it is first placed, or, where the run told its single times, to the commit that placed it; one that
ends in the trace before that never runs, unless tasks end by their own lives. A job waits from its first row until
its scheduler began to decide on it; jobs on which nobody ever decided aren't counted.</p>"""


def page(title: str, runs: Sequence[Run]) -> str:
    several = len(runs) > 1
    head = ('<!DOCTYPE html>\n<html lang="en">\n<head>\n<meta charset="utf-8">\n'
            '<meta name="viewport" content="width=device-width, initial-scale=1">\n<title>%s</title>\n'
            '<style>%s</style>\n</head>\n<body>\n<h1>%s</h1>' % (html.escape(title), STYLE, html.escape(title)))
    parts = [head, EXPLAINED, '<h2>%s</h2>' % ('The runs beside each other' if several else 'In numbers'),
             runs_table(runs)]
    if several:
        parts.append(beside(runs))
    if has_sections(runs):
        parts += [section(place, run) for place, run in enumerate(runs)]
    else:
        parts.append('<p>With more than %d runs there are no figures of single ones here.</p>' % MOST_SECTIONS)
    return '\n'.join([*parts, '</body>\n</html>\n'])
