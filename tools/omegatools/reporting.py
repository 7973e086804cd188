"""Reads reports of omega, as text or as JSON, and shows what they come to.

A report is a file or, where its name is `-`, standard input; it may be packed by gzip, bzip2 or xz. One that
doesn't begin, go on and end as a report does is refused in one line. Tables are CSV with a line of names.
Fractions are of 1, times of the trace in hours or microseconds as the column's name or the help says.

How long a round is comes from the file `words` beside the report, as omega's sweeps leave it, or from --window.
What depends on it is refused where neither says it.
"""
import argparse
import os
import shutil
import sys
import tempfile
from pathlib import Path
from typing import Callable, Dict, List, NamedTuple, Optional

from .common import Refusal, duration, ends, own_name
from .events import json_lines_of
from .figures import (DECISIONS, JOBS, Draw, conflicts_over_time, picture, shares_within, use_over_time,
                      waits_by_kind)
from .page import Run, page, waits_of
from .reports import Report, report_lines
from .tables import (commits_table, compare_table, conflicts_table, jobs_table, rounds_table, schedulers_table, show,
                     spreads_table)
from .waits import COLUMNS, QUANTILE_COLUMNS, Tables, quantile_rows, row_of, wishes_of
from .words import Told


def told_of(words: argparse.Namespace, report: Optional[str] = None) -> Told:
    """What is known of the run of a report."""
    return Told(words.report if report is None else report, words.window, getattr(words, 'ends', None),
                getattr(words, 'tables', None))


def rounds(words: argparse.Namespace) -> None:
    show(rounds_table(Report(words.report), told_of(words).window))


def schedulers(words: argparse.Namespace) -> None:
    show(schedulers_table(Report(words.report)))


def conflicts(words: argparse.Namespace) -> None:
    per = duration(words.per)
    if per < 1:
        raise Refusal('--per is at least a microsecond')
    show(conflicts_table(Report(words.report), told_of(words).window, per))


def events(words: argparse.Namespace) -> None:
    """They are printed once the whole report is read, so that nothing comes of one that is cut."""
    with tempfile.TemporaryFile('w+', encoding='ascii') as kept:
        kept.writelines(json_lines_of(report_lines(words.report), told_of(words).window))
        kept.seek(0)
        shutil.copyfileobj(kept, sys.stdout)


def waits(words: argparse.Namespace) -> None:
    """Rows, and how the waits in them are spread on standard error; or this alone on standard output."""
    {'tasks': waits_of_tasks, 'jobs': waits_of_jobs, 'commits': times_of_commits}[words.of](words, Report(words.report))


def waits_of_tasks(words: argparse.Namespace, report: Report) -> None:
    told = told_of(words)
    tables = told.tables()
    if tables is None:
        raise Refusal('the waits of tasks need the folder of their tables, before the report')
    found = wishes_of(Tables(tables, told.window()), words.report, told.has_own_ends(), report.decisions)
    if not words.quantiles:
        show([COLUMNS, *map(row_of, found)])
    show([QUANTILE_COLUMNS, *quantile_rows(found)], sys.stdout if words.quantiles else sys.stderr)


def waits_of_jobs(words: argparse.Namespace, report: Report) -> None:
    if not words.quantiles:
        show(jobs_table(with_single_times(report, words)))
    spreads = spreads_table(report.of_kinds(with_single_times(report, words).waits_of_jobs()), 'jobs')
    show(spreads, sys.stdout if words.quantiles else sys.stderr)


def times_of_commits(words: argparse.Namespace, report: Report) -> None:
    if not words.quantiles:
        show(commits_table(with_single_times(report, words)))
    spreads = spreads_table(report.of_kinds(with_single_times(report, words).decision_times()), 'commits')
    show(spreads, sys.stdout if words.quantiles else sys.stderr)


def with_single_times(report: Report, words: argparse.Namespace) -> Report:
    """A report that tells single times. Where there are commits, one that doesn't is refused."""
    if report.jobs and not report.decisions or not report.times:
        raise Refusal('%s tells no single times: they come of `simulate --times yes`' % words.report)
    return report


def compare(words: argparse.Namespace) -> None:
    show(compare_table(words.reports))


def plot(words: argparse.Namespace) -> None:
    report, told = Report(words.report), told_of(words)
    drawn: Dict[str, Draw] = {
        'use': use_over_time(report, told.window),
        'conflicts': conflicts_over_time(report, told.window, duration(words.per) if words.per else None)}
    tables = told.tables()
    if tables is not None:
        drawn['waits'] = waits_by_kind(wishes_of(Tables(tables, told.window()), words.report, told.has_own_ends(),
                                                 report.decisions))
    if report.decisions:
        drawn['jobs'] = shares_within(report.of_kinds(report.waits_of_jobs()), *JOBS)
        drawn['decisions'] = shares_within(report.of_kinds(report.decision_times()), *DECISIONS)
    words.folder.mkdir(parents=True, exist_ok=True)
    for name, draw in drawn.items():
        print(put(words.folder / ('%s.%s' % (name, words.format)), picture(draw, words.format)))


def put(path: Path, data: bytes) -> Path:
    """Writes a file at once, so that none is left half."""
    part = path.with_name(path.name + '.part')
    part.write_bytes(data)
    os.replace(part, path)
    return path


def run_of(words: argparse.Namespace, path: str) -> Run:
    """A run as the page shows it."""
    told, report = told_of(words, path), Report(path)
    found, why = waits_of(report, told)
    return Run(name_of(path), report, told.words(), told.window, found, why)


def make_page(words: argparse.Namespace) -> None:
    text = page(words.title, [run_of(words, path) for path in words.reports])
    print(put(words.file, text.encode(errors='replace')))


def name_of(path: str) -> str:
    """What a run is called: its folder where the file is `report.txt`, else its file."""
    file = Path(path)
    return file.resolve().parent.name if file.name == 'report.txt' else 'standard input' if path == '-' else file.name


# The words.

class Command(NamedTuple):
    """A command: what it does, what the help says of it, and what is added to its words."""
    does: Callable[[argparse.Namespace], None]
    says: str
    add: Callable[[argparse.ArgumentParser], None]


def of_report(added: argparse.ArgumentParser) -> None:
    added.add_argument('report', metavar='REPORT')


def of_reports(added: argparse.ArgumentParser) -> None:
    added.add_argument('reports', metavar='REPORT', nargs='+')


def of_spans(added: argparse.ArgumentParser) -> None:
    added.add_argument('--per', metavar='TIME', default='1h', help='how long a span of time is; an hour by default')
    of_report(added)


def of_ends(added: argparse.ArgumentParser) -> None:
    added.add_argument('--ends', choices=('trace', 'own'), help='for the waits, how tasks end in the report; by '
                       'default what the file `words` beside it says')


def of_tables(added: argparse.ArgumentParser) -> None:
    added.add_argument('--tables', metavar='TABLES', type=Path, help='the folder of the tables, for the waits; '
                       'by default that of the file `words` beside the report')


def of_waits(added: argparse.ArgumentParser) -> None:
    of_ends(added)
    added.add_argument('--of', choices=('tasks', 'jobs', 'commits'), default='tasks', help='what has a row: a task, '
                       'with its wait until it was first placed; or, of `simulate --times yes`, a job, with its wait '
                       'until its scheduler began to decide on it, or a commit, with how long its decision took; tasks '
                       'by default')
    added.add_argument('--quantiles', action='store_true', help='print these alone, on standard output')
    added.add_argument('tables', metavar='TABLES', type=Path, nargs='?', help='the folder of the tables, for tasks; by '
                       'default that of the file `words` beside the report')
    of_report(added)


def of_plot(added: argparse.ArgumentParser) -> None:
    added.add_argument('--format', choices=('svg', 'png', 'pdf'), default='svg', help='svg by default')
    of_ends(added)
    added.add_argument('--per', metavar='TIME', help='how long a span of time is in the figure of conflicts; '
                       'by default one that suits the length of the report')
    of_tables(added)
    of_report(added)
    added.add_argument('folder', metavar='FOLDER', type=Path)


def of_page(added: argparse.ArgumentParser) -> None:
    of_ends(added)
    of_tables(added)
    added.add_argument('--title', default='Runs of omega', help='`Runs of omega` by default')
    of_reports(added)
    added.add_argument('file', metavar='FILE', type=Path)


COMMANDS = {
    'rounds': Command(rounds, 'what is used where each round ends', of_report),
    'schedulers': Command(schedulers, 'commits and conflicts of each scheduler, and of `simulate` how busy it is and '
                          'how long its jobs wait for it (seconds)', of_report),
    'conflicts': Command(conflicts, 'commits and conflicts by scheduler and time', of_spans),
    'events': Command(events, 'each line of the report as a JSON object with names, a line each, with its round, '
                      'the time at which its window begins (microseconds) and its commit; on `simulate` the round may '
                      'begin later', of_report),
    'waits': Command(waits, 'for each task when it was submitted, first placed, evicted, displaced and ended '
                     '(microseconds), or that it never ran; and on standard error the quantiles of the wait by kind '
                     'of job (seconds). Of `simulate --times yes` what a commit did has the time of the commit; '
                     'elsewhere it has that of its round\'s last row, and decisions take no time', of_waits),
    'compare': Command(compare, 'a row for each report, with the words of its run where they stand in the file '
                       '`words` beside it; means of what is used weigh each round by how long it lasted', of_reports),
    'plot': Command(plot, 'use and conflicts over time, and waits by kind of job, as figures in a folder; of '
                    '`simulate --times yes` also how long jobs wait for a decision, and how long decisions take',
                    of_plot),
    'page': Command(make_page, 'one page of HTML on some runs, which needs nothing else', of_page),
}


def parser() -> argparse.ArgumentParser:
    whole = argparse.ArgumentParser(description=__doc__, formatter_class=argparse.RawDescriptionHelpFormatter)
    commands = whole.add_subparsers(dest='command', metavar='COMMAND', required=True)
    for name, command in COMMANDS.items():
        added = commands.add_parser(name, help=command.says,
                                    description=command.says[0].upper() + command.says[1:] + '.')
        added.set_defaults(does=command.does)
        added.add_argument('--window', metavar='TIME', help='how long a round is')
        command.add(added)
    return whole


def main(arguments: Optional[List[str]]) -> int:
    words = parser().parse_args(arguments)
    words.does(words)
    return 0


def command() -> int:
    return ends(own_name(), main)
