"""Writes what the study comes to, and looks whether what stands there is what its points say."""
import json
import os
import subprocess
import sys
from pathlib import Path
from typing import Dict, Iterator, List, NamedTuple, Optional, Sequence

from . import figures, running, spread, tables
from .common import BENCH, Refusal, digest_of_bytes, digest_of_files, measuring
from .points import FEW, MANY, Cell, Point, Study, runs_of, spoken

SYSTEM_PYTHON = '/usr/bin/python3'
FILES = ('busyness', 'conflicts', 'maps', 'scaling', 'load', 'windows', 'map-reduce', 'differences', 'use', 'speedup')


class Place(NamedTuple):
    """Where pages and figures lie."""
    docs: Path

    def figures(self) -> Path:
        return self.docs / 'figures'

    def page(self) -> Path:
        return self.docs / 'STUDY.md'

    def made(self) -> Path:
        return self.figures() / 'study.json'


def points_by() -> str:
    """The digest of what makes points of runs."""
    return digest_of_files([BENCH / 'studying' / 'spread.py'], BENCH)


# Writing.

def made_of(kept: running.Kept, study: Study, points: Sequence[Point], at_once: int) -> Dict[str, object]:
    runs = runs_of(points)
    seconds = sum(kept.runs[run.name()]['seconds'] for run in runs)
    return {'stamped': kept.program.is_stamped, 'points_by': points_by(), 'runs': len(runs),
            'traces_made': len({run.trace for run in runs}), 'traces': study.traces, 'few': study.few,
            'machines': study.cell.machines, 'hours': study.cell.hours, 'minutes': round(seconds / 60), 'at_once': at_once}


def write_points(kept: running.Kept, study: Study, place: Place, at_once: int) -> None:
    points = study.points()
    texts = spread.files_of(kept, points)
    place.figures().mkdir(parents=True, exist_ok=True)
    for name, text in texts.items():
        (place.figures() / name).write_text(text, encoding='utf-8')
    place.made().write_text(json.dumps(made_of(kept, study, points, at_once), indent=1) + '\n')


def rows_of(place: Place) -> figures.Rows:
    return {name: spread.rows_in(place.figures() / (name + '.csv')) for name in FILES}


def digests_of(place: Place) -> Dict[str, str]:
    return {name + '.csv': digest_of_bytes((place.figures() / (name + '.csv')).read_bytes()) for name in FILES}


def page_of(place: Place, rows: figures.Rows, made: Dict[str, object]) -> str:
    """The page with the tables of the points that are there."""
    page = place.page().read_text(encoding='utf-8')
    return tables.with_tables(page, tables.all_tables(rows, made, digests_of(place)))


def write_page(place: Place) -> None:
    page = page_of(place, rows_of(place), read_made(place))
    place.page().write_text(page, encoding='utf-8')


def read_made(place: Place) -> Dict[str, object]:
    try:
        found: Dict[str, object] = json.loads(place.made().read_text())
        return found
    except OSError as fault:
        raise Refusal('there are no points in %s; study.py all makes them' % place.figures()) from fault


def write_pictures(place: Place) -> None:
    rows = rows_of(place)
    for name, figure in figures.FIGURES.items():
        (place.figures() / (name + '.svg')).write_text(figures.drawn(name, rows[figure.of]), encoding='utf-8')


# A Python that draws: this one, or the system's.

def has_matplotlib(python: str) -> bool:
    return os.path.exists(python) and subprocess.run(
        [python, '-c', 'import matplotlib.figure'], capture_output=True, check=False).returncode == 0


def drawing_python() -> Optional[str]:
    return next((python for python in (sys.executable, SYSTEM_PYTHON) if has_matplotlib(python)), None)


def call_drawing(place: Place, *words: str) -> 'subprocess.CompletedProcess[str]':
    """Calls this script by a Python that has matplotlib."""
    python = drawing_python()
    if python is None:
        raise Refusal('figures need matplotlib: apt-get install python3-matplotlib')
    return subprocess.run([python, str(BENCH / 'study.py'), '--docs', str(place.docs), *words], stdout=subprocess.PIPE,
                          text=True, check=False)


# Checking.

def faults(place: Place) -> Iterator[str]:
    """What is wrong with points, tables and pictures, each in a line."""
    yield from faults_of_texts(place)
    yield from faults_of_pictures(place)


def faults_of_texts(place: Place) -> Iterator[str]:
    """What is wrong with points and tables."""
    made, rows = read_made(place), rows_of(place)
    yield from faults_of_sources(made, rows)
    yield from faults_of_plan(made, rows)
    yield from faults_of_points(rows)
    if page_of(place, rows, made) != place.page().read_text(encoding='utf-8'):
        yield 'the tables of %s are not those of its points' % place.page().name


def faults_of_sources(made: Dict[str, object], rows: figures.Rows) -> Iterator[str]:
    here = {'sources': running.sources(), 'scripts': measuring()}
    for column, says in (('sources', 'the program'), ('scripts', 'bench/tables.py or of what measures')):
        if any(row[column] != here[column] for name in FILES if name != 'differences' for row in rows[name]):
            yield 'the points are of another text of %s; run study.py all' % says
    if made['points_by'] != points_by():
        yield 'the points were made of their runs by another text; run study.py all'
    if not made['stamped']:
        yield 'nothing says that the program of the points was built of these sources; run study.py all'
    if len({row['program'] for name in FILES if name != 'differences' for row in rows[name]}) != 1:
        yield 'the points are of several programs; run study.py all'


def faults_of_plan(made: Dict[str, object], rows: figures.Rows) -> Iterator[str]:
    study = Study(Cell(int(str(made['machines'])), int(str(made['hours']))), int(str(made['traces'])), int(str(made['few'])))
    if not study.is_whole():
        yield 'the points are of %s and %s traces, and not of %d and %d; run study.py all' % (
            made['traces'], made['few'], MANY, FEW)
    meant = [(point.figure, ' '.join(point.workload.words()), ' '.join(spoken(point.words)), spread.seeds_of(point.runs()))
             for point in study.points()]
    there = [(row['figure'], row['workload'], row['words'], row['seeds'])
             for name in dict.fromkeys(point.figure for point in study.points()) for row in rows[name]]
    if meant != there:
        yield 'the points are not those of the plan; run study.py all'


def faults_of_points(rows: figures.Rows) -> Iterator[str]:
    """Points whose columns don't fit each other."""
    for name in FILES[:7]:
        for row in rows[name]:
            for kind in spread.KINDS.values():
                if not fits(row, kind):
                    yield '%s.csv: a point of %s doesn\'t fit its own counts: %s' % (name, kind, row['words'])


def fits(row: spread.Row, kind: str) -> bool:
    """Whether jobs are all counted, and a point with too many undecided ones is overtaken and has no waits."""
    came, decided, ended, late = (int(row['%s_%s' % (kind, count)]) for count in ('came', 'decided', 'ended', 'late'))
    is_overtaken = came - decided > spread.MOST_UNDECIDED * came or float(row[kind + '_beyond']) > spread.MOST_BEYOND
    return (came == decided + ended + late and min(decided, ended, late) >= 0 and
            row[kind + '_overtaken'] == ('yes' if is_overtaken else 'no') and
            not (is_overtaken and (row[kind + '_wait'] or row[kind + '_wait_90'])))


def faults_of_pictures(place: Place) -> Iterator[str]:
    python = drawing_python()
    if python is None:
        return
    said = call_drawing(place, '--pictures')
    yield from said.stdout.splitlines()
    if said.returncode != 0:
        yield 'the pictures couldn\'t be drawn for comparing'


def differing_pictures(place: Place) -> Iterator[str]:
    """Pictures that aren't those of the points, where they were drawn by the matplotlib that is here."""
    rows, here = rows_of(place), figures.matplotlib().__version__
    for name, figure in figures.FIGURES.items():
        path = place.figures() / (name + '.svg')
        there = path.read_text(encoding='utf-8') if path.exists() else ''
        if not there:
            yield 'there is no picture %s.svg' % name
        elif figures.version_in(there) == here and figures.drawn(name, rows[figure.of]) != there:
            yield 'the picture %s.svg is not that of its points' % name


def pictures_note(place: Place) -> str:
    """How pictures were compared."""
    if drawing_python() is None:
        return 'pictures are not compared: there is no matplotlib'
    return 'pictures are compared where the same matplotlib drew them'
