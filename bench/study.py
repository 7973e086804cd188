#!/usr/bin/env python3
"""Makes the runs of the study, and of them the points, figures and tables of docs/STUDY.md.

    bench/study.py --plan                   what there is to run, figure by figure
    bench/study.py all                      all of it: runs, points, tables and figures
    bench/study.py run [FIGURE..]           the runs alone, of some figures or of all; what is done is kept
    bench/study.py write                    points, tables and figures of the runs that are kept
    bench/study.py draw                     tables and figures of the points that stand in docs/figures
    bench/study.py --check                  whether points, tables and figures belong together and to these sources

It needs the program that `./omega.sh --prove` has built, and for figures matplotlib, which /usr/bin/python3 has from
Debian's python3-matplotlib. A study that was stopped goes on where it was; what changes the runs, as another program,
has them made anew. With --traces and --few the points are of fewer traces: for a quick look, and not for the page.
"""
import argparse
import os
import signal
import sys
from pathlib import Path
from typing import List, Optional

HERE = Path(__file__).resolve().parent
sys.path.insert(0, str(HERE))

from studying import checking, running  # noqa: E402
from studying.common import ROOT, Refusal  # noqa: E402
from studying.points import FEW, FIGURES, MANY, Cell, Study, plan_lines, runs_of  # noqa: E402

STEPS = ('all', 'run', 'write', 'draw')


def processors() -> int:
    return len(os.sched_getaffinity(0)) if hasattr(os, 'sched_getaffinity') else os.cpu_count() or 1


def parser() -> argparse.ArgumentParser:
    whole = argparse.ArgumentParser(prog='study.py', description=__doc__,
                                    formatter_class=argparse.RawDescriptionHelpFormatter)
    whole.add_argument('--program', metavar='PROGRAM', type=Path, default=ROOT / 'crates' / 'omega' / 'out' / 'omega',
                       help='the built program; that of omega.sh')
    whole.add_argument('--data', metavar='FOLDER', type=Path, default=HERE / 'out' / 'study',
                       help='where the lines of runs are kept, and traces while they are needed; bench/out/study')
    whole.add_argument('--docs', metavar='FOLDER', type=Path, default=ROOT / 'docs',
                       help='where STUDY.md and the folder figures are; docs')
    whole.add_argument('--traces', metavar='N', type=int, default=MANY, help='of a point; %(default)s')
    whole.add_argument('--few', metavar='N', type=int, default=FEW, help='of a point on maps and of scaling; %(default)s')
    whole.add_argument('--machines', metavar='N', type=int, default=2000, help='of the cell; %(default)s')
    whole.add_argument('--hours', metavar='N', type=int, default=6, help='how long a trace is; %(default)s')
    whole.add_argument('--at-once', metavar='N', type=int, default=processors(), help='so many runs at once; %(default)s')
    whole.add_argument('--plan', action='store_true', help='print what there is to run')
    whole.add_argument('--check', action='store_true', help='look whether what is there belongs together')
    whole.add_argument('--pictures', action='store_true', help=argparse.SUPPRESS)
    whole.add_argument('step', nargs='?', choices=STEPS)
    whole.add_argument('figures', metavar='FIGURE', nargs='*', help='for `run`: ' + ', '.join(FIGURES))
    return whole


def make(said: argparse.Namespace, study: Study) -> None:
    """The steps that need runs."""
    kept = running.Kept(said.data, running.program_of(said.program))
    if said.step == 'all' and checking.drawing_python() is None:
        raise Refusal('figures need matplotlib: apt-get install python3-matplotlib')
    if said.step in ('all', 'run'):
        points = [point for point in study.points() if not said.figures or point.figure in said.figures]
        running.make_runs(kept, runs_of(points), said.at_once)
    if said.step in ('all', 'write'):
        checking.write_points(kept, study, checking.Place(said.docs), said.at_once)


def draw(place: checking.Place) -> None:
    checking.write_page(place)
    if checking.call_drawing(place, '--pictures', 'draw').returncode != 0:
        raise Refusal('the figures couldn\'t be drawn')


def say(lines: List[str]) -> int:
    for line in lines:
        print('study.py: ' + line)
    return 1 if lines else 0


def main(words: Optional[List[str]] = None) -> int:
    said = parser().parse_args(words)
    study, place = Study(Cell(said.machines, said.hours), said.traces, said.few), checking.Place(said.docs)
    if said.pictures and said.step == 'draw':
        checking.write_pictures(place)
    elif said.pictures:
        for line in checking.differing_pictures(place):
            print(line)
    elif said.plan:
        for line in plan_lines(study.points()):
            print(line)
    elif said.check:
        print('study.py: ' + checking.pictures_note(place), file=sys.stderr)
        return say(list(checking.faults(place)))
    elif said.step is None or set(said.figures) - set(FIGURES):
        parser().error('there has to be one of %s; figures are %s' % (', '.join(STEPS), ', '.join(FIGURES)))
    else:
        if said.step != 'draw':
            make(said, study)
        if said.step != 'run':
            draw(place)
    return 0


def stopped(*_: object) -> None:
    sys.exit(143)


if __name__ == '__main__':
    signal.signal(signal.SIGTERM, stopped)
    try:
        sys.exit(main())
    except Refusal as refusal:
        sys.exit('study.py: %s' % refusal)
    except KeyboardInterrupt:
        sys.exit('study.py: interrupted; what is done is kept')
