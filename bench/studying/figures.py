"""The figures, each drawn from the rows of its file of points alone, the same bytes each time by the same matplotlib."""
import io
import re
from typing import Any, Callable, Dict, List, NamedTuple, Optional, Sequence, Tuple

from .common import Refusal
from .spread import MUCH_EMPTY, Row

AIMED_WAIT = 30     # seconds, which the published study aims at
COLOURS = ('#cc3377', '#0072b2', '#d08a00', '#009e73', '#56b4e9', '#333333')
STYLES = ('-', '--', '-.', ':', (0, (5, 1, 1, 1, 1, 1)), (0, (1, 1)))
MARKERS = 'os^Dvp'
KINDS = ('services', 'batch')


def matplotlib() -> Any:
    """The package, set so that what it draws depends on nothing of the machine."""
    try:
        import matplotlib as package
        import matplotlib.figure
    except ImportError as fault:
        raise Refusal('figures need the Python package matplotlib (in Debian python3-matplotlib, for /usr/bin/python3)'
                      ) from fault
    package.rcdefaults()
    package.rcParams.update({
        'svg.fonttype': 'none', 'svg.hashsalt': 'omega-study', 'font.family': 'sans-serif', 'font.size': 9,
        'font.sans-serif': ['DejaVu Sans', 'Helvetica', 'Arial', 'sans-serif'], 'axes.grid': True,
        'axes.spines.top': False, 'axes.spines.right': False, 'grid.color': '#dddddd', 'grid.linewidth': 0.6,
        'axes.axisbelow': True, 'legend.frameon': False, 'lines.linewidth': 1.4, 'axes.titlesize': 10})
    return package


def version_in(picture: str) -> Optional[str]:
    """Which matplotlib has drawn a picture."""
    found = re.search(r'Matplotlib v([0-9.]+)', picture)
    return found.group(1) if found else None


def number(row: Row, column: str) -> Optional[float]:
    return float(row[column]) if row.get(column) else None


class Dot(NamedTuple):
    at: float
    value: Optional[float]
    half: Optional[float]
    is_overtaken: bool
    is_empty: bool      # whether much of the time of decisions went into commits without claims


class Line(NamedTuple):
    label: str
    dots: List[Dot]


def dots(rows: Sequence[Row], kind: str, measure: str, at: Callable[[Row], float]) -> List[Dot]:
    column = '%s_%s' % (kind, measure)
    found = [Dot(at(row), number(row, column), number(row, column + '_95'), row[kind + '_overtaken'] == 'yes',
                 (number(row, kind + '_empty_share') or 0) > MUCH_EMPTY) for row in rows]
    return sorted(found, key=lambda dot: dot.at)


def chosen(rows: Sequence[Row], **words: str) -> List[Row]:
    return [row for row in rows if all(row[name.replace('_', '-')] == value for name, value in words.items())]


def decision(row: Row) -> float:
    return int(row['service-t-job']) / 1e6


# Parts of figures.

def shade(axes: Any, known: Sequence[Dot], colour: str) -> None:
    """The intervals of points that have values."""
    edges = [((dot.value or 0.0) - (dot.half or 0.0), (dot.value or 0.0) + (dot.half or 0.0)) for dot in known]
    axes.fill_between([dot.at for dot in known], [low for low, _ in edges], [high for _, high in edges], color=colour,
                      alpha=0.15, linewidth=0)


def put_line(axes: Any, line: Line, place: int) -> None:
    """A line through the points, and around it their intervals. Points of those that are overtaken are hollow; one that
    has no value stands at the upper edge. A cross marks much time for empty commits."""
    colour, style, marker = COLOURS[place % 6], STYLES[place % 6], MARKERS[place % 6]
    known = [dot for dot in line.dots if dot.value is not None]
    axes.plot([dot.at for dot in known], [dot.value for dot in known], color=colour, linestyle=style, marker='none',
              label=line.label)
    shade(axes, known, colour)
    for dot in known:
        axes.plot([dot.at], [dot.value], marker, color=colour, markersize=4.5,
                  markerfacecolor='white' if dot.is_overtaken else colour)
    for dot in line.dots:
        if dot.value is None and dot.is_overtaken:
            axes.plot([dot.at], [0.99 - 0.05 * place], marker, color=colour, markersize=4.5, markerfacecolor='white',
                      transform=axes.get_xaxis_transform())
        elif dot.is_empty and dot.value is not None:
            axes.plot([dot.at], [dot.value], 'x', color='black', markersize=7, markeredgewidth=0.8)


def logarithmic(axes: Any, values: Sequence[float]) -> None:
    ticks = sorted(set(values))
    axes.set_xscale('log')
    axes.set_xticks(ticks, ['%g' % value for value in ticks])
    axes.minorticks_off()
    if any(after < 2.5 * value for value, after in zip(ticks, ticks[1:])):
        axes.tick_params(axis='x', labelrotation=60)


def legend(figure: Any, axes: Any, columns: int) -> None:
    handles, labels = axes.get_legend_handles_labels()
    figure.legend(handles, labels, loc='upper center', ncol=columns, fontsize=9)


class Panel(NamedTuple):
    title: str
    lines: List[Line]
    ylabel: str
    is_log: bool = False
    level: Optional[float] = None


def panels(figure: Any, parts: Sequence[Panel], xlabel: str, is_log: bool = True, columns: int = 4) -> None:
    """Axes beside each other, with one legend above them."""
    put_panels(figure, parts, xlabel, (1, len(parts)), is_log, columns)


def panels_below(figure: Any, parts: Sequence[Panel], xlabel: str) -> None:
    """The parts of the one kind above those of the other."""
    put_panels(figure, parts, xlabel, (2, len(parts) // 2), True, 4)


def put_panels(figure: Any, parts: Sequence[Panel], xlabel: str, shape: Tuple[int, int], is_log: bool, columns: int) -> None:
    figure.set_layout_engine('constrained', rect=(0, 0, 1, 1 - 0.28 / figure.get_figheight()))
    every = figure.subplots(*shape, squeeze=False)
    for axes, part in zip(every.flat, parts):
        put_panel(axes, part, is_log)
    for axes in every[-1]:
        axes.set_xlabel(xlabel)
    legend(figure, every[0][0], columns)


def put_panel(axes: Any, part: Panel, is_log: bool) -> None:
    for place, line in enumerate(part.lines):
        put_line(axes, line, place)
    if is_log:
        logarithmic(axes, [dot.at for line in part.lines for dot in line.dots])
    if part.is_log:
        axes.set_yscale('log')
        axes.yaxis.set_major_formatter('{x:g}')
    else:
        axes.set_ylim(bottom=0)
    if part.level is not None:
        axes.axhline(part.level, color='#888888', linewidth=0.8)
    axes.set(title=part.title, ylabel=part.ylabel)


# The figures.

Rows = Dict[str, List[Row]]     # by the name of the file
BY_DECISION = 'decision time of a service, s'
ENDS = (('free, own ends', 'free', 'own'), ('free, ends of the trace', 'free', 'trace'), ('rounds', 'rounds', 'trace'))
CONFLICTS = 'conflicts for each commit\nthat placed a task'


def of_decisions(rows: Sequence[Row], kind: str, measure: str) -> List[Line]:
    return [Line(label, dots(chosen(rows, clock=clock, ends=ends), kind, measure, decision)) for label, clock, ends in ENDS]


def busyness(figure: Any, rows: Rows) -> None:
    panels(figure, [Panel(kind, of_decisions(rows['busyness'], kind, 'busy'), 'part of the time\nthat schedulers decide',
                          level=1) for kind in KINDS], BY_DECISION)


def waits(figure: Any, rows: Rows) -> None:
    parts = []
    for kind in KINDS:
        for measure, says in (('wait', 'mean wait, s'), ('wait_90', '90 per cent wait\nno longer than, s')):
            parts.append(Panel(kind, of_decisions(rows['busyness'], kind, measure), says, True, AIMED_WAIT))
    panels_below(figure, parts, BY_DECISION)


def conflicts(figure: Any, rows: Rows) -> None:
    parts = []
    for kind in KINDS:
        lines = [Line('%s, %s' % (rule, mode), dots(chosen(rows['conflicts'], rule=rule, mode=mode), kind,
                                                   'conflict_fraction', decision))
                 for rule in ('fine', 'coarse') for mode in ('incremental', 'gang')]
        parts.append(Panel(kind, lines, CONFLICTS))
    panels(figure, parts, BY_DECISION)


def maps(figure: Any, rows: Rows) -> None:
    """Two maps of colours, with the value in each field; one of those that are overtaken has it in brackets."""
    figure.set_layout_engine('constrained')
    every = figure.subplots(1, 2)
    own = rows['maps']
    jobs, tasks = (sorted({int(row[name]) for row in own}) for name in ('service-t-job', 'service-t-task'))
    by_place = {(int(row['service-t-job']), int(row['service-t-task'])): row for row in own}
    for axes, measure, title in zip(every, ('busy', 'conflict_fraction'), (
            'busyness of services', 'conflicts of services for each\ncommit that placed a task')):
        values = [[number(by_place[job, task], 'services_' + measure) or 0.0 for job in jobs] for task in tasks]
        greatest = max(max(line) for line in values) or 1.0
        image = axes.imshow(values, origin='lower', aspect='auto', cmap='viridis', vmin=0, vmax=greatest)
        for y, task in enumerate(tasks):
            for x, job in enumerate(jobs):
                form = '(%.2f)' if by_place[job, task]['services_overtaken'] == 'yes' else '%.2f'
                axes.text(x, y, form % values[y][x], ha='center', va='center', fontsize=8,
                          color='white' if values[y][x] < 0.6 * greatest else 'black')
        axes.set_xticks(range(len(jobs)), ['%g' % (job / 1e6) for job in jobs])
        axes.set_yticks(range(len(tasks)), ['%g' % (task / 1e6) for task in tasks])
        axes.set(title=title, xlabel='time for a job, s', ylabel='time for a task, s')
        axes.grid(False)
        figure.colorbar(image, ax=axes)


def scaling(figure: Any, rows: Rows) -> None:
    numbers = sorted({int(row['batch']) for row in rows['scaling']})
    parts = []
    for measure, says in (('conflict_fraction', CONFLICTS), ('busy', 'part of the time\nthat a batch scheduler decides')):
        lines = [Line('%d' % batch, dots(chosen(rows['scaling'], batch=str(batch)), 'batch', measure,
                                         lambda row: float(row['rate']))) for batch in numbers]
        parts.append(Panel('by the number of batch schedulers', lines, says))
    panels(figure, parts, 'rate of batch jobs, as a multiple of the usual one', columns=6)
    for axes in figure.axes:
        axes.tick_params(axis='x', labelrotation=60, labelsize=8)


def load(figure: Any, rows: Rows) -> None:
    parts = []
    for kind in KINDS:
        lines = [Line('%s rule' % rule, dots(chosen(rows['load'], rule=rule), kind, 'conflict_fraction',
                                            lambda row: float(row['load']))) for rule in ('fine', 'coarse')]
        parts.append(Panel(kind, lines, CONFLICTS))
    panels(figure, parts, 'part of the CPU in use', False)


def windows(figure: Any, rows: Rows) -> None:
    parts = []
    for kind in KINDS:
        for measure, says in (('conflict_fraction', CONFLICTS), ('wait', 'mean wait, s'), (
                'empty_share', 'part of the decision time\nfor commits without claims')):
            lines = [Line(label, dots(chosen(rows['windows'], clock=clock), kind, measure,
                                      lambda row: int(row['window']) / 1e6))
                     for label, clock in (('free, own ends', 'free'), ('rounds', 'rounds'))]
            parts.append(Panel(kind, lines, says, measure == 'wait', AIMED_WAIT if measure == 'wait' else None))
    panels_below(figure, parts, 'window, s')


def use(figure: Any, rows: Rows) -> None:
    lines = [Line(policy, [Dot(float(row['hours']), number(row, 'use'), number(row, 'use_95'), False, False)
                           for row in rows['use'] if row['policy'] == policy]) for policy in policies(rows['use'])]
    plain(figure, lines, ('hours', 'part of the CPU in use'), (0, 1.02))


def speedup(figure: Any, rows: Rows) -> None:
    lines = []
    for policy in policies(rows['speedup']):
        own = [row for row in rows['speedup'] if row['policy'] == policy and row['ratio']]
        lines.append(Line(policy, [Dot(float(row['ratio']), float(row['quantile']), None, False, False) for row in own]))
    plain(figure, lines, ('own and extra tasks, for each own one', 'part of the MapReduce jobs'), (0, 1.02))


def policies(rows: Sequence[Row]) -> List[str]:
    return list(dict.fromkeys(row['policy'] for row in rows))


def plain(figure: Any, lines: Sequence[Line], labels: Tuple[str, str], limits: Tuple[float, float]) -> None:
    """Lines without marks for their points, which are many."""
    figure.set_layout_engine('constrained', rect=(0, 0, 1, 1 - 0.28 / figure.get_figheight()))
    axes = figure.subplots()
    for place, line in enumerate(lines):
        known = [dot for dot in line.dots if dot.value is not None]
        colour = COLOURS[place]
        axes.plot([dot.at for dot in known], [dot.value for dot in known], color=colour, linestyle=STYLES[place],
                  label=line.label)
        if any(dot.half for dot in known):
            shade(axes, known, colour)
    axes.set(xlabel=labels[0], ylabel=labels[1], ylim=limits)
    axes.set_xlim(left=min([1.0, *(dot.at for line in lines for dot in line.dots)]))
    legend(figure, axes, 4)


class Figure(NamedTuple):
    draw: Callable[[Any, Rows], None]
    of: str                     # the file of points
    size: Tuple[float, float]   # in inches


FIGURES = {
    'busyness': Figure(busyness, 'busyness', (7.6, 3.1)), 'waits': Figure(waits, 'busyness', (7.6, 5.4)),
    'conflicts': Figure(conflicts, 'conflicts', (7.6, 3.1)), 'maps': Figure(maps, 'maps', (8.6, 3.2)),
    'scaling': Figure(scaling, 'scaling', (8.6, 3.4)), 'load': Figure(load, 'load', (7.6, 3.1)),
    'windows': Figure(windows, 'windows', (10.0, 5.8)), 'use': Figure(use, 'use', (6.4, 3.1)),
    'speedup': Figure(speedup, 'speedup', (6.4, 3.1))}


def drawn(name: str, rows: List[Row]) -> str:
    """A figure as the text of an SVG file."""
    package = matplotlib()
    each = FIGURES[name]
    figure = package.figure.Figure(figsize=each.size)
    each.draw(figure, {each.of: rows})
    out = io.BytesIO()
    figure.savefig(out, format='svg', metadata={'Date': None})
    return out.getvalue().decode('utf-8')
