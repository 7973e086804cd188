"""Figures made of reports, with pandas and matplotlib where those are there."""
import io
from typing import Any, Callable, Dict, List, NamedTuple, Optional, Sequence, Tuple

from .common import Refusal
from .reports import AMOUNTS, KINDS, Report
from .tables import HOUR, Window, conflict_rows, hours, rounds_table
from .waits import Wish

NAMES = {'cpu': 'CPU', 'mem': 'memory', 'disk': 'disk'}
STYLES = {'cpu': ('#0072b2', '-'), 'mem': ('#d55e00', '--'), 'disk': ('#009e73', ':'),
          'services': ('#cc3377', '-'), 'batch': ('#0072b2', '--'), 'MapReduce': ('#d08a00', ':')}
SPANS = [minutes * 60_000_000 for minutes in (5, 10, 15, 30, 60, 120, 180, 360, 720, 1440)]
MOST_SPANS = 72


def packages() -> Tuple[Any, Any]:
    """Pandas and the part of matplotlib that makes figures."""
    for name in ('pandas', 'matplotlib'):
        try:
            __import__(name)
        except ImportError as fault:
            raise Refusal('figures need the Python package %s, which this Python hasn\'t '
                          '(in Debian it is python3-%s, for /usr/bin/python3)' % (name, name)) from fault
    import matplotlib
    import matplotlib.figure
    import pandas
    matplotlib.rcParams.update({
        'svg.fonttype': 'none', 'svg.hashsalt': 'omega', 'font.family': 'sans-serif', 'font.size': 10,
        'font.sans-serif': ['DejaVu Sans', 'Helvetica', 'Arial', 'sans-serif'], 'axes.grid': True,
        'axes.spines.top': False, 'axes.spines.right': False, 'grid.color': '#dddddd', 'grid.linewidth': 0.6,
        'axes.axisbelow': True, 'legend.frameon': False, 'lines.linewidth': 1.6, 'path.simplify': True})
    return pandas, matplotlib.figure


Draw = Callable[[Any], None]    # onto axes


class Size(NamedTuple):
    width: float    # in inches
    height: float


WIDE = Size(7.2, 3.0)
NARROW = Size(3.9, 2.9)


def picture(draw: Draw, form: str = 'svg', size: Size = WIDE) -> bytes:
    """A figure as a file: svg, png or pdf."""
    _, figures = packages()
    figure = figures.Figure(figsize=size, layout='constrained')
    axes = figure.subplots()
    draw(axes)
    out = io.BytesIO()
    date = {'svg': {'Date': None}, 'pdf': {'CreationDate': None}}.get(form)
    figure.savefig(out, format=form, dpi=200, metadata=date)
    return out.getvalue()


def is_narrow(axes: Any) -> bool:
    return bool(axes.figure.get_figwidth() < 5)


def legend(axes: Any) -> None:
    """Above the axes, so that it hides nothing, in as many columns as there is room for."""
    handles, labels = axes.get_legend_handles_labels()
    narrow = is_narrow(axes)
    size, handle = (9, 1.6) if narrow else (10, 2.2)
    widest = (max(map(len, labels), default=0) * 0.62 + handle + 2) * size / 72    # of an entry, in inches
    room = axes.figure.get_figwidth() - 0.8
    axes.legend(handles, labels, loc='lower left', bbox_to_anchor=(0, 1), ncol=max(1, min(4, int(room / widest))),
                borderaxespad=0.2, handlelength=handle, columnspacing=1.2, fontsize=size)


def of_hours(axes: Any, first: float, last: float) -> None:
    """The axis of time."""
    axes.set_xlim(first, last)
    axes.xaxis.get_major_locator().set_params(nbins=6 if is_narrow(axes) else 12, steps=[1, 2, 3, 6, 10])
    axes.set_xlabel('hours of the trace')


def steps(axes: Any, at: Sequence[float], values: Sequence[float], name: str, label: str) -> None:
    """A line that stays level until the next value; the last place is where the last value ends."""
    colour, style = STYLES[name]
    axes.plot(at, [*values, values[-1]] if len(values) else [], drawstyle='steps-post', color=colour,
              linestyle=style, label=label)


def use_over_time(report: Report, window_of: Window) -> Draw:
    """What part of the cell is used where each round ends, until the next round ends."""
    pandas, _ = packages()
    columns, *rows = rounds_table(report, window_of)
    frame = pandas.DataFrame(rows, columns=columns).astype(float)

    def draw(axes: Any) -> None:
        if not len(frame):
            return
        ends = [*frame['hours'], hours(report.rounds[-1][0] + 1, window_of())]
        for amount in AMOUNTS:
            if frame[amount].any():
                steps(axes, ends, list(frame[amount]), amount, NAMES[amount])
        axes.set(ylabel='part in use', ylim=(0, 1.02))
        of_hours(axes, ends[0], ends[-1])
        legend(axes)
    return draw


def span_for(report: Report, window: int) -> int:
    """A length of spans of which there aren't too many, and which a window divides or is longer than."""
    whole = (report.rounds[-1][0] + 1 - report.rounds[0][0]) * window
    return next((span for span in SPANS if span >= window and whole <= span * MOST_SPANS), max(SPANS[-1], window))


def conflicts_over_time(report: Report, window_of: Window, per: Optional[int] = None) -> Draw:
    """Commits in conflict for each that placed something, by kind of scheduler. Where nothing was placed there
    is no line."""
    pandas, _ = packages()
    span = per or (span_for(report, window_of()) if report.rounds else HOUR)
    frame = pandas.DataFrame(conflict_rows(report, window_of, span),
                             columns=['hours', 'scheduler', 'commits', 'placing', 'conflicted'])
    frame = frame.astype({'hours': float, 'placing': float, 'conflicted': float})
    frame['kind'] = [report.kind(number) for number in frame['scheduler']]
    sums = frame.groupby(['kind', 'hours'])[['placing', 'conflicted']].sum()

    def draw(axes: Any) -> None:
        greatest = 0.0
        for kind in KINDS:
            if kind not in sums.index or not sums.loc[kind]['placing'].any():
                continue
            of_kind = sums.loc[kind]
            fractions = of_kind['conflicted'] / of_kind['placing'].where(of_kind['placing'] > 0)
            greatest = max(greatest, fractions.max())
            steps(axes, [*of_kind.index, of_kind.index[-1] + span / HOUR], list(fractions), kind, kind)
        axes.set(ylabel='conflicts per commit\nthat placed a task', ylim=(0, 1.1 * greatest or 1))
        if len(frame):
            of_hours(axes, frame['hours'].min(), frame['hours'].max() + span / HOUR)
            legend(axes)
    return draw


# Of an axis of times: seconds, their name, and whether a narrow figure has room for it.
Tick = Tuple[float, str, bool]
WAIT_TICKS: Tuple[Tick, ...] = (
    (0, '0', True), (60, '1 min', True), (300, '5 min', False), (600, '10 min', True),
    (1800, '30 min', False), (3600, '1 h', True), (10_800, '3 h', False), (36_000, '10 h', True),
    (86_400, '1 d', False), (360_000, '100 h', True))
SHORT_TICKS: Tuple[Tick, ...] = (
    (0, '0', True), (0.01, '10 ms', True), (0.1, '0.1 s', False), (1, '1 s', True), (10, '10 s', False),
    (60, '1 min', True), (600, '10 min', False), (3600, '1 h', True), (36_000, '10 h', False), (360_000, '100 h', True))


class Axis(NamedTuple):
    """An axis of times: what it says; up to which time it is linear, and how far it goes at least, in seconds; and its
    ticks."""
    says: str
    linear: float
    least: float
    ticks: Tuple[Tick, ...]


def of_times(axes: Any, axis: Axis, longest: float, of: str) -> None:
    """The axes of parts that come within a time."""
    axes.set_xscale('symlog', linthresh=axis.linear)
    ticks = [(at, name) for at, name, always in axis.ticks if at <= longest and (always or not is_narrow(axes))]
    axes.set_xticks([at for at, _ in ticks], [name for _, name in ticks])
    axes.minorticks_off()
    axes.set(xlabel=axis.says, ylabel='part of the %s' % of, ylim=(0, 1.02), xlim=(0, longest))
    legend(axes)


def shares(by_kind: Dict[str, Tuple[List[int], int]], axis: Axis, of: str) -> Draw:
    """Which part of some things of each kind comes within a time: the times of those that come, in microseconds, and
    how many there are."""
    pandas, _ = packages()

    def draw(axes: Any) -> None:
        longest = max([axis.least, *(1.05 * max(times) / 1e6 for times, _ in by_kind.values() if times)])
        for kind, (times, count) in by_kind.items():
            if not count:
                continue
            came = pandas.Series(times, dtype=float).div(1e6).value_counts().sort_index().cumsum() / count
            colour, style = STYLES[kind]
            axes.plot([0, *came.index, longest], [0, *came, came.iloc[-1] if len(came) else 0], drawstyle='steps-post',
                      color=colour, linestyle=style, label='%s (%s)' % (kind, '{:,}'.format(count)))
        of_times(axes, axis, longest, of)
    return draw


def waits_by_kind(wishes: Sequence[Wish]) -> Draw:
    """Which part of the tasks of each kind of job ran within a time. Those that never ran keep the line below 1."""
    by_kind = {}
    for kind in KINDS:
        waits = [wish.wait() for wish in wishes if wish.kind == kind]
        by_kind[kind] = [wait for wait in waits if wait is not None], len(waits)
    return shares(by_kind, Axis('wait until it first ran', 60, 600, WAIT_TICKS), 'tasks')


def shares_within(by_kind: Dict[str, List[int]], says: str, of: str) -> Draw:
    """Which part of what single times are told of comes within a time, for each kind of scheduler."""
    return shares({kind: (times, len(times)) for kind, times in by_kind.items()}, Axis(says, 0.01, 1, SHORT_TICKS), of)


# What such figures say of the waits of jobs and of decisions.
JOBS = ('wait until its scheduler began to decide on it', 'jobs')
DECISIONS = ('how long a decision took', 'commits')


def plain(name: str) -> str:
    """A name as matplotlib shows it: what stands between two dollars would be read as a formula."""
    return ''.join(letter if letter.isprintable() else '?' for letter in name).replace('$', r'\$')


def runs_beside(names: Sequence[str], values: Sequence[Dict[str, Optional[float]]], label: str) -> Draw:
    """A line for each run, with a point for each kind of scheduler. Runs are counted from 1; where there is
    room their names stand beside the numbers."""
    packages()
    numbers = [str(place) for place in range(1, len(names) + 1)]
    longer = ['%s   %s' % pair for pair in zip(map(plain, names), numbers)] if max(map(len, names)) <= 32 else numbers

    def draw(axes: Any) -> None:
        for kind, marker in zip(KINDS, 'os^'):
            points = [(value[kind], place) for place, value in enumerate(values) if value.get(kind) is not None]
            if points:
                axes.plot([x for x, _ in points], [y for _, y in points], marker, color=STYLES[kind][0], label=kind,
                          linestyle='none', markersize=6, clip_on=False)
        axes.set_yticks(range(len(names)), numbers if is_narrow(axes) else longer)
        axes.set(ylim=(len(names) - 0.5, -0.5), xlabel=label)
        axes.set_xlim(left=0)
        axes.grid(axis='y', color='#eeeeee')
        legend(axes)
    return draw


class Point(NamedTuple):
    """A value of several runs that differ in their seeds: where it stands, its mean and its range."""
    at: float
    mean: float
    least: float
    greatest: float


LINES = (('#cc3377', '-', 'o'), ('#0072b2', '--', 's'), ('#d08a00', '-.', '^'), ('#009e73', ':', 'D'))


def lines_of_runs(lines: Dict[str, List[Point]], labels: Tuple[str, str], logarithmic: Tuple[bool, bool],
                  level: Optional[float] = None) -> Draw:
    """A line for each name through the means, and around it the range. Axes may be logarithmic; a thin line
    marks a level."""
    packages()

    def draw(axes: Any) -> None:
        for (name, points), (colour, style, marker) in zip(lines.items(), LINES):
            points = sorted(points)
            at = [point.at for point in points]
            axes.plot(at, [point.mean for point in points], color=colour, linestyle=style, marker=marker, markersize=4.5,
                      label=name)
            axes.fill_between(at, [point.least for point in points], [point.greatest for point in points], color=colour,
                              alpha=0.15, linewidth=0)
        for is_logarithmic, scale in zip(logarithmic, (axes.set_xscale, axes.set_yscale)):
            if is_logarithmic:
                scale('log')
        if level is not None:
            axes.axhline(level, color='#888888', linewidth=0.8)
        axes.set(xlabel=labels[0], ylabel=labels[1])
        if logarithmic[0]:
            values = sorted({point.at for points in lines.values() for point in points})
            axes.set_xticks(values, ['%g' % value for value in values])
            axes.minorticks_off()
        if logarithmic[1]:
            axes.yaxis.set_major_formatter('{x:g}')
        else:
            axes.set_ylim(bottom=0)
        legend(axes)
    return draw
