"""The lines of a report as objects with names."""
import json
from typing import Callable, Dict, Iterable, Iterator, List, Optional, Union

from .reports import COUNTS, FIRST_EXTRA, Line, use_of

Event = Dict[str, Union[int, str, float, None]]

# The names of the numbers of a line, in order.
NAMES = {
    'omega': ('form',), 'round': ('round',), 'commit': ('scheduler', 'seen', 'job'),
    'evict': ('job', 'index', 'machine'), 'place': ('job', 'index', 'machine'),
    'refuse': ('job', 'index', 'machine'), 'displace': ('job', 'index', 'machine'), 'end': ('job', 'index', 'machine'),
    'entries': ('entries', 'rounds'), 'scheduler': ('scheduler',) + COUNTS, 'waiting': ('waiting', 'abandoned'),
    'busy': ('scheduler', 'busy', 'span'), 'wait': ('scheduler', 'jobs', 'wait'),
    'time': ('commit', 'scheduler', 'sync', 'committed'), 'first': ('job', 'scheduler', 'arrived', 'sync'),
}

# The names of what stands behind the reason of a refusal.
REASONS = {
    'no-machine': (), 'running': ('runs_on',), 'changed': ('now', 'copy'), 'victim-rank': ('victim_job', 'victim_index'),
    'same-job': ('other_job', 'other_index'), 'full': ('free_cpu', 'free_mem', 'free_disk'),
    'withdrawn': ('claim',),
}


def event_of(line: Line) -> Event:
    """The names and numbers of one line."""
    kind = str(line[0])
    event: Event = {}
    numbers: List[int] = [word for word in line if isinstance(word, int)]
    if kind == 'use':
        for amount, (used, whole) in use_of(line).items():
            event[amount + '_used'], event[amount + '_whole'] = used, whole
        return event
    event.update(zip(NAMES[kind], numbers))
    if kind == 'refuse':
        event['reason'] = str(line[4])
        event.update(zip(REASONS[str(line[4])], numbers[3:]))
    if 'index' in event:
        event['extra'] = numbers[1] >= FIRST_EXTRA
    return event


def events_of(lines: Iterable[Line], window_of: Callable[[], int]) -> Iterator[Event]:
    """Each line with its round, the time at which that begins, in microseconds, and its commit: the place
    among all commits, from 0, with its scheduler. What belongs to no round or no commit has none. How long a round is
    is asked for with the first of them."""
    place, at = -1, {}  # type: int, Event
    window: Optional[int] = None
    commit: Event = {}
    for line in lines:
        kind = line[0]
        if kind == 'round':
            window = window_of() if window is None else window
            at, commit = {'round': int(line[1]), 'time': int(line[1]) * window}, {}
        elif kind == 'commit':
            place += 1
            commit = {'commit': place, 'scheduler': line[1]}
        elif kind == 'entries':
            at, commit = {}, {}
        elif kind in ('use', 'end'):
            commit = {}
        yield {'event': str(kind), **at, **commit, **event_of(line)}


def json_lines_of(lines: Iterable[Line], window_of: Callable[[], int]) -> Iterator[str]:
    for event in events_of(lines, window_of):
        yield json.dumps(event, separators=(',', ':')) + '\n'
