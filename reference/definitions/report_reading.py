"""Whether a printed report is that of a lawful history, of schedulers on threads, in turns or in virtual time."""
import json
import re
from typing import Protocol

from .cell import Cell
from .feed import Round
from .lawful import World
from .policy import schedulers
from .report import FIRST_LINE, Line
from .report_forms import json_of, line_text
from .report_lines import entry_lines, last_lines, use_line
from .settings import Settings
from .state import apply
from .time_report import time_lines
from .trace import TraceTables
from .virtual_time import Timed, base_of, decision
from .workload import Workload


class Violation(Exception):
    """What in a report isn't so in any lawful history."""


class Printed:
    """The lines of a report, read once from the front."""

    def __init__(self, lines: list[str]) -> None:
        self.lines = lines
        self.at = 0

    def peek(self) -> str | None:
        return self.lines[self.at] if self.at < len(self.lines) else None

    def expect(self, lines: list[Line], why: str) -> None:
        """These lines must come next."""
        for line in lines:
            if self.peek() != line_text(line):
                raise Violation(f'line {self.at + 1} is {self.peek()!r} and has to be {line_text(line)!r}: {why}')
            self.at += 1

    def commit(self) -> tuple[int, int, int] | None:
        """The three numbers of the next line, where it is that of a commit."""
        line = self.peek()
        if line is None or not line.startswith('commit '):
            return None
        if not re.fullmatch('commit( (0|[1-9][0-9]*)){3}', line):
            raise Violation(f'line {self.at + 1} is no line of a commit: {line!r}')
        scheduler, seen, job = (int(word) for word in line.split(' ')[1:])
        return scheduler, seen, job

    def end(self) -> None:
        if self.peek() is not None:
            raise Violation(f'line {self.at + 1} is one too many: {self.peek()!r}')


def lines_in(format: str, data: bytes) -> list[str]:
    """The lines of a report in either form."""
    if not data.endswith(b'\n'):
        raise Violation('the last line has no line feed')
    if format == 'text':
        return data.decode('latin1').split('\n')[:-1]
    try:
        lines = [line_text(tuple(item)) for item in json.loads(data)]
    except (ValueError, TypeError):
        raise Violation('this is no JSON array of arrays') from None
    if json_of([line_of(text) for text in lines]) != data:
        raise Violation('the JSON is written otherwise than it has to be')
    return lines


def line_of(text: str) -> Line:
    """The words of a line of text; one of digits is a number."""
    return tuple(int(word) if re.fullmatch('[0-9]+', word) else word for word in text.split(' '))


class Order(Protocol):
    """What is asked of the commits of a round beside that they are lawful."""

    def begin(self, world: World, round: Round) -> None: ...

    def check(self, world: World, scheduler: int, seen: int) -> None: ...


class AnyOrder:
    """Threads: nothing more is asked."""

    def begin(self, world: World, round: Round) -> None:
        pass

    def check(self, world: World, scheduler: int, seen: int) -> None:
        pass


class TurnOrder:
    """Turns: commits stand in the order of turn and scheduler, and had seen what stood before their turn."""

    def begin(self, world: World, round: Round) -> None:
        self.taken: dict[int, int] = {}
        self.last = (-1, -1)
        self.starts: dict[int, int] = {}

    def check(self, world: World, scheduler: int, seen: int) -> None:
        turn = self.taken.get(scheduler, 0)
        self.taken[scheduler] = turn + 1
        if (turn, scheduler) <= self.last:
            raise Violation(f'turn {turn} of scheduler {scheduler} comes too late')
        self.last = (turn, scheduler)
        start = self.starts.setdefault(turn, len(world.history))
        if seen != start:
            raise Violation(f'the commit had seen {seen} entries, and its turn begins at {start}')


class TimeOrder:
    """Virtual time: commits stand in the order of time and scheduler, and had seen the round's rows and what stood up
    to their scheduler's own last commit. The times are kept."""

    def __init__(self) -> None:
        self.times: list[Timed] = []

    def begin(self, world: World, round: Round) -> None:
        base = base_of(round, self.times)
        self.synced = {scheduler: (base, world.opened_at) for scheduler in world.standings}
        self.last = (-1, -1)

    def check(self, world: World, scheduler: int, seen: int) -> None:
        sync, saw = self.synced[scheduler]
        wishes = world.standings[scheduler].left[0].wishes
        time = sync + decision(world.workload.settings, scheduler, len(wishes))
        if (time, scheduler) < self.last:
            raise Violation(f'the commit is of time {time}, and stands behind a later one')
        if seen != saw:
            raise Violation(f'the commit had seen {seen} entries, and its scheduler synced with {saw}')
        self.last = (time, scheduler)
        self.synced[scheduler] = time, len(world.history) + 1
        self.times.append(Timed(len(world.history), scheduler, sync, time))


class Judging:
    """A report is followed commit by commit: the scheduler and how much it had seen are taken from it, and all else
    must be as it is due."""

    def __init__(self, settings: Settings, trace: TraceTables, lines: list[str], order: Order) -> None:
        self.world = World(Workload(settings, trace))
        self.printed = Printed(lines)
        self.order = order
        self.shown, self.before = 0, Cell()

    def judge(self) -> None:
        self.printed.expect([FIRST_LINE], 'the first line')
        for round in self.world.workload.rounds:
            self.round(round)
        self.printed.expect(last_lines(self.world), 'what the history amounts to')
        if isinstance(self.order, TimeOrder):
            self.printed.expect(time_lines(self.world, self.order.times), 'busyness and waiting')
        self.printed.end()

    def show(self, why: str) -> None:
        """The lines of the entries that are new in the history must come next."""
        for entry in self.world.history.entries[self.shown:]:
            self.printed.expect(entry_lines(self.before, entry), why)
            apply(self.before, entry)
        self.shown = len(self.world.history)

    def round(self, round: Round) -> None:
        self.world.begin(round)
        self.show('a round and its rows')
        self.opening = self.before.copy()
        self.own_last: dict[int, int] = {}
        self.order.begin(self.world, round)
        while commit := self.printed.commit():
            self.commit(*commit)
        if self.world.with_work():
            raise Violation(f'line {self.printed.at + 1}: the round ends, and schedulers {self.world.with_work()} have '
                            'something left')
        self.printed.expect([use_line(self.world.history.cell)], 'the end of a round')

    def state_at(self, seen: int) -> Cell:
        """The cell after so many entries, not fewer than the round's rows."""
        cell = self.opening.copy()
        for entry in self.world.history.entries[self.world.opened_at:seen]:
            apply(cell, entry)
        return cell

    def commit(self, scheduler: int, seen: int, job: int) -> None:
        """A commit that the report tells: it may stand there, and what is told of its claims is what is due."""
        try:
            self.may_commit(scheduler, seen, job)
            self.order.check(self.world, scheduler, seen)
        except Violation as violation:
            raise Violation(f'line {self.printed.at + 1}: {violation}') from None
        self.world.commit(scheduler, seen, self.world.attempt(scheduler, self.state_at(seen)))
        self.own_last[scheduler] = len(self.world.history)
        self.show('the plan of this commit and what is answered to it')

    def may_commit(self, scheduler: int, seen: int, job: int) -> None:
        """There is such a scheduler; its copy had seen the round's rows and its own last commit, and no entry that
        wasn't there; and the job is that of the first request that it has left."""
        if scheduler >= schedulers(self.world.workload.settings):
            raise Violation(f'there is no scheduler {scheduler}')
        least = max(self.world.opened_at, self.own_last.get(scheduler, 0))
        if not least <= seen <= len(self.world.history):
            raise Violation(f'seen is {seen}, and has to be from {least} to {len(self.world.history)}')
        request = self.world.standings[scheduler].first()
        if request is None:
            raise Violation(f'scheduler {scheduler} has nothing left')
        if request.job != job:
            raise Violation(f'the first request of scheduler {scheduler} is that of job {request.job}')


def order_of(settings: Settings) -> Order:
    """What the command asks of the order of commits."""
    return {'run': AnyOrder, 'simulate': TimeOrder}.get(settings.command, TurnOrder)()


def violation_in(settings: Settings, trace: TraceTables, data: bytes, order: Order) -> str | None:
    """What in these bytes isn't so in any lawful history of the trace, or nothing where they are a report of one."""
    try:
        Judging(settings, trace, lines_in(settings.format, data), order).judge()
        return None
    except Violation as violation:
        return str(violation)
