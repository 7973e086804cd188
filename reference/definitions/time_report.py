"""What the lines of busyness and waiting say, and those that tell the time of each commit."""
from typing import NamedTuple

from .feed import Round
from .growing import Growing
from .policy import schedulers
from .report import Line
from .virtual_time import Timed, greatest_time


class First(NamedTuple):
    """The first commit for a job: by which scheduler, when the job's first task row was, and when the scheduler synced
    for the commit."""
    job: int
    scheduler: int
    arrived: int
    sync: int


def firsts(world: Growing, times: list[Timed]) -> list[First]:
    """The first commits of the jobs that have any, in order."""
    out: dict[int, First] = {}
    for timed in times:
        job = world.history.entries[timed.place].txn.job
        out.setdefault(job, First(job, timed.scheduler, world.workload.first_rows[job].time, timed.sync))
    return list(out.values())


def busy(scheduler: int, times: list[Timed]) -> int:
    """How long a scheduler decided: the time from each sync to its commit."""
    return sum(timed.time - timed.sync for timed in times if timed.scheduler == scheduler)


def span(rounds: list[Round], times: list[Timed]) -> int:
    """From the greatest time of the first round's rows to that of the last one's, or to the last commit, if that is
    later."""
    if not rounds:
        return 0
    until = max([greatest_time(rounds[-1])] + [timed.time for timed in times[-1:]])
    return until - greatest_time(rounds[0])


def waits(scheduler: int, firsts: list[First]) -> list[int]:
    """For each job of a scheduler that has a commit, how long it waited: from its first task row until the scheduler
    synced for its first commit."""
    return [first.sync - first.arrived for first in firsts if first.scheduler == scheduler]


def sum_lines(world: Growing, times: list[Timed]) -> list[Line]:
    """The two lines of each scheduler, in order."""
    lines: list[Line] = []
    whole = span(world.workload.rounds, times)
    for scheduler in range(schedulers(world.workload.settings)):
        waited = waits(scheduler, firsts(world, times))
        lines.append(('busy', scheduler, busy(scheduler, times), whole))
        lines.append(('wait', scheduler, len(waited), sum(waited)))
    return lines


def single_lines(world: Growing, times: list[Timed]) -> list[Line]:
    """A line for each commit, by its number from 0, and then one for each job that has a commit."""
    return [*(('time', number, timed.scheduler, timed.sync, timed.time) for number, timed in enumerate(times)),
            *(('first', *first) for first in firsts(world, times))]


def time_lines(world: Growing, times: list[Timed]) -> list[Line]:
    """What is told of times: the sums, and the single times where they are asked for."""
    single = single_lines(world, times) if world.workload.settings.times == 'yes' else []
    return sum_lines(world, times) + single
