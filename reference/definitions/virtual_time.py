"""Histories in which deciding takes time, by a virtual clock in microseconds, and commits stand in order of time."""
from typing import NamedTuple

from .entries import Txn
from .feed import Round
from .growing import Growing
from .lawful import World
from .policy import SERVICES
from .settings import Settings
from .wishes import Request
from .workload import Workload


def decision(settings: Settings, scheduler: int, wishes: int) -> int:
    """How long a scheduler takes to decide on so many wishes: so much for the job, and so much more for each wish. The
    scheduler of services has times of its own."""
    if scheduler == SERVICES:
        return settings.service_t_job + settings.service_t_task * wishes
    return settings.t_job + settings.t_task * wishes


class Timed(NamedTuple):
    """A commit: its place in the history, its scheduler, when its copy was synced, and its time."""
    place: int
    scheduler: int
    sync: int
    time: int


def greatest_time(round: Round) -> int:
    return max(row.time for row in round.rows)


def base_of(round: Round, times: list[Timed]) -> int:
    """When a round begins: at the greatest time of its rows, or later, when the commits before it are over."""
    return max([greatest_time(round)] + [timed.time for timed in times[-1:]])


class Planned(NamedTuple):
    """An attempt on its way: when it will be committed and by whom, when the copy was synced and what it had seen."""
    time: int
    scheduler: int
    sync: int
    seen: int
    txn: Txn


def decide_on(request: Request, world: Growing, scheduler: int, sync: int) -> Planned:
    """What a scheduler that syncs at a time will commit for a request: planned on what stands there now."""
    time = sync + decision(world.workload.settings, scheduler, len(request.wishes))
    txn = world.attempt_on(request, scheduler, world.history.cell)
    return Planned(time, scheduler, sync, len(world.history), txn)


def decide(world: World, scheduler: int, sync: int) -> Planned | None:
    """What a scheduler that syncs at a time will commit, if it has work."""
    request = world.standings[scheduler].first()
    return decide_on(request, world, scheduler, sync) if request else None


def run_round(world: World, base: int, times: list[Timed]) -> None:
    """The commits of a round: all schedulers sync at its base; the one whose time comes first, of equals the one with
    the lower number, commits and syncs again at that time."""
    planned = {scheduler: decide(world, scheduler, base) for scheduler in world.with_work()}
    while planned:
        first = min(planned.values(), key=lambda plan: (plan.time, plan.scheduler))
        times.append(Timed(len(world.history), first.scheduler, first.sync, first.time))
        world.commit(first.scheduler, first.seen, first.txn)
        planned[first.scheduler] = decide(world, first.scheduler, first.time)
        planned = {scheduler: plan for scheduler, plan in planned.items() if plan}


def in_time(workload: Workload) -> tuple[World, list[Timed]]:
    """The one lawful history that goes by virtual time, and the times of its commits."""
    world, times = World(workload), []
    for round in workload.rounds:
        world.begin(round)
        run_round(world, base_of(round, times), times)
    return world, times
