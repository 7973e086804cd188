"""Histories as threads make them: each scheduler takes over, plans and commits at its own pace."""
import random

from .lawful import World
from .workload import Workload


def in_any_order(workload: Workload, order: random.Random) -> World:
    """Some lawful history: again and again one of the schedulers that have work, chosen at random, goes a step on. It
    plans on what stands by now, or commits what it has planned."""
    world = World(workload)
    for round in workload.rounds:
        world.begin(round)
        planned: dict = {}
        while schedulers := world.with_work():
            scheduler = order.choice(schedulers)
            if scheduler in planned:
                world.commit(scheduler, *planned.pop(scheduler))
            else:
                planned[scheduler] = len(world.history), world.attempt(scheduler, world.history.cell)
    return world
