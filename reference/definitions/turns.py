"""Histories in which the schedulers take turns."""
from .lawful import World
from .workload import Workload


def take_turn(world: World) -> bool:
    """A turn: each scheduler that has work plans on the same state, and then these commit in order of their numbers.
    Answers whether anybody had work."""
    seen = len(world.history)
    planned = [(scheduler, world.attempt(scheduler, world.history.cell)) for scheduler in world.with_work()]
    for scheduler, txn in planned:
        world.commit(scheduler, seen, txn)
    return bool(planned)


def in_turns(workload: Workload) -> World:
    """The one lawful history in which the schedulers take turns."""
    world = World(workload)
    for round in workload.rounds:
        world.begin(round)
        while take_turn(world):
            pass
    return world
