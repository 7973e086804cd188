"""A cell: its machines in the order in which they were first mentioned, and its running tasks."""
from typing import Iterable, NamedTuple

from .keys import TaskKey
from .need import NOTHING, Need, sum_of


class Spec(NamedTuple):
    """How a task is to run: what it needs, its precedence, and whether it wants a machine without others of its job."""
    need: Need
    prec: int
    differ: bool


class Task(NamedTuple):
    key: TaskKey
    machine: int
    spec: Spec


class Machine(NamedTuple):
    """A machine. Its attributes are never changed in place."""
    id: int
    up: bool
    cap: Need
    attrs: dict[bytes, bytes]


class Cell:
    """Machines by number, in order of first mention, and the running tasks, by machine and by name."""

    def __init__(self) -> None:
        self.by_id: dict[int, Machine] = {}
        self.on: dict[int, dict[TaskKey, Task]] = {}
        self.place: dict[TaskKey, int] = {}

    def copy(self) -> 'Cell':
        other = Cell()
        other.by_id = dict(self.by_id)
        other.on = {id: dict(tasks) for id, tasks in self.on.items()}
        other.place = dict(self.place)
        return other

    def machines(self) -> list[Machine]:
        return list(self.by_id.values())

    def machines_up(self) -> list[Machine]:
        return [machine for machine in self.by_id.values() if machine.up]

    def machine(self, id: int) -> Machine | None:
        return self.by_id.get(id)

    def machine_of(self, key: TaskKey) -> int | None:
        """The machine on which a task runs."""
        return self.place.get(key)

    def task(self, key: TaskKey) -> Task:
        return self.on[self.place[key]][key]

    def tasks_on(self, id: int) -> dict[TaskKey, Task]:
        return self.on.get(id, {})

    def tasks(self) -> list[Task]:
        """All running tasks, in order of name."""
        return [self.task(key) for key in sorted(self.place)]

    def ranked_on(self, id: int) -> list[Task]:
        """The tasks on a machine in the order of eviction: precedence, then job, then index."""
        return sorted(self.tasks_on(id).values(), key=lambda task: (task.spec.prec, task.key))

    def rest_on(self, id: int, gone: Iterable[TaskKey]) -> Need:
        """What the tasks on a machine use without those that go."""
        return sum_of(task.spec.need for key, task in self.tasks_on(id).items() if key not in gone)

    def used_on(self, id: int) -> Need:
        return self.rest_on(id, ())

    def used(self) -> Need:
        """What is used on all machines that are up."""
        return sum_of(self.used_on(machine.id) for machine in self.machines_up())

    def capacity(self) -> Need:
        """What there is on all machines that are up."""
        return sum_of(machine.cap for machine in self.machines_up())

    def capacity_of(self, id: int) -> Need:
        machine = self.machine(id)
        return machine.cap if machine else NOTHING

    def start(self, task: Task) -> None:
        self.on.setdefault(task.machine, {})[task.key] = task
        self.place[task.key] = task.machine

    def stop(self, key: TaskKey) -> None:
        del self.on[self.place.pop(key)][key]
