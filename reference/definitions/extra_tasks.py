"""The extra tasks of MapReduce jobs: which are asked for, and when they end."""
from .cell import Cell, Spec
from .entries import End
from .extras import extras
from .keys import FIRST_EXTRA, TaskKey
from .wanted import Wanted, wanted_of
from .wishes import Wish
from .workload import Workload


def running_extras(cell: Cell, job: int) -> list[TaskKey]:
    """The running extras of a job, by index."""
    return sorted(key for key in cell.place if key.job == job and key.index >= FIRST_EXTRA)


def free_indexes(held: set[int], count: int) -> list[int]:
    """So many of the least indexes of extras that aren't held."""
    return [index for index in range(FIRST_EXTRA, FIRST_EXTRA + len(held) + count) if index not in held][:count]


def extra_wishes(workload: Workload, cell: Cell, wanted: Wanted, asked: list[TaskKey]) -> list[Wish]:
    """The wishes for new extras of a job of which these tasks are wanted: none where the table of activities doesn't
    name it. Each needs what the wanted task with the least index needs, has that task's constraints and precedence 0,
    and may run beside others of its job."""
    job = asked[0].job
    if job not in workload.activities:
        return []
    running, need = running_extras(cell, job), wanted[asked[0]].need
    count = extras(workload.settings, workload.activities[job], len(asked), len(running), need, cell.used(),
                   cell.capacity())
    return [Wish(TaskKey(job, index), Spec(need, 0, False), workload.constraints_of(asked[0]))
            for index in free_indexes({key.index for key in running}, count)]


def ends_of_extras(cell: Cell, wanted: Wanted, job: int) -> list[End]:
    """The ends of a job's running extras, by index, once no task of it is wanted any more."""
    if wanted_of(wanted, job):
        return []
    return [End(key, cell.place[key]) for key in running_extras(cell, job)]
