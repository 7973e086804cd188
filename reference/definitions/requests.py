"""What a scheduler is asked to place."""
from .cell import Cell
from .extra_tasks import extra_wishes
from .keys import TaskKey
from .routing import scheduler_of
from .settings import Settings
from .wanted import Wanted, by_job
from .wishes import Request, Wish
from .workload import Workload


def wishes_of(workload: Workload, cell: Cell, wanted: Wanted, asked: list[TaskKey]) -> list[Wish]:
    """The wishes of a job of which these tasks are wanted: those that don't run, by index, and then its extras."""
    own = [Wish(key, wanted[key], workload.constraints_of(key)) for key in asked if cell.machine_of(key) is None]
    return own + extra_wishes(workload, cell, wanted, asked)


def is_given_up(settings: Settings, failed: dict[int, int], job: int) -> bool:
    """Whether a job is given up: so many commits for it in a row placed nothing."""
    return failed.get(job, 0) >= settings.give_up


def requests(workload: Workload, scheduler: int, cell: Cell, wanted: Wanted, failed: dict[int, int]) -> list[Request]:
    """The requests of a scheduler: its jobs in the order of their first task row in the whole trace, without those that
    are given up and those that wish for nothing."""
    out, asked = [], by_job(wanted)
    for job in workload.first_rows:
        if (job in asked and not is_given_up(workload.settings, failed, job) and scheduler == scheduler_of(
                workload.settings, workload.activities, workload.first_rows, job)):
            wishes = wishes_of(workload, cell, wanted, asked[job])
            if wishes:
                out.append(Request(job, wishes))
    return out
