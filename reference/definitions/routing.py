"""Which scheduler works on a job."""
from .columns import TaskRow
from .policy import SERVICES, mapreduce_scheduler
from .settings import Settings

SERVICE_CLASSES = (2, 3)


def scheduler_by_class(settings: Settings, job: int, klass: int) -> int:
    """Services have the first scheduler, and a batch job one of the batch schedulers by its number."""
    return SERVICES if klass in SERVICE_CLASSES else 1 + job % settings.batch


def scheduler_of(settings: Settings, activities: dict[int, int], first_rows: dict[int, TaskRow], job: int) -> int:
    """A job that the table of activities names has the last scheduler, whatever number stands there. For all others the
    class of the job's first task row counts, whatever that row's code."""
    if job in activities:
        return mapreduce_scheduler(settings)
    return scheduler_by_class(settings, job, first_rows[job].klass)
