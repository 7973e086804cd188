"""Settings and a trace, with what the other files look up in them again and again."""
from .columns import TaskRow
from .draws import Draws
from .eligible import Constraint
from .feed import feed, rounds
from .keys import TaskKey
from .settings import Settings
from .trace import TraceTables


class Workload:
    """The settings; the rounds; the last row for each machine's disk and each job's activities; the constraints of each
    task; the first task row of each job, by time, in that order; and the words from which starts are drawn."""

    def __init__(self, settings: Settings, trace: TraceTables) -> None:
        self.settings = settings
        self.rounds = rounds(trace, settings.window)
        self.disks = {row.machine: row.disk for row in trace.disks}
        self.activities = {row.job: row.activities for row in trace.activities}
        self.constraints: dict[TaskKey, list[Constraint]] = {}
        for row in trace.constraints:
            self.constraints.setdefault(row.key, []).append(row.constraint)
        self.first_rows: dict[int, TaskRow] = {}
        for row in feed(trace):
            if isinstance(row, TaskRow):
                self.first_rows.setdefault(row.key.job, row)
        self.draws = Draws(settings.seed)

    def constraints_of(self, key: TaskKey) -> tuple[Constraint, ...]:
        return tuple(self.constraints.get(key, ()))
