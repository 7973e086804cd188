"""Histories by a clock that waits for nobody: rounds open when their rows are due, whoever decides.

A scheduler that doesn't decide looks again whenever a round has opened or a task has ended of itself, and one that has
committed looks again at once. What it decides on is what remains of its pass, or a new pass where something has called
for one since the last began; where there is neither it rests."""
from typing import NamedTuple

from .feed import Round
from .growing import Growing
from .keys import TaskKey
from .own_ends import OwnEnds
from .passes import Pass
from .policy import schedulers
from .row_ends import Ends, RowEnds
from .still_wanted import wanted_claims
from .virtual_time import Planned, Timed, decide_on, greatest_time
from .workload import Workload

OPENING, END, COMMIT = range(3)


class Due(NamedTuple):
    """Something that is due at a time: an opening, the end of a task, or a commit; and of which round, task or
    scheduler. The least comes first: so at one time openings come before ends and ends before commits, ends go by the
    task's name, and commits by the scheduler's number."""
    time: int
    kind: int
    which: int | TaskKey


class FreeRun(Growing):
    """A run by the free clock, as far as it has come: the rounds that aren't open yet, how often something has called
    for new passes, the pass of each scheduler, what those that decide will commit, and the times of the commits."""

    def __init__(self, workload: Workload, ends: Ends) -> None:
        super().__init__(workload, ends)
        self.unopened: list[Round] = list(workload.rounds)
        self.calls = 0
        self.passes = {scheduler: Pass(workload.settings, [], {}, self.calls)
                       for scheduler in range(schedulers(workload.settings))}
        self.deciding: dict[int, Planned] = {}
        self.times: list[Timed] = []

    def is_over(self) -> bool:
        """Whether no round is left and nobody decides. What runs then goes on running."""
        return not self.unopened and not self.deciding

    def next_due(self) -> Due:
        """What happens next."""
        openings = [Due(greatest_time(round), OPENING, round.number) for round in self.unopened[:1]]
        ends = [Due(time, END, key) for time, key in self.ends.due(self.history.cell)]
        commits = [Due(planned.time, COMMIT, scheduler) for scheduler, planned in self.deciding.items()]
        return min(openings + ends + commits)

    def step(self) -> None:
        """The next thing happens, at its time, and then those sync that may."""
        time, kind, which = self.next_due()
        if kind == OPENING:
            self.open_next()
            self.sync_all(time)
        elif kind == END:
            self.end(which)
            self.sync_all(time)
        else:
            self.commit(which)
            self.sync(which, time)

    def open_next(self) -> None:
        """The next round opens, which calls for new passes."""
        self.open(self.unopened.pop(0))
        self.calls += 1

    def end(self, key: TaskKey) -> None:
        """A task ends of itself, which calls for new passes as long as a round is left."""
        for entry in self.ends.end(self.history.cell, key):
            self.history.add(entry)
        self.calls += 1 if self.unopened else 0

    def commit(self, scheduler: int) -> None:
        """A scheduler commits what it has decided, without claims for tasks that aren't wanted any more. Its copy had
        seen what stood there when it began to decide."""
        planned = self.deciding.pop(scheduler)
        self.times.append(Timed(len(self.history), scheduler, planned.sync, planned.time))
        commit = self.committed(scheduler, planned.seen, wanted_claims(self.wanted, planned.txn))
        self.ends.note(commit, planned.time)
        self.passes[scheduler].take(commit.txn.claims, commit.reply)

    def sync_all(self, time: int) -> None:
        """All that don't decide sync, in order."""
        for scheduler in self.passes:
            if scheduler not in self.deciding:
                self.sync(scheduler, time)

    def sync(self, scheduler: int, time: int) -> None:
        """A scheduler takes over what stands there now, and decides on what is first in its pass; where that is over,
        in a new one, if anything has called for it since. Else it rests."""
        request = self.passes[scheduler].wanted_first(self.wanted)
        if request is None and self.passes[scheduler].calls < self.calls:
            self.passes[scheduler] = self.new_pass(scheduler)
            request = self.passes[scheduler].wanted_first(self.wanted)
        if request:
            self.deciding[scheduler] = decide_on(request, self, scheduler, time)

    def new_pass(self, scheduler: int) -> Pass:
        """A pass through what a scheduler is asked for now."""
        return Pass(self.workload.settings, self.requests(scheduler), self.history.failed, self.calls)


def in_free_time(workload: Workload) -> tuple[FreeRun, list[Timed]]:
    """The one history by the free clock, and the times of its commits."""
    ends = OwnEnds(workload) if workload.settings.ends == 'own' else RowEnds(workload)
    run = FreeRun(workload, ends)
    while not run.is_over():
        run.step()
    return run, run.times
