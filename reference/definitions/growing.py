"""A history as it grows from a trace: rounds open with their rows, and what schedulers plan is committed."""
from .cell import Cell
from .entries import Commit, RoundBegins, Txn
from .feed import Round
from .requests import requests
from .row_ends import Ends
from .state import History
from .wanted import Wanted
from .wishes import Request
from .work import attempt
from .workload import Workload


class Growing:
    """The history so far of a workload, in which tasks end in one way. When rounds open, who commits and what its copy
    has seen is up to others."""

    def __init__(self, workload: Workload, ends: Ends) -> None:
        self.workload = workload
        self.ends = ends
        self.history = History()

    @property
    def wanted(self) -> Wanted:
        """The tasks that are wanted now."""
        return self.ends.wanted

    def open(self, round: Round) -> None:
        """The entry of a round and those of its rows in order, each on the cell by then."""
        self.history.add(RoundBegins(round.number))
        for row in round.rows:
            for entry in self.ends.row_entries(self.history.cell, row):
                self.history.add(entry)

    def requests(self, scheduler: int) -> list[Request]:
        """What a scheduler is asked for now."""
        return requests(self.workload, scheduler, self.history.cell, self.wanted, self.history.failed)

    def attempt_on(self, request: Request, scheduler: int, seen: Cell) -> Txn:
        """A scheduler's attempt on a request, planned on a cell that its copy has seen. Its number is how many commits
        the scheduler has made."""
        return attempt(self.workload, scheduler, self.history.commits.get(scheduler, 0), seen, request)

    def committed(self, scheduler: int, seen: int, txn: Txn) -> Commit:
        """A scheduler commits, its copy having seen so many entries, and gets the reply that is due."""
        commit = Commit(scheduler, seen, txn, self.history.reply_of(seen, txn))
        self.history.add(commit)
        return commit
