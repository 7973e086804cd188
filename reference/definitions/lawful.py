"""Histories that are made of a trace's rounds, each with its rows and then the schedulers' attempts."""
from .cell import Cell
from .entries import Txn
from .feed import Round
from .growing import Growing
from .policy import schedulers
from .row_ends import RowEnds
from .work import Standing
from .workload import Workload


class World(Growing):
    """A history that is lawful so far: rounds begin, and then schedulers commit the attempts that are due. Who commits
    next, and what its copy has seen, is up to the caller."""

    def __init__(self, workload: Workload) -> None:
        super().__init__(workload, RowEnds(workload))
        self.opened_at = 0
        self.standings: dict[int, Standing] = {}

    def begin(self, round: Round) -> None:
        """The entries of a round, and what each scheduler is asked for after them."""
        self.open(round)
        self.opened_at = len(self.history)
        self.standings = {scheduler: Standing(self.workload.settings, self.requests(scheduler), self.history.failed)
                          for scheduler in range(schedulers(self.workload.settings))}

    def with_work(self) -> list[int]:
        """The schedulers that have anything left, by their numbers."""
        return [scheduler for scheduler, standing in self.standings.items() if standing.left]

    def attempt(self, scheduler: int, seen: Cell) -> Txn:
        """The attempt of a scheduler that is due, planned on a cell that its copy has seen."""
        return self.attempt_on(self.standings[scheduler].left[0], scheduler, seen)

    def commit(self, scheduler: int, seen: int, txn: Txn) -> None:
        """A scheduler commits the attempt that is due, its copy having seen so many entries."""
        commit = self.committed(scheduler, seen, txn)
        self.standings[scheduler].take(txn.claims, commit.reply)
