"""How tasks end: in one of two ways, of which this file has the usual one, by the rows of the trace."""
from typing import Protocol

from .cell import Cell
from .entries import Commit, Entry
from .feed import Row
from .keys import TaskKey
from .row_entries import row_entries
from .wanted import Wanted, take_row
from .workload import Workload


class Ends(Protocol):
    """A way in which tasks end, with which tasks are wanted by the rows that were applied so far."""
    wanted: Wanted

    def row_entries(self, cell: Cell, row: Row) -> list[Entry]:
        """A row is applied; the entries that it gives on a cell."""

    def note(self, commit: Commit, time: int) -> None:
        """A commit at a time, whose tasks may come to an end by it."""

    def due(self, cell: Cell) -> list[tuple[int, TaskKey]]:
        """The running tasks that end without a row, each behind the time at which it does."""

    def end(self, cell: Cell, key: TaskKey) -> list[Entry]:
        """One of these ends; the entries of that."""


class RowEnds:
    """Tasks end with the rows that end them, and never without one."""

    def __init__(self, workload: Workload) -> None:
        self.workload = workload
        self.wanted: Wanted = {}

    def row_entries(self, cell: Cell, row: Row) -> list[Entry]:
        take_row(self.wanted, row)
        return row_entries(self.workload, cell, self.wanted, row)

    def note(self, commit: Commit, time: int) -> None:
        pass

    def due(self, cell: Cell) -> list[tuple[int, TaskKey]]:
        return []

    def end(self, cell: Cell, key: TaskKey) -> list[Entry]:
        raise AssertionError('no task ends without a row')
