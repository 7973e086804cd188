"""How tasks end where each runs for as long as it did in the trace, however late it was placed."""
from collections import Counter

from .cell import Cell
from .columns import TaskRow
from .entries import Commit, Entry
from .feed import Row
from .keys import TaskKey
from .pieces import Piece, pieces, task_rows
from .row_entries import end_entries, row_entries
from .wanted import ENDS, Wanted, take_row
from .workload import Workload


def current(ended: int, pieces: list[Piece]) -> Piece | None:
    """Of the pieces of a task that has ended so often the one that it is in, if there is one: that of this number, from
    0."""
    return pieces[ended] if ended < len(pieces) else None


def counting(ended: int, applied: list[TaskRow]) -> list[TaskRow]:
    """Of the rows of a task that were applied those that count: those of its current piece which don't end it. Rows of
    a later piece wait until the task has ended; those of an earlier one are over."""
    piece = current(ended, pieces(applied))
    return [row for row in piece.rows if row.code not in ENDS] if piece else []


class OwnEnds:
    """For each task its pieces in the whole trace and the rows that were applied, how often it has ended, and when it
    was placed last."""

    def __init__(self, workload: Workload) -> None:
        self.workload = workload
        self.wanted: Wanted = {}
        self.pieces = {key: pieces(rows) for key, rows in task_rows(workload.rounds).items()}
        self.applied: dict[TaskKey, list[TaskRow]] = {key: [] for key in self.pieces}
        self.ended: Counter[TaskKey] = Counter()
        self.placed: dict[TaskKey, int] = {}

    def row_entries(self, cell: Cell, row: Row) -> list[Entry]:
        """No row of tasks gives any, since none of them ends a task."""
        if not isinstance(row, TaskRow):
            return row_entries(self.workload, cell, self.wanted, row)
        self.applied[row.key].append(row)
        self.count_again(row.key)
        return []

    def count_again(self, key: TaskKey) -> None:
        """Whether a task is wanted, and how, by the rows of it that count now."""
        self.wanted.pop(key, None)
        for row in counting(self.ended[key], self.applied[key]):
            take_row(self.wanted, row)

    def note(self, commit: Commit, time: int) -> None:
        """A task that is placed begins anew, whether it ran before or not."""
        self.placed |= {claim.key: time for claim, judgement in zip(commit.txn.claims, commit.reply)
                        if judgement.admits}

    def life(self, key: TaskKey) -> int | None:
        """How long a task is to run: the life of its current piece, if that has one; an extra task has none."""
        piece = current(self.ended[key], self.pieces.get(key, []))
        return piece.life if piece else None

    def due(self, cell: Cell) -> list[tuple[int, TaskKey]]:
        """A running task ends when it has run for its life since it was placed."""
        lives = {key: self.life(key) for key in cell.place}
        return [(self.placed[key] + life, key) for key, life in lives.items() if life is not None]

    def end(self, cell: Cell, key: TaskKey) -> list[Entry]:
        """The end of a task, behind which the rows of its next piece count; and those of its job's extras, if no task
        of the job is wanted then."""
        self.ended[key] += 1
        self.count_again(key)
        return end_entries(cell, self.wanted, key)
