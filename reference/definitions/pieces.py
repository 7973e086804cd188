"""The rows of a task, cut into pieces, each of which is a life of it."""
from typing import NamedTuple

from .columns import TaskRow
from .feed import Round
from .keys import TaskKey
from .wanted import ENDS, SCHEDULED, SUBMITS, SUBMITTED


class Piece(NamedTuple):
    """Rows of a task up to one that ends it, and for how long it ran by them; nothing where no row ends it."""
    rows: list[TaskRow]
    life: int | None


def begins(rows: list[TaskRow]) -> bool:
    """Whether one of these rows asks for the task. Without one no row ends it."""
    return any(row.code in SUBMITS for row in rows)


def life_of(rows: list[TaskRow]) -> int:
    """How long a task ran by the rows of a piece, of which the last ends it: since it was last scheduled, or, where it
    never was, since it was first submitted."""
    scheduled = [row.time for row in rows if row.code == SCHEDULED]
    submitted = [row.time for row in rows if row.code == SUBMITTED]
    return rows[-1].time - (scheduled[-1] if scheduled else submitted[0])


def pieces(rows: list[TaskRow]) -> list[Piece]:
    """The pieces of the rows of one task, which is cut behind each row that ends it. A row that would end a task that
    nothing asked for since the last cut ends nothing."""
    out: list[Piece] = []
    since: list[TaskRow] = []
    for row in rows:
        since.append(row)
        if row.code in ENDS and begins(since):
            out.append(Piece(since, life_of(since)))
            since = []
    return out + [Piece(since, None)] if since else out


def task_rows(rounds: list[Round]) -> dict[TaskKey, list[TaskRow]]:
    """The rows of each task, in order."""
    out: dict[TaskKey, list[TaskRow]] = {}
    for round in rounds:
        for row in round.rows:
            if isinstance(row, TaskRow):
                out.setdefault(row.key, []).append(row)
    return out
