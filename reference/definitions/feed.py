"""The rows of the three tables of events in order, cut into rounds."""
from typing import NamedTuple

from .columns import AttrRow, MachineRow, TaskRow
from .trace import TraceTables

Row = MachineRow | AttrRow | TaskRow


class Round(NamedTuple):
    number: int
    rows: list[Row]


def feed(trace: TraceTables) -> list[Row]:
    """The rows of events in order of time, then table, then row."""
    return sorted([*trace.machines, *trace.attrs, *trace.tasks], key=lambda row: row.time)


def rounds(trace: TraceTables, window: int) -> list[Round]:
    """The rounds: the rows whose time divided by the window gives one number. None is without a row."""
    out: list[Round] = []
    for row in feed(trace):
        number = row.time // window
        if not out or out[-1].number != number:
            out.append(Round(number, []))
        out[-1].rows.append(row)
    return out
