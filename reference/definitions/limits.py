"""The limits over all six tables."""
from __future__ import annotations

from typing import TYPE_CHECKING

if TYPE_CHECKING:
    from .trace import TraceTables

MOST_ROWS = 2_000_000
MOST_MACHINES = 65_536


def row_count(trace: TraceTables) -> int:
    """How many rows the six tables have."""
    return sum(len(rows) for rows in trace)


def machine_count(trace: TraceTables) -> int:
    """How many different machines the rows of machines and those of attributes name."""
    return len({row.machine for row in trace.machines} | {row.machine for row in trace.attrs})


def limit_passed(trace: TraceTables) -> tuple[str, int] | None:
    """The first number that passes its limit: that of the rows, then that of the machines."""
    if row_count(trace) > MOST_ROWS:
        return 'rows', row_count(trace)
    if machine_count(trace) > MOST_MACHINES:
        return 'machines', machine_count(trace)
    return None
