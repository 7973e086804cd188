"""The trace: the typed rows of the bytes of the six tables, or the first refusal of them."""
import os
from typing import Callable, NamedTuple

from .columns import ActivityRow, AttrRow, ConstraintRow, DiskRow, MachineRow, TaskRow, rows_in
from .limits import limit_passed
from .refusals import read_fault, too_long, too_many
from .tables import NEEDED, TABLES_IN_ORDER, Table

LONGEST_TABLE = 268_435_456


class TraceTables(NamedTuple):
    machines: list[MachineRow]
    attrs: list[AttrRow]
    tasks: list[TaskRow]
    constraints: list[ConstraintRow]
    activities: list[ActivityRow]
    disks: list[DiskRow]


# Answers the bytes of a table, or nothing where it can't be read.
Reader = Callable[[Table], bytes | None]


def folder_reader(folder: str) -> Reader:
    """The tables of a folder. One that needn't be there is empty where no name of it stands there."""
    def read(table: Table) -> bytes | None:
        path = os.path.join(folder, table + '.csv')
        try:
            with open(path, 'rb') as file:
                return file.read(LONGEST_TABLE + 1)
        except FileNotFoundError:
            return None if table in NEEDED or os.path.lexists(path) else b''
        except OSError:
            return None
    return read


def rows_read(table: Table, read: Reader) -> list:
    """The rows of a table; it may not be read, be too long, or have a bad row, in this order."""
    data = read(table)
    if data is None:
        raise read_fault(table)
    if len(data) > LONGEST_TABLE:
        raise too_long(table, LONGEST_TABLE)
    return rows_in(table, data)


def read_trace(read: Reader) -> TraceTables:
    """The trace of six tables, or the first refusal that stands: of each table in order, and then of all their rows."""
    trace = TraceTables(*(rows_read(table, read) for table in TABLES_IN_ORDER))
    passed = limit_passed(trace)
    if passed:
        raise too_many(*passed)
    return trace
