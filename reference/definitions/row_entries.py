"""The entries that a row of the events gives."""
from .cell import Cell
from .columns import AttrRow, MachineRow, TaskRow
from .entries import End, Entry
from .extra_tasks import ends_of_extras
from .feed import Row
from .keys import TaskKey
from .wanted import ENDS, Wanted, attr_entry, machine_entry
from .workload import Workload


def end_entries(cell: Cell, wanted: Wanted, key: TaskKey) -> list[Entry]:
    """What the end of a task gives: the entry of its end, if it runs, and then those of its job's extras, if no task
    of the job is wanted any more."""
    where = cell.machine_of(key)
    own: list[Entry] = [] if where is None else [End(key, where)]
    return own + ends_of_extras(cell, wanted, key.job)


def row_entries(workload: Workload, cell: Cell, wanted: Wanted, row: Row) -> list[Entry]:
    """The entries of a row on a cell, where the row leaves these tasks wanted. Of the rows of tasks only those that end
    one give any."""
    if isinstance(row, MachineRow):
        return [machine_entry(workload.disks, row)]
    if isinstance(row, AttrRow):
        return [attr_entry(row)]
    return end_entries(cell, wanted, row.key) if row.code in ENDS else []
