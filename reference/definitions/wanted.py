"""Which tasks are wanted after some rows, and the single entries of rows of machines and of attributes."""
from .cell import Spec
from .columns import AttrRow, MachineRow, TaskRow
from .entries import AttrDelete, AttrSet, Entry, MachineAdd, MachineRemove, MachineUpdate
from .feed import Row
from .keys import TaskKey
from .need import GREATEST_QUANTITY

Wanted = dict[TaskKey, Spec]

# The codes of task rows that ask for the task (submitted, scheduled), that end it (failed, finished, killed, lost), and
# that change what it asks for (updated while waiting, while running). A task that the trace evicts is still wanted.
SUBMITTED, SCHEDULED = 0, 1
SUBMITS, ENDS, UPDATES = (SUBMITTED, SCHEDULED), (3, 4, 5, 6), (7, 8)
ADDED, REMOVED, UPDATED = range(3)


def take_row(wanted: Wanted, row: Row) -> None:
    """The wanted tasks after a row; only rows of tasks change them."""
    if not isinstance(row, TaskRow):
        return
    if row.code in SUBMITS or (row.code in UPDATES and row.key in wanted):
        wanted[row.key] = row.spec
    elif row.code in ENDS:
        wanted.pop(row.key, None)


def wanted_of(wanted: Wanted, job: int) -> list[TaskKey]:
    """The wanted tasks of a job, by index."""
    return sorted(key for key in wanted if key.job == job)


def by_job(wanted: Wanted) -> dict[int, list[TaskKey]]:
    """The wanted tasks of each job that has any, by index."""
    out: dict[int, list[TaskKey]] = {}
    for key in sorted(wanted):
        out.setdefault(key.job, []).append(key)
    return out


def machine_entry(disks: dict[int, int], row: MachineRow) -> Entry:
    """The entry of a row of machines. Its disk is that of the last row for the machine in the table of disks, or the
    greatest quantity where there is none."""
    cap = row.cap._replace(disk=disks.get(row.machine, GREATEST_QUANTITY))
    if row.code == REMOVED:
        return MachineRemove(row.machine)
    return (MachineAdd if row.code == ADDED else MachineUpdate)(row.machine, cap)


def attr_entry(row: AttrRow) -> Entry:
    """The entry of a row of attributes."""
    return AttrDelete(row.machine, row.name) if row.deleted else AttrSet(row.machine, row.name, row.value)
