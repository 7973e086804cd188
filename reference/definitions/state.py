"""The cell after a history, entry by entry from the empty cell, and what else follows from the entries."""
from . import machines
from .cell import Cell
from .entries import (AttrDelete, AttrSet, Commit, End, Entry, Judgement, MachineAdd, MachineRemove, MachineUpdate,
                      Txn)
from .keys import TaskKey
from .need import Need, fits
from .reply import place, reply_on
from .touches import Touches


def excess(cell: Cell, id: int, cap: Need) -> list[TaskKey]:
    """The tasks that stop on a machine of this capacity: in the order of eviction, as few as make the rest fit."""
    gone: list[TaskKey] = []
    for task in cell.ranked_on(id):
        if fits(cell.rest_on(id, gone), cap):
            break
        gone.append(task.key)
    return gone


def displaced(cell: Cell, entry: Entry) -> list[TaskKey]:
    """The tasks that an entry of a machine stops, in order; a machine that is removed displaces all of its tasks."""
    if isinstance(entry, MachineRemove):
        return [task.key for task in cell.ranked_on(entry.machine)]
    if isinstance(entry, (MachineAdd, MachineUpdate)):
        return excess(cell, entry.machine, entry.cap)
    return []


def change_machines(cell: Cell, entry: Entry) -> None:
    """The machines after an entry."""
    if isinstance(entry, MachineAdd):
        machines.add(cell, entry.machine, entry.cap)
    elif isinstance(entry, MachineUpdate):
        machines.update(cell, entry.machine, entry.cap)
    elif isinstance(entry, MachineRemove):
        machines.remove(cell, entry.machine)
    elif isinstance(entry, AttrSet):
        machines.set_attr(cell, entry.machine, entry.name, entry.value)
    elif isinstance(entry, AttrDelete):
        machines.delete_attr(cell, entry.machine, entry.name)


def change_tasks(cell: Cell, entry: Entry) -> None:
    """The running tasks after an entry. The end of a task that doesn't run on that machine changes none."""
    for key in displaced(cell, entry):
        cell.stop(key)
    if isinstance(entry, End) and cell.machine_of(entry.key) == entry.machine:
        cell.stop(entry.key)
    if isinstance(entry, Commit):
        for claim, judgement in zip(entry.txn.claims, entry.reply):
            place(cell, claim, judgement)


def apply(cell: Cell, entry: Entry) -> None:
    """The cell after an entry."""
    change_tasks(cell, entry)
    change_machines(cell, entry)


class History:
    """A list of entries, and beside it what follows from it: the cell after it, which entries touch which machine, how
    many commits each scheduler has, and for each job how many commits in a row placed nothing."""

    def __init__(self) -> None:
        self.entries: list[Entry] = []
        self.cell = Cell()
        self.touches = Touches()
        self.commits: dict[int, int] = {}
        self.failed: dict[int, int] = {}

    def __len__(self) -> int:
        return len(self.entries)

    def add(self, entry: Entry) -> None:
        self.touches.note(len(self), entry)
        apply(self.cell, entry)
        self.entries.append(entry)
        if isinstance(entry, Commit):
            self.note_commit(entry)

    def note_commit(self, commit: Commit) -> None:
        self.commits[commit.scheduler] = self.commits.get(commit.scheduler, 0) + 1
        placed = any(judgement.admits for judgement in commit.reply)
        self.failed[commit.txn.job] = 0 if placed else self.failed.get(commit.txn.job, 0) + 1

    def reply_of(self, seen: int, txn: Txn) -> tuple[Judgement, ...]:
        """The reply that is due on this history to a transaction of one whose copy had seen so many entries."""
        return reply_on(self.touches, len(self), self.cell, seen, txn)


def state(entries: list[Entry]) -> Cell:
    """The cell after these entries."""
    cell = Cell()
    for entry in entries:
        apply(cell, entry)
    return cell
