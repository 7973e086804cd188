"""When a history is legal, a cell sound, and an entry possible after others."""
from .cell import Cell
from .entries import Commit, End, Entry, MachineAdd, MachineUpdate, RoundBegins
from .limits import MOST_MACHINES
from .need import GREATEST_QUANTITY, fits
from .state import History


def answered(history: History, commit: Commit) -> bool:
    """A commit after this history had seen no more than it, and has the reply that is due."""
    return commit.seen <= len(history) and commit.reply == history.reply_of(commit.seen, commit.txn)


def is_legal(entries: list[Entry]) -> bool:
    """Each commit has the reply that is due on the entries before it, and had seen no more than those."""
    history = History()
    for entry in entries:
        if isinstance(entry, Commit) and not answered(history, entry):
            return False
        history.add(entry)
    return True


def is_sound(cell: Cell) -> bool:
    """Each task runs on a machine that is up, and no machine is used beyond its capacity. That no task and no machine
    is there twice is so by the form of a cell here."""
    up = {machine.id for machine in cell.machines_up()}
    return (all(task.machine in up for task in cell.tasks())
            and all(fits(cell.used_on(machine.id), machine.cap) for machine in cell.machines()))


def is_possible(history: History, entry: Entry) -> bool:
    """Whether an entry may stand after this history: a commit is answered as is due and has fewer than 2^32 claims, an
    end is that of a task which runs there, a machine is listed or there is room for one more, and a capacity is within
    the greatest quantity."""
    if isinstance(entry, RoundBegins):
        return True
    if isinstance(entry, End):
        return history.cell.machine_of(entry.key) == entry.machine
    if isinstance(entry, Commit):
        return len(entry.txn.claims) < 2**32 and answered(history, entry)
    has_room = history.cell.machine(entry.machine) is not None or len(history.cell.machines()) < MOST_MACHINES
    if isinstance(entry, (MachineAdd, MachineUpdate)):
        return has_room and all(amount <= GREATEST_QUANTITY for amount in entry.cap)
    return has_room
