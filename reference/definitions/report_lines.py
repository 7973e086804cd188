"""The lines of the report: those of each entry on the state before it, and what the history amounts to."""
from .cell import Cell
from .entries import Commit, End, Entry, RoundBegins
from .growing import Growing
from .policy import schedulers
from .report import FIRST_LINE, Line, commit_lines
from .report_counts import scheduler_line, waiting_line
from .state import apply, displaced


def use_line(cell: Cell) -> Line:
    """What is used, and what there is, on the machines that are up."""
    used, capacity = cell.used(), cell.capacity()
    return ('use', 'cpu', used.cpu, capacity.cpu, 'mem', used.mem, capacity.mem, 'disk', used.disk, capacity.disk)


def entry_lines(before: Cell, entry: Entry) -> list[Line]:
    """The lines of an entry on the cell before it. An entry of an attribute has none."""
    if isinstance(entry, RoundBegins):
        return [('round', entry.number)]
    if isinstance(entry, Commit):
        return commit_lines(entry)
    if isinstance(entry, End):
        return [('end', *entry.key, entry.machine)]
    return [('displace', *key, entry.machine) for key in displaced(before, entry)]


def round_lines(entries: list[Entry]) -> list[Line]:
    """The lines of all entries in order, and where a round ends what is used there."""
    lines: list[Line] = []
    cell = Cell()
    for place, entry in enumerate(entries):
        lines += entry_lines(cell, entry)
        apply(cell, entry)
        if place + 1 == len(entries) or isinstance(entries[place + 1], RoundBegins):
            lines.append(use_line(cell))
    return lines


def last_lines(world: Growing) -> list[Line]:
    """How many entries and rounds there are, the counts of each scheduler, what is used at the end, what waits."""
    return [('entries', len(world.history), 'rounds', len(world.workload.rounds)),
            *(scheduler_line(world.history, scheduler) for scheduler in range(schedulers(world.workload.settings))),
            use_line(world.history.cell), waiting_line(world)]


def report_lines(world: Growing) -> list[Line]:
    """The report of a whole history. On `generate` it is the summary: the first line and the last ones."""
    body = [] if world.workload.settings.command == 'generate' else round_lines(world.history.entries)
    return [FIRST_LINE, *body, *last_lines(world)]
