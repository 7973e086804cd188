"""What a change does to the list of machines: one is changed, and a number that isn't listed gets a new one first."""
from .cell import Cell, Machine
from .need import NOTHING, Need


def ensured(cell: Cell, id: int) -> Machine:
    """The machine of this number; where it isn't listed, a new one at the end: down, without capacity, empty."""
    return cell.by_id.setdefault(id, Machine(id, False, NOTHING, {}))


def add(cell: Cell, id: int, cap: Need) -> None:
    """The machine is up, with this capacity."""
    cell.by_id[id] = ensured(cell, id)._replace(up=True, cap=cap)


def update(cell: Cell, id: int, cap: Need) -> None:
    """The machine has this capacity, up or down as it was."""
    cell.by_id[id] = ensured(cell, id)._replace(cap=cap)


def remove(cell: Cell, id: int) -> None:
    """The machine is down, with the capacity and the attributes that it had."""
    cell.by_id[id] = ensured(cell, id)._replace(up=False)


def set_attr(cell: Cell, id: int, name: bytes, value: bytes) -> None:
    """The attribute has this value, at the place at which it was first set."""
    cell.by_id[id] = ensured(cell, id)._replace(attrs={**ensured(cell, id).attrs, name: value})


def delete_attr(cell: Cell, id: int, name: bytes) -> None:
    """The machine has no such attribute."""
    attrs = {other: value for other, value in ensured(cell, id).attrs.items() if other != name}
    cell.by_id[id] = cell.by_id[id]._replace(attrs=attrs)
