"""The columns of a record: what each may hold, and the row that they make together."""
from typing import Callable, NamedTuple

from .cell import Spec
from .eligible import Constraint
from .keys import GREATEST_INDEX, TaskKey
from .need import Need
from .numbers import GREATEST_WHOLE, units_down, units_up, whole
from .refusals import bad_column, bad_fields
from .rows import Record, records_of
from .tables import (MACHINE_ATTRIBUTES, MACHINE_DISK, MACHINE_EVENTS, MAPREDUCE_JOBS, TASK_CONSTRAINTS, TASK_EVENTS,
                     Table)

GREATEST_TIME = 2**63 - 1
MOST_ACTIVITIES = 10_000


class MachineRow(NamedTuple):
    """A row of machines. It says nothing of disk, which stands as 0."""
    time: int
    machine: int
    code: int
    cap: Need


class AttrRow(NamedTuple):
    time: int
    machine: int
    name: bytes
    value: bytes
    deleted: bool


class TaskRow(NamedTuple):
    time: int
    key: TaskKey
    code: int
    klass: int
    spec: Spec


class ConstraintRow(NamedTuple):
    key: TaskKey
    constraint: Constraint


class ActivityRow(NamedTuple):
    job: int
    activities: int


class DiskRow(NamedTuple):
    machine: int
    disk: int


AnyRow = MachineRow | AttrRow | TaskRow | ConstraintRow | ActivityRow | DiskRow


class BadText(Exception):
    """The text of a column isn't what the column may hold; the cause is a name of those of refusals."""


Reading = Callable[[bytes], int]


def number_to(greatest: int) -> Reading:
    """A whole number up to the greatest."""
    def read(text: bytes) -> int:
        value = whole(text)
        if value is None:
            raise BadText('number')
        if value > greatest:
            raise BadText('range')
        return value
    return read


def blank_or(read: Reading) -> Reading:
    """The same, where the empty text stands for 0."""
    return lambda text: read(text) if text else 0


def amount(units: Callable[[bytes], int | None]) -> Reading:
    """A quantity in units."""
    def read(text: bytes) -> int:
        value = units(text)
        if value is None:
            raise BadText('quantity')
        return value
    return read


TIME, ID, INDEX = number_to(GREATEST_TIME), number_to(GREATEST_WHOLE), number_to(GREATEST_INDEX)
DOWN, UP, FLAG = amount(units_down), amount(units_up), number_to(1)

# For each table how many fields a record has, and how the columns are read that aren't just bytes or left alone.
COLUMNS: dict[Table, tuple[int, dict[int, Reading]]] = {
    MACHINE_EVENTS: (6, {1: TIME, 2: ID, 3: number_to(2), 5: DOWN, 6: DOWN}),
    MACHINE_ATTRIBUTES: (5, {1: TIME, 2: ID, 5: FLAG}),
    TASK_EVENTS: (13, {1: TIME, 3: ID, 4: INDEX, 6: number_to(8), 8: blank_or(number_to(3)),
                       9: blank_or(number_to(255)), 10: UP, 11: UP, 12: UP, 13: blank_or(FLAG)}),
    TASK_CONSTRAINTS: (6, {1: TIME, 2: ID, 3: INDEX, 4: number_to(3)}),
    MAPREDUCE_JOBS: (2, {1: ID, 2: number_to(MOST_ACTIVITIES)}),
    MACHINE_DISK: (2, {1: ID, 2: DOWN}),
}


def made(table: Table, fields: Record, value: dict[int, int]) -> AnyRow:
    """The row of a record with these numbers in its columns."""
    if table == MACHINE_EVENTS:
        return MachineRow(value[1], value[2], value[3], Need(value[5], value[6], 0))
    if table == MACHINE_ATTRIBUTES:
        return AttrRow(value[1], value[2], fields[2], fields[3], value[5] == 1)
    if table == TASK_EVENTS:
        spec = Spec(Need(value[10], value[11], value[12]), value[9], value[13] == 1)
        return TaskRow(value[1], TaskKey(value[3], value[4]), value[6], value[8], spec)
    if table == TASK_CONSTRAINTS:
        return ConstraintRow(TaskKey(value[2], value[3]), Constraint(value[4], fields[4], fields[5]))
    if table == MAPREDUCE_JOBS:
        return ActivityRow(value[1], value[2])
    return DiskRow(value[1], value[2])


def row_of(table: Table, number: int, fields: Record) -> AnyRow:
    """The row of the record of this number, from 1. The number of fields is looked at first, then the columns from
    left to right; the first bad one is refused."""
    count, readings = COLUMNS[table]
    if len(fields) != count:
        raise bad_fields(table, number, len(fields))
    values = {}
    for column, read in readings.items():
        try:
            values[column] = read(fields[column - 1])
        except BadText as cause:
            raise bad_column(table, number, column, str(cause)) from None
    return made(table, fields, values)


def rows_in(table: Table, data: bytes) -> list[AnyRow]:
    """The rows of a table's bytes, or the refusal of the first bad one."""
    return [row_of(table, number, fields) for number, fields in enumerate(records_of(data), 1)]
