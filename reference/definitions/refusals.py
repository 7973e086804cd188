"""Why there is no report: each refusal with its line and the exit status."""
from .tables import Table


class Refusal(Exception):
    """A refusal: the status by which the program ends, and the line on standard error."""

    def __init__(self, exit_status: int, said: str) -> None:
        super().__init__(said)
        self.exit_status = exit_status
        self.line = 'omega: ' + said


CAUSES = {'number': 'not a whole number', 'range': 'out of range', 'quantity': 'not a quantity'}


def usage() -> Refusal:
    return Refusal(2, 'the words are refused')


def read_fault(table: Table) -> Refusal:
    return Refusal(3, f'cannot read {table}')


def too_long(table: Table, longest: int) -> Refusal:
    return Refusal(3, f'{table} is longer than {longest} bytes')


def bad_fields(table: Table, row: int, fields: int) -> Refusal:
    return Refusal(3, f'{table} row {row}: {fields} fields')


def bad_column(table: Table, row: int, column: int, cause: str) -> Refusal:
    return Refusal(3, f'{table} row {row} column {column}: {CAUSES[cause]}')


def too_many(kind: str, number: int) -> Refusal:
    return Refusal(3, f'too many {kind}: {number}')


def bad_kept(line: int) -> Refusal:
    return Refusal(6, f'kept line {line} is refused')


def keep_fault() -> Refusal:
    return Refusal(7, 'cannot keep')
