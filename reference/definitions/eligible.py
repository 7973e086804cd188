"""When the attributes of a machine meet constraints."""
from typing import Iterable, NamedTuple

from .numbers import whole

EQUAL, NOT_EQUAL, LESS, GREATER = range(4)


class Constraint(NamedTuple):
    op: int
    name: bytes
    value: bytes


def holds(constraint: Constraint, attrs: dict[bytes, bytes]) -> bool:
    """Whether these attributes meet the constraint. An attribute that isn't set is equal to the empty text alone."""
    text = attrs.get(constraint.name, b'')
    if constraint.op == EQUAL:
        return text == constraint.value
    if constraint.op == NOT_EQUAL:
        return text != constraint.value
    number, bound = whole(text), whole(constraint.value)
    if number is None or bound is None:
        return False
    return number < bound if constraint.op == LESS else number > bound


def is_eligible(constraints: Iterable[Constraint], attrs: dict[bytes, bytes]) -> bool:
    """Whether the attributes meet all constraints."""
    return all(holds(constraint, attrs) for constraint in constraints)
