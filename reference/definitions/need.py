"""Amounts of CPU, memory and disk, in units of 10^-9 of the trace's normalised amount."""
from typing import Iterable, NamedTuple

GREATEST_QUANTITY = 1000 * 10**9


class Need(NamedTuple):
    cpu: int
    mem: int
    disk: int


NOTHING = Need(0, 0, 0)


def plus(one: Need, other: Need) -> Need:
    """The sum, for each of the three."""
    return Need(*(x + y for x, y in zip(one, other)))


def minus(one: Need, other: Need) -> Need:
    """The difference, for each of the three; it stops at 0."""
    return Need(*(max(0, x - y) for x, y in zip(one, other)))


def fits(one: Need, other: Need) -> bool:
    """Whether none of the three is more than that of the other amount."""
    return all(x <= y for x, y in zip(one, other))


def sum_of(needs: Iterable[Need]) -> Need:
    """The sum of all, which of none is nothing."""
    total = NOTHING
    for need in needs:
        total = plus(total, need)
    return total
