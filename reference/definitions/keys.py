"""Names of tasks: the job, and the index in it. Names are ordered by job, then index."""
from typing import Iterable, NamedTuple


class TaskKey(NamedTuple):
    job: int
    index: int


# Tasks of the trace have lower indexes; extra tasks have this one or a greater.
FIRST_EXTRA = 2**31
GREATEST_INDEX = FIRST_EXTRA - 1


def first_mentions(keys: Iterable[TaskKey]) -> list[TaskKey]:
    """The names without repetitions, each where it stands first."""
    return list(dict.fromkeys(keys))
