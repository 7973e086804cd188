"""What is asked for: a wish for a task, and the request of a job."""
from typing import NamedTuple

from .cell import Spec
from .eligible import Constraint
from .keys import TaskKey


class Wish(NamedTuple):
    """How a task is to run, and the constraints of all rows for it, whatever their times."""
    key: TaskKey
    spec: Spec
    constraints: tuple[Constraint, ...]


class Request(NamedTuple):
    """The wishes of a job, in the order in which they are tried."""
    job: int
    wishes: list[Wish]
