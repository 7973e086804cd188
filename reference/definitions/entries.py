"""What a history is made of: entries, and in commits the claims with what was answered to them."""
from typing import NamedTuple

from .cell import Spec
from .keys import TaskKey
from .need import Need


class Claim(NamedTuple):
    """A task is to be placed on a machine; these tasks may be stopped for it, in this order."""
    key: TaskKey
    machine: int
    spec: Spec
    victims: tuple[TaskKey, ...]


class Txn(NamedTuple):
    """What a scheduler hands in for a job. The rule is `fine` or `coarse`, the mode `incremental` or `gang`."""
    job: int
    rule: str
    mode: str
    claims: tuple[Claim, ...]


class Verdict(NamedTuple):
    """The word of a verdict as the report has it, and the numbers behind it."""
    word: str
    numbers: tuple[int, ...] = ()


PLACED = Verdict('placed')


class Judgement(NamedTuple):
    verdict: Verdict
    evicted: tuple[TaskKey, ...] = ()

    @property
    def admits(self) -> bool:
        return self.verdict == PLACED


class RoundBegins(NamedTuple):
    number: int


class MachineAdd(NamedTuple):
    machine: int
    cap: Need


class MachineUpdate(NamedTuple):
    machine: int
    cap: Need


class MachineRemove(NamedTuple):
    machine: int


class AttrSet(NamedTuple):
    machine: int
    name: bytes
    value: bytes


class AttrDelete(NamedTuple):
    machine: int
    name: bytes


class End(NamedTuple):
    key: TaskKey
    machine: int


class Commit(NamedTuple):
    """A scheduler's transaction, how many entries its copy had seen, and the reply."""
    scheduler: int
    seen: int
    txn: Txn
    reply: tuple[Judgement, ...]


Entry = RoundBegins | MachineAdd | MachineUpdate | MachineRemove | AttrSet | AttrDelete | End | Commit
