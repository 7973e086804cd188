"""How many schedulers there are, and how each plans and commits."""
from typing import NamedTuple

from .settings import Settings

SERVICES = 0


class Policy(NamedTuple):
    rule: str
    mode: str
    may_evict: bool


def schedulers(settings: Settings) -> int:
    """One for services, the batch schedulers, and one for MapReduce jobs."""
    return settings.batch + 2


def mapreduce_scheduler(settings: Settings) -> int:
    """The last one."""
    return settings.batch + 1


def policy_of(settings: Settings, scheduler: int) -> Policy:
    """The rule is the settings' for all. What a MapReduce job asks for is never a gang. Nobody may evict, or the
    scheduler of services, or all."""
    mode = 'incremental' if scheduler == mapreduce_scheduler(settings) else settings.mode
    may_evict = settings.preempt == 'all' or (settings.preempt == 'service' and scheduler == SERVICES)
    return Policy(settings.rule, mode, may_evict)
