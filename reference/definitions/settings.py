"""What the words choose for a run."""
from typing import NamedTuple


class Settings(NamedTuple):
    """The command and the value of each option. Times are in microseconds; the decision times of services are those of
    the other schedulers where the words don't say otherwise."""
    command: str
    tables: str = '.'
    seed: int = 0
    batch: int = 1
    rule: str = 'fine'
    mode: str = 'incremental'
    preempt: str = 'none'
    extra: str = 'relative'
    cap: int = 60
    tries: int = 5
    give_up: int = 1000
    window: int = 300_000_000
    format: str = 'text'
    machines: int = 64
    jobs: int = 500
    t_job: int = 100_000
    t_task: int = 5_000
    service_t_job: int = 100_000
    service_t_task: int = 5_000
    clock: str = 'rounds'
    times: str = 'no'
    ends: str = 'trace'
    kept: str = 'omega.db'
