"""The tables that `generate` makes."""
from .draws import Lcg64Xsh32
from .settings import Settings
from .tables import MACHINE_EVENTS, TASK_EVENTS, Table
from .trace import Reader

CAPACITIES = ('0.5', '0.75', '1')


def machine_text(number: int, word: int) -> str:
    """The row that adds a machine at time 0."""
    capacity = CAPACITIES[word % 3]
    return f'0,{number},0,g,{capacity},{capacity}\n'


def job_text(number: int, words: list[int]) -> str:
    """The rows of a job of six words: its tasks are submitted, and finish when their life is over."""
    tasks, klass, priority = 1 + words[0] % 8, words[1] % 4, words[2] % 12
    cpu, mem, life = 1 + words[3] % 50, 1 + words[4] % 50, 1 + words[5] % 20
    submit = 600_000_000 + 10_000_000 * number
    return ''.join(f'{time},,{number},{index},,{code},g,{klass},{priority},0.0{cpu:02},0.0{mem:02},,0\n'
                   for time, code in ((submit, 0), (submit + 300_000_000 * life, 4)) for index in range(tasks))


def made_tables(seed: int, machines: int, jobs: int) -> dict[Table, bytes]:
    """The bytes of the tables that aren't empty. The words of one generator go one to each machine, then six to each
    job."""
    generator = Lcg64Xsh32(seed, 0)
    events = [machine_text(number, generator.word()) for number in range(1, machines + 1)]
    tasks = [job_text(number, [generator.word() for _ in range(6)]) for number in range(1, jobs + 1)]
    return {MACHINE_EVENTS: ''.join(events).encode(), TASK_EVENTS: ''.join(tasks).encode()}


def made_reader(settings: Settings) -> Reader:
    """The made tables as they are read."""
    made = made_tables(settings.seed, settings.machines, settings.jobs)
    return lambda table: made.get(table, b'')
