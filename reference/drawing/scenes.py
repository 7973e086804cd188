"""What a random trace is about: its size, its theme, and the numbers that its rows are drawn from."""
import random
from typing import NamedTuple

# Themes make certain refusals, evictions, extras or ends come often.
THEMES = ('free', 'free', 'evictions', 'evictions', 'gangs', 'coarse', 'mapreduce', 'mapreduce', 'attributes',
          'give-up', 'lives', 'lives')
LARGE_IDS = (2**64 - 1, 6221861800)


class Size(NamedTuple):
    """From how many to how many machines and jobs, how many tasks and events a job has at most, how many windows."""
    machines: tuple[int, int]
    jobs: tuple[int, int]
    events: int
    windows: int


SIZES = {'small': Size((0, 4), (2, 9), 4, 4), 'medium': Size((3, 12), (8, 30), 6, 6),
         'large': Size((20, 60), (150, 400), 6, 10)}


class Scene:
    """A theme, and the machines, jobs, times, names and amounts of which rows are made."""

    def __init__(self, rng: random.Random, size: Size) -> None:
        self.rng = rng
        self.events = size.events
        self.theme = rng.choice(THEMES)
        self.window = rng.choice([1, 7, 1000, 300_000_000, 300_000_000])
        self.times = self.draw_times(rng.randint(1, size.windows))
        self.machines = list(range(1, rng.randint(*size.machines) + 1)) + self.large_id()
        count = rng.randint(*size.jobs)
        self.jobs = rng.sample(range(3 * count + 1), count) + self.large_id()
        self.grain = rng.choice([10**8, 10**8, 125 * 10**6, 333_333_333])
        self.is_tight = rng.random() < 0.6 and self.theme != 'mapreduce' or self.theme == 'evictions'
        self.most_prec = 2 if self.theme == 'evictions' else rng.choice([0, 2, 4, 11, 255])
        self.has_differ = rng.random() < (0.2 if self.theme == 'evictions' else 0.5)
        self.draw_names()

    def large_id(self) -> list[int]:
        return [self.rng.choice(LARGE_IDS)] if self.rng.random() < 0.2 else []

    def draw_times(self, windows: int) -> list[int]:
        """Times in some windows, a few in each, in order; now and then the latest that there is."""
        rng = self.rng
        numbers = sorted(rng.sample(range(3 * windows + 1), windows))
        times = [number * self.window + rng.randrange(min(self.window, 5))
                 for number in numbers for _ in range(rng.randint(1, 3))]
        return sorted(times + ([2**63 - 1] if rng.random() < 0.05 else []))

    def draw_names(self) -> None:
        """The names and the values of attributes and constraints."""
        if self.theme == 'attributes':
            self.names, self.values = [b'k', b'arch'], [b'5', b'17', b'017', b'', b'', b'x']
        else:
            self.names = [b'k', b'arch', b'']
            self.values = [b'5', b'17', b'017', b'x', b'', b'4', b' 5', b'\xff,"z', b'9' * 33]

    def early(self) -> int:
        """A time of the first half."""
        return self.rng.choice(self.times[:max(1, len(self.times) // 2)])

    def late(self) -> int:
        """Any time."""
        return self.rng.choice(self.times)

    def amount(self, most: int) -> int:
        """So many grains at most, now and then none."""
        return self.grain * self.rng.randint(0 if self.rng.random() < 0.1 else 1, most)

    def capacity(self) -> int:
        """So many grains a machine has at most."""
        if self.theme == 'mapreduce':
            return 40
        if self.theme in ('evictions', 'gangs', 'attributes'):
            return 8
        return 4 if self.is_tight else 12
