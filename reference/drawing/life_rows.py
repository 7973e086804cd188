"""Rows of tasks that end, change and come again at times close to each other, so that much happens while somebody
decides and a task has more than one life."""
from definitions.wanted import SUBMITS

from .scenes import Scene
from .trace_rows import Asked, Fields, Rows

# What may come behind a row that asks for a task, and behind any other row.
AFTER_ASKED, AFTER_OTHERS = [1, 2, 3, 4, 4, 5, 7, 8], [0, 0, 0, 1, 1, 4, 7]


class LifeRows(Rows):
    """The rows of all tables of a scene, whose times become many."""

    def __init__(self, scene: Scene) -> None:
        super().__init__(scene)
        scene.times = self.moments()

    def moments(self) -> list[int]:
        """Times within a few windows, some of them twice and some side by side; and a few behind, so that rounds are left
        where most tasks end."""
        rng, end = self.rng, self.scene.window * self.rng.randint(1, 8)
        some = [rng.randrange(end) for _ in range(rng.randint(2, 16))]
        later = [end + rng.randrange(3 * end) for _ in range(rng.randint(0, 4))]
        return sorted(some + [time + rng.choice([0, 1]) for time in some] + later)

    def job(self, job: int) -> list[Fields]:
        """A job has a few tasks. They may end all at once, and one of them may come again right then."""
        rng, asked = self.rng, Asked(self.scene)
        indexes = range(rng.choice([1, 1, 2, 3, 5]))
        rows = [row for index in indexes for row in self.lives(job, index, asked)]
        if rng.random() < 0.3:
            end = self.scene.late()
            rows += [self.task(end, job, index, rng.randint(3, 6), asked) for index in indexes]
            if rng.random() < 0.5:
                rows.append(self.task(end + rng.choice([0, 1]), job, rng.choice(indexes), 0, asked))
        return rows

    def lives(self, job: int, index: int, asked: Asked) -> list[Fields]:
        """The rows of a task in order: it is submitted, then ends or changes, and may come again."""
        rng, rows, code = self.rng, [], self.rng.choice([0, 0, 0, 0, 1, 5])
        for time in sorted(rng.choices(self.scene.times, k=rng.choice([1, 1, 2, 3, 4, 6]))):
            asked = Asked(self.scene) if rng.random() < 0.15 else asked
            rows.append(self.task(time, job, index, code, asked))
            code = rng.choice(AFTER_ASKED if code in SUBMITS else AFTER_OTHERS)
        return rows
