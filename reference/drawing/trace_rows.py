"""The rows of random tables, as lists of fields."""
import random

from definitions.tables import (MACHINE_ATTRIBUTES, MACHINE_DISK, MACHINE_EVENTS, MAPREDUCE_JOBS, TASK_CONSTRAINTS,
                                TASK_EVENTS, Table)

from .scenes import Scene
from .texts import number_text, quantity_text

Fields = list[bytes]


class Asked:
    """What a row of tasks asks for."""

    def __init__(self, scene: Scene) -> None:
        rng, most = scene.rng, 4 if scene.is_tight else 5
        self.klass = rng.choice([0, 0, 1, 2, 3])
        self.prec = rng.randint(0, scene.most_prec)
        self.cpu, self.mem = scene.amount(most), scene.amount(most)
        self.disk = rng.choice([0, 0, 10**6, 5 * 10**8, 4 * 10**11]) if rng.random() < 0.5 else 0
        self.differ = int(scene.has_differ and rng.random() < 0.3)

    def again(self, **changed: int) -> 'Asked':
        """The same with some of it changed."""
        other = object.__new__(Asked)
        other.__dict__.update(self.__dict__, **changed)
        return other


class Rows:
    """Makes the rows of all tables of a scene."""

    def __init__(self, scene: Scene) -> None:
        self.scene = scene
        self.rng: random.Random = scene.rng

    def all(self) -> dict[Table, list[Fields]]:
        rows = {MACHINE_EVENTS: self.machines(), MACHINE_ATTRIBUTES: self.attributes(), TASK_EVENTS: self.tasks(),
                TASK_CONSTRAINTS: self.constraints(), MAPREDUCE_JOBS: self.activities(), MACHINE_DISK: self.disks()}
        for table in rows:
            if self.rng.random() < 0.3:
                self.rng.shuffle(rows[table])
        return rows

    def number(self, number: int) -> bytes:
        return number_text(self.rng, number).encode()

    def number_or_blank(self, number: int) -> bytes:
        return b'' if number == 0 and self.rng.random() < 0.5 else self.number(number)

    def unread(self) -> bytes:
        """A field that isn't read."""
        return self.rng.choice([b'', b'', b'u', b'p', b'0.001', b'a"b', b'x y', b'c,d', b'"', b'\xe9', b'e\nf'])

    def machine(self, time: int, machine: int, code: int) -> Fields:
        cpu, mem = (quantity_text(self.rng, self.scene.amount(self.scene.capacity())) for _ in range(2))
        return [self.number(time), self.number(machine), self.number(code), self.unread(), cpu, mem]

    def machines(self) -> list[Fields]:
        """Each machine is added, most at time 0; then some are changed, and one that wasn't named yet may be."""
        scene, rng = self.scene, self.rng
        rows = [self.machine(0 if rng.random() < 0.7 else scene.early(), machine, 0) for machine in scene.machines]
        for _ in range(rng.randint(0, 2 + len(scene.machines))):
            rows.append(self.machine(scene.late(), rng.choice(scene.machines or [3]), rng.choice([0, 1, 2, 2])))
        if scene.theme == 'attributes' and scene.machines:
            machine, time = rng.choice(scene.machines), scene.late()
            rows += [self.machine(time, machine, 1), self.machine(time, machine, 0)]
        if rng.random() < 0.2:
            rows.append(self.machine(scene.late(), 77, rng.choice([0, 1, 2])))
        return rows

    def attributes(self) -> list[Fields]:
        scene, rng = self.scene, self.rng
        count = rng.randint(0, 2 * len(scene.machines) + 1) if rng.random() < 0.7 else 0
        rows = []
        for _ in range(3 * len(scene.machines) if scene.theme == 'attributes' else count):
            time = 0 if rng.random() < 0.6 else scene.late()
            rows.append([self.number(time), self.number(rng.choice(scene.machines + [88])), rng.choice(scene.names),
                         rng.choice(scene.values), self.number(int(rng.random() < 0.2))])
        return rows

    def task(self, time: int, job: int, index: int, code: int, asked: Asked) -> Fields:
        return [self.number(time), self.unread(), self.number(job), self.number(index), self.unread(),
                self.number(code), self.unread(), self.number_or_blank(asked.klass), self.number_or_blank(asked.prec),
                quantity_text(self.rng, asked.cpu), quantity_text(self.rng, asked.mem),
                quantity_text(self.rng, asked.disk), self.number_or_blank(asked.differ)]

    def tasks(self) -> list[Fields]:
        return [row for job in self.scene.jobs for row in self.job(job)]

    def job(self, job: int) -> list[Fields]:
        """A job's tasks are submitted, most of them alike; then come events of them, and perhaps all end at once."""
        scene, rng = self.scene, self.rng
        time, asked, rows = self.first(job)
        indexes = list(range(rng.choice([1, 1, 2, 3, 3, scene.events]))) + ([2**31 - 1] if rng.random() < 0.05 else [])
        for index in indexes:
            asked = Asked(scene) if rng.random() < 0.2 else asked
            rows.append(self.task(time, job, index, rng.choice([0, 0, 0, 0, 1]), asked))
        for _ in range(rng.randint(0, scene.events)):
            code = rng.choice([0, 1, 2, 3, 4, 4, 4, 5, 6, 7, 8])
            later = max(time, scene.late()) if rng.random() < 0.9 else scene.late()
            changed = Asked(scene) if rng.random() < 0.3 else asked
            rows.append(self.task(later, job, rng.choice(indexes + [9]), code, changed))
        if rng.random() < (0.5 if scene.theme == 'mapreduce' else 0.1):
            end = scene.late()
            rows += [self.task(end, job, index, rng.randint(3, 6), asked) for index in indexes]
        return rows

    def first(self, job: int) -> tuple[int, Asked, list[Fields]]:
        """When a job comes and what it asks for. Where evictions are the theme machines fill in the first round, and in
        the last more important tasks come, some of jobs that run already."""
        scene, rng = self.scene, self.rng
        time, asked = scene.early(), Asked(scene)
        if scene.theme != 'evictions':
            return time, asked, []
        if rng.random() < 0.5:
            asked = asked.again(prec=rng.randint(2, 9), cpu=scene.amount(3), mem=scene.amount(3))
            return scene.times[-1], asked, []
        asked = asked.again(cpu=scene.amount(2), mem=scene.amount(2))
        greater = asked.again(prec=rng.randint(2, 9), cpu=scene.amount(5), mem=scene.amount(5))
        own = [self.task(scene.times[-1], job, 20, 0, greater)] if rng.random() < 0.5 else []
        return scene.times[0], asked, own

    def constraints(self) -> list[Fields]:
        scene, rng = self.scene, self.rng
        is_theme, rows = scene.theme == 'attributes', []
        for job in scene.jobs:
            for _ in range(rng.choice([0, 1, 1, 2] if is_theme else [0, 0, 0, 0, 1, 2])):
                index = 0 if is_theme else rng.randint(0, 2)
                rows.append([self.number(scene.early()), self.number(job), self.number(index),
                             self.number(rng.randint(0, 3)), rng.choice(scene.names), rng.choice(scene.values)])
        return rows

    def activities(self) -> list[Fields]:
        rng, is_theme = self.rng, self.scene.theme == 'mapreduce'
        if not is_theme and rng.random() < 0.4:
            return []
        share, most = (0.7, [6, 12, 40]) if is_theme else (0.3, [0, 1, 3, 6, 12, 40])
        jobs = [job for job in self.scene.jobs + [5000] if rng.random() < share]
        jobs += [job for job in jobs if rng.random() < 0.2]
        return [[self.number(job), self.number(rng.choice(most))] for job in jobs]

    def disks(self) -> list[Fields]:
        rng = self.rng
        if rng.random() < 0.4:
            return []
        machines = [machine for machine in self.scene.machines + [99] if rng.random() < 0.5]
        machines += [machine for machine in machines if rng.random() < 0.2]
        return [[self.number(machine), quantity_text(rng, rng.choice([0, 10**6, 5 * 10**8, 10**9, 10**12]))]
                for machine in machines]
