"""Random kept lines: of the run that is due, or of legal histories that no run has, in which every verdict comes."""
import random

from definitions.cell import Spec
from definitions.entries import (AttrDelete, AttrSet, Claim, Commit, End, Entry, MachineAdd, MachineRemove,
                                 MachineUpdate, RoundBegins, Txn)
from definitions.keep import round_ends
from definitions.kept_lines import entry_line
from definitions.keys import TaskKey
from definitions.need import Need
from definitions.refusals import Refusal
from definitions.state import History
from definitions.tables import NEEDED, Table
from definitions.trace import read_trace
from definitions.turns import in_turns
from definitions.words import settings_of
from definitions.workload import Workload

from .scenes import Scene

MACHINES, JOBS = (1, 2, 3), 4


def due_entries(words: list[str], tables: dict[Table, bytes]) -> list[Entry]:
    """The entries of the run in turns of these words and tables; none where they are refused."""
    try:
        settings = settings_of(words)
        trace = read_trace(lambda table: tables.get(table, None if table in NEEDED else b''))
    except Refusal:
        return []
    return in_turns(Workload(settings, trace)).history.entries


class Wild:
    """A legal history that need not be lawful."""

    def __init__(self, scene: Scene) -> None:
        self.scene, self.rng = scene, scene.rng
        self.history = History()

    def entries(self) -> list[Entry]:
        for _ in range(self.rng.randint(5, 60)):
            self.history.add(self.entry())
        return self.history.entries

    def need(self) -> Need:
        return Need(*(self.rng.choice([0, 1, 2, 3, 5]) for _ in range(3)))

    def key(self) -> TaskKey:
        return TaskKey(self.rng.randint(1, JOBS), self.rng.randint(0, 3))

    def entry(self) -> Entry:
        rng, machine = self.rng, self.rng.choice(MACHINES)
        cap = Need(*(3 * amount for amount in self.need()))
        kind = rng.randrange(12)
        if kind == 0:
            return RoundBegins(rng.getrandbits(64))
        if kind <= 4:
            return MachineUpdate(machine, cap) if kind == 3 else \
                MachineRemove(machine) if kind == 4 and rng.random() < 0.4 else MachineAdd(machine, cap)
        if kind == 5:
            return AttrSet(machine, rng.choice(self.scene.names), rng.choice(self.scene.values))
        if kind == 6:
            return AttrDelete(machine, rng.choice(self.scene.names))
        if kind == 7 and self.history.cell.place:
            task = rng.choice(self.history.cell.tasks())
            return End(task.key, task.machine)
        return self.commit()

    def commit(self) -> Commit:
        rng = self.rng
        claims = tuple(self.claim() for _ in range(rng.randint(0, 4)))
        txn = Txn(rng.randint(1, JOBS), rng.choice(['fine', 'coarse']),
                  rng.choice(['incremental', 'incremental', 'gang']), claims)
        seen = rng.randint(max(0, len(self.history) - 4), len(self.history))
        return Commit(rng.randint(0, 3), seen, txn, self.history.reply_of(seen, txn))

    def claim(self) -> Claim:
        rng = self.rng
        victims = tuple(self.key() for _ in range(rng.choice([0, 0, 1, 2, 4])))
        spec = Spec(self.need(), rng.randint(0, 3), rng.random() < 0.3)
        return Claim(self.key(), rng.choice(MACHINES + (9,)), spec, victims)


def spoiled(rng: random.Random, lines: list[bytes]) -> list[bytes]:
    """The lines with one of them left out, put twice, or changed in a word."""
    lines = lines or [b'round 7']
    place, kind = rng.randrange(len(lines)), rng.randrange(5)
    if kind == 0:
        return lines[:place] + lines[place + 1:]
    if kind == 1:
        return lines[:place] + lines[place:place + 1] + lines[place:]
    words = lines[place].split(b' ')
    at = rng.randrange(len(words))
    words[at] = rng.choice([b'0', b'1', b'2', b'01', b'', b'x', b'placed', b'-', words[at] + b'0',
                            b'18446744073709551616', words[at].upper()])
    return lines[:place] + [b' '.join(words)] + lines[place + 1:]


def draw_kept(scene: Scene, words: list[str], tables: dict[Table, bytes]) -> list[bytes]:
    """Kept lines for `resume` or `audit`: whole rounds, or cut within one, or of a wild history; some are spoiled."""
    rng = scene.rng
    if 'audit' in words and rng.random() < 0.6:
        entries = Wild(scene).entries()
    else:
        entries = due_entries(words, tables)
        ends = [0] + round_ends(entries)
        entries = entries[:rng.choice(ends) if rng.random() < 0.7 else rng.randint(0, len(entries))]
    lines = [entry_line(entry) for entry in entries]
    return spoiled(rng, lines) if rng.random() < 0.2 else lines
