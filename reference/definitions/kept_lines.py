"""The line of an entry as it is kept, and the entry of a line: no two entries have one line."""
import re
from typing import Iterable

from .cell import Spec
from .entries import (AttrDelete, AttrSet, Claim, Commit, End, Entry, Judgement, MachineAdd, MachineRemove,
                      MachineUpdate, RoundBegins, Txn, Verdict)
from .keys import TaskKey
from .need import Need

GREATEST = {8: 2**8 - 1, 32: 2**32 - 1, 64: 2**64 - 1}

# How many bits the numbers behind the word of a verdict may have.
VERDICTS = {'placed': (), 'no-machine': (), 'running': (64,), 'changed': (64, 64), 'victim-rank': (64, 32),
            'same-job': (64, 32), 'full': (64, 64, 64), 'withdrawn': (32,)}


def bytes_word(data: bytes) -> str:
    """Bytes in lower-case hexadecimal; a dash where there is none."""
    return data.hex() or '-'


def keys_words(keys: Iterable[TaskKey]) -> list:
    """How many tasks there are, and their names."""
    keys = list(keys)
    return [len(keys), *(number for key in keys for number in key)]


def claim_words(claim: Claim, judgement: Judgement) -> list:
    """The words of a claim and of what was answered to it."""
    spec = claim.spec
    return ['claim', *claim.key, claim.machine, *spec.need, spec.prec, int(spec.differ),
            'victims', *keys_words(claim.victims), judgement.verdict.word, *judgement.verdict.numbers,
            'evicted', *keys_words(judgement.evicted)]


def commit_words(commit: Commit) -> list:
    words = ['commit', commit.scheduler, commit.seen, commit.txn.job, commit.txn.rule, commit.txn.mode]
    for claim, judgement in zip(commit.txn.claims, commit.reply):
        words += claim_words(claim, judgement)
    return words


def entry_words(entry: Entry) -> list:
    """The words of an entry."""
    match entry:
        case RoundBegins(number):
            return ['round', number]
        case MachineAdd(machine, cap):
            return ['add', machine, *cap]
        case MachineUpdate(machine, cap):
            return ['update', machine, *cap]
        case MachineRemove(machine):
            return ['remove', machine]
        case AttrSet(machine, name, value):
            return ['set', machine, bytes_word(name), bytes_word(value)]
        case AttrDelete(machine, name):
            return ['unset', machine, bytes_word(name)]
        case End(key, machine):
            return ['end', *key, machine]
    return commit_words(entry)


def entry_line(entry: Entry) -> bytes:
    """The line of an entry, without a line feed: its words with one space between two of them."""
    return ' '.join(str(word) for word in entry_words(entry)).encode()


class NoLine(Exception):
    """What is read is the line of no entry."""


class Words:
    """The words of a line, taken one by one from the front."""

    def __init__(self, line: bytes) -> None:
        self.words = line.split(b' ')[::-1]

    def word(self) -> str:
        if not self.words:
            raise NoLine
        return self.words.pop().decode('latin1')

    def one_of(self, *names: str) -> str:
        word = self.word()
        if word not in names:
            raise NoLine
        return word

    def number(self, bits: int = 64) -> int:
        """A number of so many bits, in decimal and without zeros in front."""
        word = self.word()
        if not re.fullmatch('0|[1-9][0-9]{0,19}', word) or int(word) > GREATEST[bits]:
            raise NoLine
        return int(word)

    def need(self) -> Need:
        return Need(self.number(), self.number(), self.number())

    def key(self) -> TaskKey:
        return TaskKey(self.number(), self.number(32))

    def keys(self, name: str) -> tuple[TaskKey, ...]:
        self.one_of(name)
        return tuple(self.key() for _ in range(self.number()))

    def data(self) -> bytes:
        word = self.word()
        if word != '-' and not re.fullmatch('([0-9a-f]{2})+', word):
            raise NoLine
        return b'' if word == '-' else bytes.fromhex(word)

    def verdict(self) -> Verdict:
        name = self.one_of(*VERDICTS)
        return Verdict(name, tuple(self.number(bits) for bits in VERDICTS[name]))

    def claim(self) -> tuple[Claim, Judgement]:
        self.one_of('claim')
        key, machine, need, prec = self.key(), self.number(), self.need(), self.number(8)
        spec = Spec(need, prec, self.one_of('0', '1') == '1')
        claim = Claim(key, machine, spec, self.keys('victims'))
        return claim, Judgement(self.verdict(), self.keys('evicted'))

    def commit(self) -> Commit:
        scheduler, seen, job = self.number(32), self.number(), self.number()
        rule, mode = self.one_of('fine', 'coarse'), self.one_of('incremental', 'gang')
        decided = []
        while self.words:
            decided.append(self.claim())
        claims, reply = tuple(claim for claim, _ in decided), tuple(judgement for _, judgement in decided)
        return Commit(scheduler, seen, Txn(job, rule, mode, claims), reply)

    def entry(self) -> Entry:
        """The entry that begins with the first word."""
        kinds = {'round': lambda: RoundBegins(self.number()), 'add': lambda: MachineAdd(self.number(), self.need()),
                 'update': lambda: MachineUpdate(self.number(), self.need()),
                 'remove': lambda: MachineRemove(self.number()),
                 'set': lambda: AttrSet(self.number(), self.data(), self.data()),
                 'unset': lambda: AttrDelete(self.number(), self.data()),
                 'end': lambda: End(self.key(), self.number()), 'commit': self.commit}
        return kinds[self.one_of(*kinds)]()


def read_entry(line: bytes) -> Entry | None:
    """The entry whose line this is, or nothing."""
    words = Words(line)
    try:
        entry = words.entry()
    except NoLine:
        return None
    return entry if entry_line(entry) == line else None
