#!/usr/bin/env python3
"""Starts two runs of omega that keep their history in one new file, holds each at a moment, and sees that the file
ends with one history.

    pairs.py PROGRAM [--pairs 200] --tables FOLDER WORDS..
    pairs.py crates/omega/out/omega --tables examples/small-cell

The one run is `resume WORDS` over the tables of the folder. The other is the same, or, in every second pair, one over
the tables without their last machine, whose history is another one. Each is held at one of four moments: before it
loads what is kept, which is while it reads its last table; between that and its first append; once it has appended; and
at its end, while it writes its report. In a pair the first run is brought to its moment and then the second one; then
the one goes on to its end, and then the other. All moments of both and both orders come in turn. Between the load and
the first append a run is stopped after a part of the time that is measured there, another part in each turn; so some of
these runs are stopped a little earlier or later than that.

Each run has to end with its report, or be refused as one that can't keep its history (7) or whose kept lines are those
of another run (6), and at least one with its report. Then the lines that are kept must be those of a whole run that
ended with its report, an audit must find nothing to refuse in them, and no log may stand beside the file. Each pair is
a line: how the runs differ, where they were held, how they ended, and how many lines are kept. The last line is 'N
passed, M failed'; the status is 0 where none failed.
"""
import argparse
import itertools
import os
import shutil
import signal
import sqlite3
import subprocess
import sys
import tempfile
import time
from enum import Enum
from pathlib import Path
from typing import Callable, List, NamedTuple, Optional

from kills import Answer, Wrong, kept_lines, report_of
from omegatools.common import Refusal, ends

LAST_TABLE = 'machine_disk.csv'
PATIENCE = 60.0    # seconds that a run may take to get to its moment, or to end
LOOK = 0.001       # seconds between two looks at a run
STILL = 20         # looks in which a run that is held at its end has done nothing
PARTS = 10         # of the time between the load and the first append


class Moment(Enum):
    """Where a run is held."""
    LOAD = 'before its load'
    FIRST = 'before its first append'
    APPENDED = 'once it had appended'
    END = 'at its end'


class Pair(NamedTuple):
    """Whether two runs have the same tables, where each is held, and whether the first one goes on first."""
    is_equal: bool
    first: Moment
    second: Moment
    is_in_order: bool


class Side(NamedTuple):
    """One of two runs: its words without the file, its tables, and what a whole run comes to."""
    program: Path
    words: List[str]
    folder: Path
    disks: bytes
    report: bytes
    lines: List[bytes]

    def words_into(self, path: Path) -> List[str]:
        return ['resume', '--kept', str(path), '--tables', str(self.folder)] + self.words


def lines_in(path: Path) -> List[bytes]:
    """The lines that a file keeps."""
    base = sqlite3.connect(path)
    try:
        return [line for line, in base.execute('SELECT line FROM kept ORDER BY place')]
    except sqlite3.Error as error:
        raise Wrong('%s: %s' % (path.name, error)) from None
    finally:
        base.close()


def new_side(program: Path, words: List[str], folder: Path) -> Side:
    """A run over the tables of a folder, of which the last becomes a pipe."""
    path = folder.with_suffix('.db')
    table = folder / LAST_TABLE
    disks = table.read_bytes() if table.exists() else b''
    side = Side(program, words, folder, disks, b'', [])
    report = report_of(program, side.words_into(path))
    table.unlink(missing_ok=True)
    os.mkfifo(table)
    return side._replace(report=report, lines=lines_in(path))


def without_last_machine(folder: Path) -> None:
    """Takes the last row of the table of machines away."""
    table = folder / 'machine_events.csv'
    rows = table.read_bytes().splitlines(keepends=True)
    if not rows:
        raise Refusal('the tables have no machine, so no other history can be had of them')
    table.write_bytes(b''.join(rows[:-1]))


def full_pipe() -> 'tuple[int, int, int]':
    """A pipe that takes no more bytes until it is read: both ends, and how many bytes stand in it."""
    out, into = os.pipe()
    os.set_blocking(into, False)
    filled = 0
    try:
        while True:
            filled += os.write(into, b'.' * 4096)
    except BlockingIOError:
        os.set_blocking(into, True)
    return out, into, filled


class Run:
    """A run that is on its way to a moment, or held there."""

    def __init__(self, side: Side, path: Path) -> None:
        self.side, self.path = side, path
        self.out, into, self.filled = full_pipe()
        self.feed: Optional[int] = None
        self.fault = tempfile.TemporaryFile()
        self.process = subprocess.Popen([str(side.program)] + side.words_into(path), stdin=subprocess.DEVNULL,
                                        stdout=into, stderr=self.fault)
        os.close(into)
        self.wait_for(self.has_opened)

    def wait_for(self, is_there: Callable[[], bool]) -> bool:
        """Waits until something is so, or the run has ended; whether it is so."""
        begin = time.monotonic()
        while self.process.poll() is None:
            if is_there():
                return True
            if time.monotonic() - begin > PATIENCE:
                raise Wrong('a run takes more than %d s' % PATIENCE)
            time.sleep(LOOK)
        return False

    def has_opened(self) -> bool:
        """Whether it reads its last table now, which then goes on once that is fed."""
        try:
            self.feed = os.open(self.side.folder / LAST_TABLE, os.O_WRONLY | os.O_NONBLOCK)
        except OSError:  # nobody reads
            return False
        os.set_blocking(self.feed, True)
        return True

    def fed(self) -> None:
        """Hands the last table over, if that isn't done."""
        if self.feed is not None:
            feed, self.feed = self.feed, None
            try:
                if self.side.disks:
                    os.write(feed, self.side.disks)
            except BrokenPipeError:  # it has ended
                pass
            finally:
                os.close(feed)

    def has_appended(self) -> bool:
        """Whether there is something in the file, which a first append makes."""
        return self.path.exists() and self.path.stat().st_size > 0

    def worked(self) -> 'tuple[str, bytes]':
        """Whether it sleeps, and how long it has worked so far."""
        fields = Path('/proc/%d/stat' % self.process.pid).read_bytes().rsplit(b')', 1)[1].split()
        return fields[0].decode(), b' '.join(fields[11:13])

    def is_still(self) -> bool:
        """Whether it sleeps and does nothing for some time."""
        before = self.worked()
        for _ in range(STILL):
            time.sleep(LOOK)
            if self.process.poll() is not None or self.worked() != before or before[0] != 'S':
                return False
        return True

    def bring_to(self, moment: Moment, delay: float) -> None:
        """Lets it go on to a moment, and holds it there, if it doesn't end before that."""
        if moment == Moment.LOAD:
            return
        self.fed()
        if moment == Moment.FIRST:
            time.sleep(delay)
        elif moment == Moment.APPENDED:
            self.wait_for(lambda: self.has_appended() or self.is_still())
        else:
            self.wait_for(self.is_still)
        if moment != Moment.END and self.process.poll() is None:
            self.process.send_signal(signal.SIGSTOP)

    def ended(self) -> Answer:
        """Lets it go on to its end."""
        self.fed()
        self.process.send_signal(signal.SIGCONT)
        with os.fdopen(self.out, 'rb') as out:
            written = out.read()
        self.process.wait(PATIENCE)
        self.fault.seek(0)
        return Answer(written[self.filled:], self.fault.read(), self.process.returncode)

    def let_go(self) -> None:
        """Ends it, where something was wrong."""
        if self.process.poll() is None:
            self.process.kill()
            self.process.wait()
        self.fault.close()


class Pairs:
    """Two runs over the same tables, and one over others."""

    def __init__(self, program: Path, words: List[str], tables: Path, scratch: Path) -> None:
        self.scratch, self.count = scratch, 0
        folders = [scratch / name for name in ('one', 'same', 'other')]
        for folder in folders:
            shutil.copytree(tables, folder)
        without_last_machine(folders[2])
        self.one, self.same, self.other = (new_side(program, words, folder) for folder in folders)
        if self.one.lines == self.other.lines:
            raise Refusal('without their last machine the tables have the same history')
        self.seconds = self.to_first_append()

    def new_file(self) -> Path:
        self.count += 1
        return self.scratch / ('%d.db' % self.count)

    def to_first_append(self) -> float:
        """How long a run takes from its last table to its first append."""
        run = Run(self.one, self.new_file())
        try:
            begin = time.monotonic()
            run.fed()
            run.wait_for(run.has_appended)
            seconds = time.monotonic() - begin
            run.ended()
            return seconds
        finally:
            run.let_go()

    def tried(self, pair: Pair, part: float) -> str:
        """Makes the two runs of a pair, and says what came of them."""
        path, sides = self.new_file(), (self.one, self.same if pair.is_equal else self.other)
        runs: List[Run] = []
        try:
            for side, moment in zip(sides, (pair.first, pair.second)):
                runs.append(Run(side, path))
                runs[-1].bring_to(moment, part * self.seconds)
            answers = [run.ended() for run in (runs if pair.is_in_order else reversed(runs))]
        finally:
            for run in runs:
                run.let_go()
        if not pair.is_in_order:
            answers.reverse()
        count = self.judged(path, sides, answers)
        return '%s: ended with %s, and %d lines are kept' % (
            told(pair), ' and '.join(str(answer.status) for answer in answers), count)

    def judged(self, path: Path, sides: 'tuple[Side, Side]', answers: List[Answer]) -> int:
        """Looks at what two runs answered and kept. Says how many lines are kept."""
        for side, answer in zip(sides, answers):
            if answer.status not in (0, 6, 7):
                raise Wrong('a run ended with status %d: %s' % (answer.status, answer.fault.decode(errors='replace')))
            if answer.out != (side.report if answer.status == 0 else b''):
                raise Wrong('a run that ended with status %d wrote something else' % answer.status)
        if not any(answer.status == 0 for answer in answers):
            raise Wrong('both runs were refused')
        if Path(str(path) + '-wal').exists():
            raise Wrong('a log stands beside the file')
        kept = lines_in(path)
        if not any(answer.status == 0 and kept == side.lines for side, answer in zip(sides, answers)):
            raise Wrong('%d lines are kept, which are those of no run that ended' % len(kept))
        if kept_lines(sides[0].program, path) != len(kept):
            raise Wrong('an audit counts other lines')
        return len(kept)


def told(pair: Pair) -> str:
    return '%s tables, the first held %s, the second %s, the %s ends first' % (
        'the same' if pair.is_equal else 'other', pair.first.value, pair.second.value,
        'first' if pair.is_in_order else 'second')


def all_pairs() -> List[Pair]:
    """Each choice once; those that differ in the last word stand beside each other."""
    return [Pair(is_equal, first, second, is_in_order) for first, second, is_in_order, is_equal in itertools.product(
        Moment, Moment, (True, False), (True, False))]


def main(arguments: Optional[List[str]]) -> int:
    parser = argparse.ArgumentParser(description=__doc__, formatter_class=argparse.RawDescriptionHelpFormatter)
    parser.add_argument('program', type=Path, metavar='PROGRAM')
    parser.add_argument('--pairs', type=int, default=200, help='how many pairs are tried; %(default)s')
    parser.add_argument('--tables', type=Path, default=Path('.'), help='the folder of the tables; %(default)s')
    chosen, words = parser.parse_known_args(arguments)
    program = chosen.program.resolve()
    if not program.is_file():
        raise Refusal('there is no program %s' % chosen.program)
    if chosen.pairs < 1:
        raise Refusal('--pairs is at least 1')
    failed = 0
    with tempfile.TemporaryDirectory() as scratch:
        try:
            pairs = Pairs(program, words, chosen.tables, Path(scratch))
        except Wrong as wrong:
            raise Refusal(str(wrong)) from None
        for number, pair in zip(range(chosen.pairs), itertools.cycle(all_pairs())):
            try:
                print(pairs.tried(pair, number % PARTS / PARTS), flush=True)
            except Wrong as wrong:
                print('%s: %s' % (told(pair), wrong), flush=True)
                failed += 1
    print('%d passed, %d failed' % (chosen.pairs - failed, failed))
    return 1 if failed else 0


if __name__ == '__main__':
    sys.exit(ends('pairs.py', main))
