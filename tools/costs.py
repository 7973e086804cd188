#!/usr/bin/env python3
"""Takes what each check of a gate costs, and writes the table of costs of docs/PROVING.md.

    costs.py FILE COMMAND..     costs.py gate.csv .ci/run
    costs.py --write FILE [--page docs/PROVING.md]

The first runs a command that proves crates, and a few times a second reads from the table of processes what the
prover's ones below it have taken. FILE has a line for each check when the command ends: the crate, what was checked
(`proof`, `tests`, an `edit` that must be refused, the `seed` that a crate's edits begin with, or `build`, a program
made of what is proved), its processor seconds, the most memory in MB, and when it began and ended in seconds since
the command did. The status is the command's. A check is seen until its last reading, so up to half a second
of it is missing, and memory is read every few seconds.

The second writes a table with a line for each crate in the order of crates.txt between the page's two marks, and
behind it the sums and the ten longest checks.
"""
import argparse
import csv
import os
import subprocess
import sys
import time
from pathlib import Path
from typing import Dict, Iterator, List, NamedTuple, Optional, Tuple

from omegatools.common import Refusal, ends

ROOT = Path(__file__).resolve().parent.parent
PROC = '/proc'
TICK = os.sysconf('SC_CLK_TCK')
PAUSE, READINGS = 0.4, 12  # seconds between two readings; readings from one of memory to the next
KINDS = ('proof', 'tests', 'seed', 'edit', 'build')
BEGIN, END = '<!-- costs -->', '<!-- end of costs -->'


class Process(NamedTuple):
    """A process: its parent, its name, and the seconds that it and those of its children that have ended took."""
    parent: int
    name: str
    seconds: float


class Check:
    """One check, while it is seen."""

    def __init__(self, crate: str, kind: str, begun: float) -> None:
        self.crate, self.kind, self.begun, self.ended = crate, kind, begun, begun
        self.seconds, self.megabytes = 0.0, 0.0

    def line(self) -> Tuple[object, ...]:
        return (self.crate, self.kind, '%.1f' % self.seconds, round(self.megabytes), '%.1f' % self.begun,
                '%.1f' % self.ended)


def processes() -> Dict[int, Process]:
    """All processes, by number. One that ends meanwhile is left out."""
    found = {}
    for number in os.listdir(PROC):
        if number.isdigit():
            try:
                with open('%s/%s/stat' % (PROC, number), 'rb') as stat:
                    before, _, behind = stat.read().rpartition(b') ')
            except OSError:
                continue
            words = behind.split()
            seconds = sum(map(int, words[11:15])) / TICK
            found[int(number)] = Process(int(words[1]), before.partition(b'(')[2].decode(errors='replace'), seconds)
    return found


def below(top: int, every: Dict[int, Process]) -> Iterator[int]:
    """A process and all that it has started, and they in turn."""
    children: Dict[int, List[int]] = {}
    for number, process in every.items():
        children.setdefault(process.parent, []).append(number)
    left = [top]
    while left:
        number = left.pop()
        yield number
        left += children.get(number, [])


def what_is_checked(words: List[str], folder: str) -> Optional[Tuple[str, str]]:
    """The crate and the kind of a check, by the prover's words and the folder that it runs in."""
    if words[1:2] not in (['check'], ['build']) or '--crate-name' not in words[:-1]:
        return None
    crate = words[words.index('--crate-name') + 1]
    if os.path.basename(folder).startswith('rt-edit-'):
        begin = words[words.index('--incremental') + 1] if '--incremental' in words[:-1] else ''
        return crate, 'seed' if os.path.basename(begin) == 'seed' else 'edit'
    if '--test' in words:
        return crate, 'tests'
    return crate, 'build' if '--crate-checked' in words else 'proof'


def megabytes(numbers: List[int]) -> float:
    """The memory of processes; what some of them share is counted once."""
    found = 0
    for number in numbers:
        try:
            with open('%s/%d/smaps_rollup' % (PROC, number)) as lines:
                found += sum(int(line.split()[1]) for line in lines if line.startswith('Pss:'))
        except OSError:
            continue
    return found / 1024


class Taking:
    """What was read so far of a command's checks."""

    def __init__(self, top: int) -> None:
        self.top, self.start, self.readings = top, time.monotonic(), 0
        self.checks: Dict[int, Optional[Check]] = {}
        self.done: List[Check] = []

    def begun(self, number: int, now: float) -> Optional[Check]:
        """The check of a process of the prover that is new."""
        try:
            with open('%s/%d/cmdline' % (PROC, number), errors='replace') as line:
                words = line.read().split('\0')
            found = what_is_checked(words, os.readlink('%s/%d/cwd' % (PROC, number)))
        except OSError:
            return None
        return Check(*found, now) if found else None

    def read(self) -> None:
        """Reads all once. A check is a process of the prover below no other."""
        now, every = time.monotonic() - self.start, processes()
        own = [it for it in below(self.top, every) if it in every and every[it].name == 'rattle']
        tops = [it for it in own if every[it].parent not in own]
        for number in [it for it in self.checks if it not in tops]:
            ended = self.checks.pop(number)
            self.done += [ended] if ended else []
        for number in tops:
            if number not in self.checks:
                self.checks[number] = self.begun(number, now)
            check = self.checks[number]
            if check:
                whole = [it for it in below(number, every) if it in every]
                check.ended, check.seconds = now, max(check.seconds, sum(every[it].seconds for it in whole))
                if self.readings % READINGS == 0:
                    check.megabytes = max(check.megabytes, megabytes(whole))
        self.readings += 1


def taken(words: List[str], file: Path) -> int:
    """Runs a command and writes what its checks took; its status."""
    with open(file, 'w', newline='') as out:
        run = subprocess.Popen(words)
        taking = Taking(run.pid)
        while run.poll() is None:
            taking.read()
            time.sleep(PAUSE)
        taking.read()
        lines = csv.writer(out, lineterminator='\n')
        lines.writerow(('crate', 'kind', 'seconds', 'megabytes', 'begun', 'ended'))
        lines.writerows(check.line() for check in taking.done)
        lines.writerow(('', 'all', '%.1f' % sum(check.seconds for check in taking.done), '', '0.0',
                        '%.1f' % (time.monotonic() - taking.start)))
    return run.returncode if run.returncode >= 0 else 128 - run.returncode


class Cost(NamedTuple):
    """A line of a file of costs."""
    crate: str
    kind: str
    seconds: float
    megabytes: float
    ended: float


def costs_in(file: Path) -> List[Cost]:
    """The lines of a file of costs, of which the last is of the whole command."""
    try:
        with open(file, newline='') as lines:
            found = [Cost(it['crate'], it['kind'], float(it['seconds']), float(it['megabytes'] or 0), float(it['ended']))
                     for it in csv.DictReader(lines)]
    except (KeyError, TypeError, ValueError):
        raise Refusal('%s is no file of costs' % file) from None
    if not found or found[-1].kind != 'all' or any(it.kind not in KINDS for it in found[:-1]):
        raise Refusal('%s is no whole file of costs' % file)
    return found


def sums(costs: List[Cost], kind: str) -> float:
    return sum(it.seconds for it in costs if it.kind == kind)


def row(crate: str, costs: List[Cost]) -> str:
    """The table's line of a crate."""
    edits = [it.seconds for it in costs if it.kind == 'edit']
    cells = ['`%s`' % crate, '%.0f' % sums(costs, 'proof'), '', '', '', '',
             '%.1f' % (max(it.megabytes for it in costs) / 1024)]
    if edits:
        cells[2:5] = [str(len(edits)), '%.0f + %.0f' % (sums(costs, 'seed'), sum(edits)), '%.0f' % max(edits)]
    if sums(costs, 'tests'):
        cells[5] = '%.0f' % sums(costs, 'tests')
    return '| %s |' % ' | '.join(cells)


def table(costs: List[Cost], crates: List[str]) -> List[str]:
    """The table, the sums and the longest checks."""
    checks, whole = costs[:-1], costs[-1]
    lines = ['| Crate | Proof | Edits | Their beginning, and all of them | Longest | With its tests | GB |',
             '|---|---|---|---|---|---|---|']
    for crate in crates:
        own = [it for it in checks if it.crate == crate]
        lines += [row(crate, own)] if own else []
    minutes = ['%.0f of %s' % (sums(checks, kind) / 60, of) for kind, of in
               (('proof', 'proofs'), ('seed', 'beginnings of edits'), ('edit', 'edits'), ('tests', 'tests'),
                ('build', 'programs'))]
    longest = ['`%s` %s %.0f' % (it.crate, it.kind, it.seconds)
               for it in sorted(checks, key=lambda it: -it.seconds)[:10]]
    return lines + ['', 'All took %.0f processor minutes (%s) and %.0f by the clock. The longest, in processor '
                    'seconds: %s.' % (whole.seconds / 60, ', '.join(minutes), whole.ended / 60, ', '.join(longest))]


def written(file: Path, page: Path) -> int:
    """Puts the table of a file of costs between the marks of a page."""
    text = page.read_text()
    if text.count(BEGIN) != 1 or text.count(END) != 1 or text.index(BEGIN) > text.index(END):
        raise Refusal('%s hasn\'t the two marks %s and %s' % (page, BEGIN, END))
    names = [line.split('#')[0].split(':')[0].split() for line in (ROOT / 'crates.txt').read_text().splitlines()]
    lines = table(costs_in(file), [it[0] for it in names if it])
    before, after = text.split(BEGIN)[0], text.split(END)[1]
    page.write_text('\n'.join([before + BEGIN, *lines, END + after]))
    return 0


def main(arguments: Optional[List[str]]) -> int:
    parser = argparse.ArgumentParser(description=__doc__, formatter_class=argparse.RawDescriptionHelpFormatter)
    parser.add_argument('--write', type=Path, metavar='FILE', help='write the table of this file')
    parser.add_argument('--page', type=Path, default=ROOT / 'docs' / 'PROVING.md', metavar='PAGE', help='into this page')
    parser.add_argument('file', type=Path, nargs='?', metavar='FILE', help='where the costs are written')
    parser.add_argument('command', nargs=argparse.REMAINDER, metavar='COMMAND', help='what proves crates')
    chosen = parser.parse_args(arguments)
    if chosen.write and not chosen.file:
        return written(chosen.write, chosen.page)
    if chosen.write or not chosen.command:
        raise Refusal('it takes a file and a command, or --write and a file')
    return taken(chosen.command, chosen.file)


if __name__ == '__main__':
    sys.exit(ends('costs.py', main))
