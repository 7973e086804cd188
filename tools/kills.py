#!/usr/bin/env python3
"""Ends runs of omega by SIGKILL while they keep their history, and sees that each goes on to the right report.

    kills.py PROGRAM [--moments 20] WORDS..
    kills.py crates/omega/out/omega --tables cell --batch 4

First `replay WORDS` tells the report, and a whole `resume WORDS` into a new file how long one takes. Then, for
each of so many moments, evenly over that time, a resume into a new file is ended. What it leaves has to be the
lines of an audit that finds nothing to refuse, a second resume has to end with the report, and an audit of the
file must then count as many lines as one of the whole run. A run that ends before its moment tells anew how
long one takes, and the moment is tried again, a few times. Each moment is a line: when it was, how many lines
were kept by then, and how many in the end. The last line is 'N passed, M failed'; the status is 0 where none
failed.
"""
import argparse
import os
import signal
import subprocess
import sys
import tempfile
import time
from pathlib import Path
from typing import List, NamedTuple, Optional

from omegatools.common import Refusal, ends

TRIES = 5   # of a moment


class Answer(NamedTuple):
    """What a program wrote, and its status."""
    out: bytes
    fault: bytes
    status: int


class Wrong(Exception):
    """Something isn't as it has to be; says what."""


def answer_of(program: Path, words: List[str]) -> Answer:
    done = subprocess.run([str(program)] + words, stdin=subprocess.DEVNULL, capture_output=True)
    return Answer(done.stdout, done.stderr, done.returncode)


def report_of(program: Path, words: List[str]) -> bytes:
    """The report of a run that has to end well."""
    answer = answer_of(program, words)
    if answer.status != 0:
        raise Wrong('%s ended with status %d: %s' % (words[0], answer.status,
                                                     answer.fault.decode(errors='replace').strip()))
    return answer.out


def kept_lines(program: Path, path: Path) -> int:
    """How many lines a file has, by an audit of it."""
    lines = report_of(program, ['audit', '--kept', str(path)]).decode().splitlines()
    if len(lines) != 3 or not lines[1].startswith('legal '):
        raise Wrong('an audit printed other lines')
    return int(lines[1].split()[1])


def end_after(program: Path, words: List[str], seconds: float) -> bool:
    """Starts a run, and ends it by SIGKILL after so long; whether it was still at work then."""
    run = subprocess.Popen([str(program)] + words, stdin=subprocess.DEVNULL, stdout=subprocess.DEVNULL,
                           stderr=subprocess.DEVNULL, start_new_session=True)
    try:
        run.wait(seconds)
        return False
    except subprocess.TimeoutExpired:
        os.killpg(run.pid, signal.SIGKILL)
        run.wait()
        return True


class Runs:
    """A program and words, with what a whole run comes to: its report, how many lines it keeps, and its seconds."""

    def __init__(self, program: Path, words: List[str], folder: Path) -> None:
        self.program, self.words, self.folder = program, words, folder
        self.files = 0
        self.report = report_of(program, ['replay'] + words)
        path = self.new_file()
        begin = time.monotonic()
        if report_of(program, self.resume(path)) != self.report:
            raise Wrong('a whole resume prints another report than replay')
        self.seconds = time.monotonic() - begin
        self.lines = kept_lines(program, path)

    def new_file(self) -> Path:
        self.files += 1
        return self.folder / ('%d.db' % self.files)

    def resume(self, path: Path) -> List[str]:
        return ['resume', '--kept', str(path)] + self.words

    def ended(self, part: float) -> Path:
        """The file of a run that was ended when this part of its time was over; of the last one that was tried,
        where all ended by themselves."""
        for _ in range(TRIES):
            path = self.new_file()
            begin = time.monotonic()
            if end_after(self.program, self.resume(path), part * self.seconds):
                break
            self.seconds = time.monotonic() - begin
        return path

    def tried(self, part: float) -> str:
        """Ends a run at one moment and has another go on. Says what was kept."""
        path = self.ended(part)
        told = 'ended after %.3f s of %.3f' % (part * self.seconds, self.seconds)
        before = kept_lines(self.program, path)
        if report_of(self.program, self.resume(path)) != self.report:
            raise Wrong('%s: the report isn\'t that of replay' % told)
        after = kept_lines(self.program, path)
        if after != self.lines:
            raise Wrong('%s: %d lines in the end, and %d are wanted' % (told, after, self.lines))
        return '%s: %d lines, then %d' % (told, before, after)


def main(arguments: Optional[List[str]]) -> int:
    parser = argparse.ArgumentParser(description=__doc__, formatter_class=argparse.RawDescriptionHelpFormatter)
    parser.add_argument('program', type=Path, metavar='PROGRAM')
    parser.add_argument('--moments', type=int, default=20, help='how many runs are ended; %(default)s')
    chosen, words = parser.parse_known_args(arguments)
    program = chosen.program.resolve()
    if not program.is_file():
        raise Refusal('there is no program %s' % chosen.program)
    if chosen.moments < 1:
        raise Refusal('--moments is at least 1')
    failed = 0
    with tempfile.TemporaryDirectory() as scratch:
        try:
            runs = Runs(program, words, Path(scratch))
        except Wrong as wrong:
            raise Refusal(str(wrong)) from None
        for moment in range(chosen.moments):
            try:
                print(runs.tried(moment / chosen.moments), flush=True)
            except Wrong as wrong:
                print(wrong, flush=True)
                failed += 1
    print('%d passed, %d failed' % (chosen.moments - failed, failed))
    return 1 if failed else 0


if __name__ == '__main__':
    sys.exit(ends('kills.py', main))
