#!/usr/bin/env python3
"""Compares a program with the reference on random tables and words.

    compare.py PROGRAM FROM TO [--keeper memory] [--processors N] [COMMAND..]

Each number from FROM up to, and without, TO is a case: of four one has tables spoiled byte by byte, and of ten one is
of medium size. The program runs in a folder with the tables. Standard output, standard error and the exit status must
be those of the reference; a report of `run` must be that of a lawful history; and what is kept must be the same. A case
that fails is shown with how `tables.py` makes it. Where commands are named, the words are of these. `--keeper memory`
is for a program whose kept lines begin empty and end with it.
"""
import argparse
import os
import subprocess
import sys
import tempfile
from collections import Counter
from concurrent.futures import ProcessPoolExecutor
from functools import partial
from typing import NamedTuple

from definitions.keep import DatabaseKeeper, MemoryKeeper
from definitions.refusals import Refusal
from definitions.run import Answer, answer
from definitions.words import settings_of
from drawing.cases import Case, draw_case, write_case
from drawing.command_words import COMMANDS
from judge import fault_in

SECONDS = 60


class Result(NamedTuple):
    """What came of a case: how it is made, the command with the status, and what was wrong."""
    made: str
    kind: str
    faults: list[str]


def size_of(number: int) -> str:
    return 'medium' if number % 10 == 9 else 'small'


def is_spoiled(number: int) -> bool:
    return number % 4 == 3


def kept_path(words: list[str]) -> str:
    """Where the words have the lines kept; where they are refused nobody looks."""
    try:
        return settings_of(words).kept
    except Refusal:
        return 'none.db'


def run_program(program: str, words: list[str], folder: str) -> Answer:
    try:
        done = subprocess.run([program, *words], cwd=folder, capture_output=True, timeout=SECONDS)
        return Answer(done.stdout, done.stderr, done.returncode)
    except subprocess.TimeoutExpired:
        return Answer(b'', b'it takes too long', -1)


def differences(got: Answer, wanted: Answer) -> list[str]:
    """What the program answered otherwise."""
    names = ('standard output', 'standard error', 'the status')
    return [f'{name} is {one!r:.3000} and has to be {other!r:.3000}'
            for name, one, other in zip(names, got, wanted) if one != other]


def faults_of(words: list[str], folder: str, got: Answer, wanted: Answer) -> list[str]:
    """What is wrong with an answer. Of the reports of `run` all that are lawful are right."""
    if 'run' not in words or wanted.status != 0:
        return differences(got, wanted)
    fault = fault_in(words, got.out, folder) if got.status == 0 else None
    return differences(got._replace(out=b''), wanted._replace(out=b'')) + ([fault] if fault else [])


def compared(program: str, keeper: str, case: Case, folder: str) -> tuple[Answer, list[str]]:
    """Runs a case in a folder, and tells what was wrong."""
    write_case(case, folder)
    kept = (case.kept or []) if keeper == 'database' else []
    memory, base = MemoryKeeper(kept), DatabaseKeeper(os.path.join(folder, kept_path(case.words)))
    if kept:
        base.append(kept)
    wanted = answer(case.words, folder, keeper=memory)
    got = run_program(program, case.words, folder)
    faults = faults_of(case.words, folder, got, wanted)
    if keeper == 'database' and case.kept is not None and base.load() != memory.load():
        faults.append('other lines are kept')
    return got, faults


def one(program: str, keeper: str, commands: list[str], number: int) -> Result:
    """The case of a number."""
    size, spoil = size_of(number), is_spoiled(number)
    case = draw_case(number, size, spoil, commands)
    with tempfile.TemporaryDirectory() as folder:
        got, faults = compared(program, keeper, case, folder)
    made = f'tables.py {number} FOLDER --size {size}{" --spoil" if spoil else ""} {" ".join(commands)}'
    command = next((word for word in case.words if word in COMMANDS), 'none')
    return Result(made, f'{command} {got.status}', [f'words {case.words}', *faults] if faults else [])


def parsed() -> argparse.Namespace:
    parser = argparse.ArgumentParser(description=__doc__, formatter_class=argparse.RawDescriptionHelpFormatter)
    parser.add_argument('program')
    parser.add_argument('first', type=int, metavar='FROM')
    parser.add_argument('end', type=int, metavar='TO')
    parser.add_argument('--keeper', choices=['database', 'memory'], default='database')
    parser.add_argument('--processors', type=int, default=os.cpu_count())
    parser.add_argument('commands', nargs='*', metavar='COMMAND')
    args = parser.parse_intermixed_args()
    args.program = os.path.abspath(args.program)
    if not os.access(args.program, os.X_OK) or set(args.commands) - set(COMMANDS):
        parser.error('there is no such program, or no such command')
    if args.processors < 1:
        parser.error('--processors is at least 1')
    return args


def main() -> int:
    args, kinds, failed = parsed(), Counter(), 0
    with ProcessPoolExecutor(args.processors) as pool:
        work = partial(one, args.program, args.keeper, args.commands)
        for result in pool.map(work, range(args.first, args.end), chunksize=4):
            kinds[result.kind] += 1
            if result.faults:
                failed += 1
                print('==', result.made, *result.faults, sep='\n', flush=True)
    print('commands and statuses:', ', '.join(f'{kind}: {count}' for kind, count in sorted(kinds.items())))
    print(f'{args.end - args.first - failed} passed, {failed} failed')
    return 1 if failed or args.end <= args.first else 0


if __name__ == '__main__':
    sys.exit(main())
