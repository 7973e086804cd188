#!/usr/bin/env python3
"""Holds a program to the reference on tables and on kept lines whose bytes were spoiled.

    spoiled.py PROGRAM FROM TO [--cases PROGRAM] [--processors N] [tables] [kept]

Each number from FROM up to, and without, TO is a folder of tables and a list of kept lines, the same at each call: bits
are flipped, bytes put in, doubled or left out, lines cut, moved or left out, marks of byte order put in front, quotes
left open, and words are such as lie beside those that are taken. The tables are replayed, in turns, on threads and by
both virtual clocks. The lines are put into a database, and the program audits them and goes on from them; or --cases names
the program of crates/omega_cases, which audits lists of lines by itself, for a program that keeps none. What is written,
the status and what is kept then must be what the reference has; a report of `run` must be that of a lawful history.
With `tables` or `kept` only the one of them. The last line is 'N passed, M failed'.
"""
import argparse
import os
import random
import subprocess
import sys
import tempfile
from collections import Counter
from concurrent.futures import Executor, ProcessPoolExecutor
from functools import partial
from typing import Iterable

from compare import Result, compared
from definitions.keep import MemoryKeeper, audit_lines
from definitions.refusals import Refusal
from drawing.cases import Case, draw_case
from drawing.command_words import COMMANDS
from drawing.spoiling import spoil_lines

OF_TABLES = ['replay', 'replay', 'run', 'simulate']
OF_LINES = ['audit', 'resume']


def spoiled_tables(number: int) -> Case:
    """A folder of which one to four places in the tables are spoiled."""
    return draw_case(number, 'small', True, [OF_TABLES[number % 4]])


def spoiled_lines(number: int, commands: list[str]) -> Case:
    """A folder with kept lines, which are spoiled besides what they may be already; its tables are not."""
    case = draw_case(number, 'small', False, [commands[number % len(commands)]])
    return case._replace(kept=spoil_lines(random.Random(f'{number} of kept lines'), case.kept or []))


def answered(program: str, kind: str, case: Case, number: int) -> Result:
    """What a program answers to a case, and what is wrong with it."""
    with tempfile.TemporaryDirectory() as folder:
        got, faults = compared(program, 'database', case, folder)
    command = next((word for word in case.words if word in COMMANDS), 'none')
    return Result(f'{kind} {number}', f'{command} {got.status}', [f'words {case.words}', *faults] if faults else [])


def of_tables(program: str, number: int) -> Result:
    return answered(program, 'tables', spoiled_tables(number), number)


def of_lines(program: str, number: int) -> Result:
    return answered(program, 'kept lines', spoiled_lines(number, OF_LINES), number)


def as_word(line: bytes) -> str:
    """A line as a word of the program of cases."""
    return '"' + ''.join(chr(byte) if 32 <= byte < 127 and byte not in b'"\\' else f'\\x{byte:02x}'
                         for byte in line) + '"'


def audit_answer(lines: list[bytes]) -> str:
    """What the program of cases has to answer to an audit of lines."""
    try:
        (_, (_, entries), use) = audit_lines(MemoryKeeper(lines))
    except Refusal as refusal:
        return 'bad ' + next(word for word in refusal.line.split() if word.isdigit())
    return f'{entries} entries used {use[2]} {use[5]} {use[8]}'


def by_cases(program: str, pool: Executor, numbers: range) -> Iterable[Result]:
    """The audits of the kept lines of all numbers, by one run of the program of cases."""
    lists = [spoiled_lines(number, OF_LINES[:1]).kept or [] for number in numbers]
    calls = ''.join('keep audit ' + ' '.join(map(as_word, lines)) + '\n' for lines in lists)
    done = subprocess.run([program], input=calls.encode(), capture_output=True)
    answers = done.stdout.decode().splitlines()
    answers += [f'none, since it ended with status {done.returncode}'] * (len(lists) - len(answers))
    for number, got, wanted in zip(numbers, answers, pool.map(audit_answer, lists, chunksize=8)):
        faults = [] if got == wanted else [f'the answer is {got}, and has to be {wanted}']
        yield Result(f'kept lines {number}', f'audit {"refused" if wanted.startswith("bad") else "done"}', faults)


def told(what: str, results: Iterable[Result]) -> tuple[int, int]:
    """Tells what failed and what came how often, and answers how many passed and failed."""
    kinds, failed = Counter(), 0
    for result in results:
        kinds[result.kind] += 1
        if result.faults:
            failed += 1
            print('==', result.made, *result.faults, sep='\n', flush=True)
    print(f'{what}, commands and statuses:', ', '.join(f'{kind}: {count}' for kind, count in sorted(kinds.items())),
          flush=True)
    return sum(kinds.values()) - failed, failed


def parsed() -> argparse.Namespace:
    parser = argparse.ArgumentParser(description=__doc__, formatter_class=argparse.RawDescriptionHelpFormatter)
    parser.add_argument('program')
    parser.add_argument('first', type=int, metavar='FROM')
    parser.add_argument('end', type=int, metavar='TO')
    parser.add_argument('--cases', metavar='PROGRAM')
    parser.add_argument('--processors', type=int, default=os.cpu_count())
    parser.add_argument('what', nargs='*', choices=['tables', 'kept', []])
    args = parser.parse_intermixed_args()
    for program in filter(None, (args.program, args.cases)):
        if not os.access(program, os.X_OK):
            parser.error(f'there is no program {program}')
    if args.processors < 1:
        parser.error('--processors is at least 1')
    return args


def main() -> int:
    args = parsed()
    numbers, what, totals = range(args.first, args.end), args.what or ['tables', 'kept'], []
    with ProcessPoolExecutor(args.processors) as pool:
        if 'tables' in what:
            work = partial(of_tables, os.path.abspath(args.program))
            totals.append(told('tables', pool.map(work, numbers, chunksize=4)))
        if 'kept' in what and args.cases:
            totals.append(told('kept lines', by_cases(os.path.abspath(args.cases), pool, numbers)))
        elif 'kept' in what:
            work = partial(of_lines, os.path.abspath(args.program))
            totals.append(told('kept lines', pool.map(work, numbers, chunksize=4)))
    passed, failed = sum(good for good, _ in totals), sum(bad for _, bad in totals)
    print(f'{passed} passed, {failed} failed')
    return 1 if failed or not passed else 0


if __name__ == '__main__':
    sys.exit(main())
