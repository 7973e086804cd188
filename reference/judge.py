#!/usr/bin/env python3
"""Judges a printed report of threads: whether some lawful history of the tables has it.

    judge.py WORDS <REPORT      WORDS are those of the run, the report is on standard input; run where the program ran

prints `lawful`, with status 0, or the first thing that is otherwise in every lawful history, with status 1. Where the
words or the tables are refused there is no report to judge, and it says so with status 2. A report of `replay` or of
`resume` must be in turns besides, and one of `simulate` in virtual time. What `generate` and `audit` print, and
`simulate` by the free clock, is compared with what they have to print.
"""
import sys

from definitions.report_reading import order_of, violation_in
from definitions.refusals import Refusal
from definitions.run import answer, reader_of
from definitions.trace import read_trace
from definitions.words import settings_of


def fault_in(words: list[str], data: bytes, cwd: str = '.') -> str | None:
    """What is wrong with a report of these words, or nothing. A refusal of words or tables is raised."""
    settings = settings_of(words)
    is_free = settings.command == 'simulate' and settings.clock == 'free'
    if settings.command in ('generate', 'audit') or is_free:
        return None if answer(words, cwd).out == data else 'this is not what has to be printed'
    trace = read_trace(reader_of(settings, cwd))
    return violation_in(settings, trace, data, order_of(settings))


def main(words: list[str]) -> int:
    try:
        fault = fault_in(words, sys.stdin.buffer.read())
    except Refusal as refusal:
        print('there is no report:', refusal.line)
        return 2
    print('lawful' if fault is None else fault)
    return 0 if fault is None else 1


if __name__ == '__main__':
    sys.exit(main(sys.argv[1:]))
