#!/usr/bin/env python3
"""Puts kept lines into a database, or writes those that it has.

    kept.py put DATABASE <LINES     the lines go to the end of the database, which is made where it isn't there
    kept.py get DATABASE            writes its lines; none where it isn't there
    kept.py make DATABASE <SQL      makes a database of any kind by statements of SQL
"""
import sys

from definitions.keep import DatabaseKeeper, make_database
from definitions.refusals import Refusal


def main(words: list[str]) -> int:
    if words in (['--help'], ['-h']):
        print(__doc__, end='')
        return 0
    if len(words) != 2 or words[0] not in ('put', 'get', 'make'):
        print(__doc__, end='', file=sys.stderr)
        return 2
    if words[0] == 'make':
        make_database(words[1], sys.stdin.read())
        return 0
    keeper = DatabaseKeeper(words[1])
    try:
        if words[0] == 'put':
            keeper.append([line.removesuffix(b'\n') for line in sys.stdin.buffer])
        else:
            sys.stdout.buffer.write(b''.join(line + b'\n' for line in keeper.load()))
        return 0
    except Refusal as refusal:
        print(refusal.line, file=sys.stderr)
        return refusal.exit_status


if __name__ == '__main__':
    sys.exit(main(sys.argv[1:]))
