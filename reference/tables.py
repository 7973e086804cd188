#!/usr/bin/env python3
"""Makes random tables and words, rich in edge cases, the same at each call with the same number.

    tables.py NUMBER FOLDER [--size SIZE] [--spoil] [COMMAND..]

writes to the folder the tables, `words`, one word a line, and for `resume` and `audit` `kept`, the lines that are kept
before, one a line. --spoil spoils the tables byte by byte besides. Where commands are named, the words are of these.
"""
import argparse

from drawing.cases import draw_case, write_case
from drawing.command_words import COMMANDS
from drawing.scenes import SIZES


def main() -> None:
    parser = argparse.ArgumentParser(description=__doc__, formatter_class=argparse.RawDescriptionHelpFormatter)
    parser.add_argument('number', type=int, help='which tables')
    parser.add_argument('folder', help='where they are written')
    parser.add_argument('--size', choices=SIZES, default='small')
    parser.add_argument('--spoil', action='store_true', help='spoil one to four places in the bytes')
    parser.add_argument('commands', nargs='*', metavar='COMMAND', help='the words are of these commands')
    args = parser.parse_intermixed_args()
    unknown = set(args.commands) - set(COMMANDS)
    if unknown:
        parser.error(f'no such command: {" ".join(sorted(unknown))}')
    write_case(draw_case(args.number, args.size, args.spoil, args.commands), args.folder)


if __name__ == '__main__':
    main()
