#!/usr/bin/env python3
"""Does what the program does with the same words, by the definitions alone; slow, and over plain lists.

    omega.py WORDS              writes the report to standard output, or the line of a refusal to standard error, and
                                ends with the program's exit status
    omega.py --order N WORDS    on `run`, where many reports may be right, writes one that the number chooses; without
                                it the one in which the schedulers take turns
"""
import sys

from definitions.run import answer


def main(words: list[str]) -> int:
    order = None
    if words[:1] == ['--order']:
        if not ''.join(words[1:2]).isdecimal():
            print('omega.py: a number belongs behind --order', file=sys.stderr)
            return 2
        order, words = int(words[1]), words[2:]
    out, err, status = answer(words, order=order)
    sys.stdout.buffer.write(out)
    sys.stdout.flush()
    sys.stderr.buffer.write(err)
    return status


if __name__ == '__main__':
    sys.exit(main(sys.argv[1:]))
