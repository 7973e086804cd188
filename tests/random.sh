#!/usr/bin/env bash
# Compares a program with the reference on random tables and words, with all processors.
#
#     tests/random.sh PROGRAM FROM TO [COMMAND..]
#
# Each number from FROM up to, and without, TO is a case, the same at each call; with COMMANDs the words are of these.
# A case takes some hundredths of a second. A case that fails is shown with how reference/tables.py makes it.
# The last line is 'N passed, M failed'; the status is 0 where none failed. (reference/compare.py --help has more.)
exec python3 "$(dirname "$(readlink -f "${BASH_SOURCE[0]}")")/../reference/compare.py" "$@"
