#!/usr/bin/env bash
# Holds a program to the reference on tables and on kept lines whose bytes were spoiled, with all processors.
#
#     tests/spoiled.sh PROGRAM FROM TO [--cases PROGRAM] [tables] [kept]
#
# Each number from FROM up to, and without, TO is a folder of tables and a list of kept lines, the same at each call.
# With --cases the lines are audited by the program of crates/omega_cases, for a program that keeps none. A case that
# fails is shown. The last line is 'N passed, M failed'; the status is 0 where none failed. (reference/spoiled.py --help
# has more.)
exec python3 "$(dirname "$(readlink -f "${BASH_SOURCE[0]}")")/../reference/spoiled.py" "$@"
