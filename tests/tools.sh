#!/usr/bin/env bash
# Tests the tools, in minutes: with the Python that `python3` is, and with the system's where that is another.
#
#     tests/tools.sh [PROGRAM]
#
# Where no built program is named the plain one of reference/ stands for it. What needs a Python package is
# passed over where that is missing, and says so. Where mypy and flake8 are installed (Debian has both) they look over
# the sources, too. The status is 0 where none failed.
set -u
root=$(cd "$(dirname "$(readlink -f "${BASH_SOURCE[0]}")")/.." && pwd) || exit 1
if [ $# -ge 1 ]; then
    OMEGA_PROGRAM=$(readlink -f "$1")
    if ! [ -x "$OMEGA_PROGRAM" ]; then
        echo "tests/tools.sh: there is no program $1" >&2
        exit 2
    fi
    export OMEGA_PROGRAM
fi
# Nothing is left beside the sources.
export PYTHONDONTWRITEBYTECODE=1

# Runs the tests with one Python, and prints what failed or was passed over.
tested() {
    echo "tools, with $("$1" --version) at $1:"
    "$1" -m unittest discover -b -v -s "$root/tools/tests" 2>&1 | grep -v ' \.\.\. ok$'
    return "${PIPESTATUS[0]}"
}

# Runs a program that looks over the sources, where it is installed, and says what it found.
looked_over() {
    command -v "$1" >/dev/null || return 0
    echo "tools, looked over by $1:"
    (cd "$root/tools" && "$@")
}

failed=0
"$root/docs/words.py" >/dev/null || failed=1 # no page has more words than it may
looked_over mypy --cache-dir=/dev/null || failed=1
looked_over flake8 --max-line-length 125 --exclude tests || failed=1
pythons=$(for python in "$(command -v python3)" /usr/bin/python3; do
    [ -x "$python" ] && "$python" -c 'import sys; print(sys.executable)'
done | awk '!seen[$0]++')
if [ -z "$pythons" ]; then
    echo "tests/tools.sh: there is no python3, so the tools aren't tested"
    exit $failed
fi
while read -r python; do
    tested "$python" || failed=1
done <<<"$pythons"
"$root/docs/layers.py" --check || failed=1
"$root/docs/believed.py" --check || failed=1
exit $failed
