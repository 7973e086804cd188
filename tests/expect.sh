#!/usr/bin/env bash
# Has the reference answer the words of a folder, and writes what it answers as what is expected of the program.
#
#     tests/expect.sh FOLDER..
#
# The files are report.txt, fault.txt, status and kept-after, as run.sh has them. Look at what was written before it is
# committed.
set -u
reference=$(dirname "$(readlink -f "${BASH_SOURCE[0]}")")/../reference
[ $# -gt 0 ] || { echo "usage: tests/expect.sh FOLDER.." >&2; exit 2; }

# Prints the file in which these words have lines kept.
kept_file() {
    local word before='' file=omega.db
    for word in "$@"; do
        [ "$before" != --kept ] || file=$word
        [ "${word#--kept=}" = "$word" ] || file=${word#--kept=}
        before=$word
    done
    printf %s "$file"
}

# Writes what the reference answers to the words in the folder where this is called.
answer() {
    local words base
    mapfile -t words <words || return 1
    base=$(kept_file "${words[@]}")
    [ ! -f kept-bytes ] || cp kept-bytes "$base"
    [ ! -f kept-sql ] || python3 "$reference/kept.py" make "$base" <kept-sql
    [ ! -s kept ] || python3 "$reference/kept.py" put "$base" <kept
    python3 "$reference/omega.py" "${words[@]}" >report.txt 2>fault.txt
    echo $? >status
    [ ! -f kept ] || kept_in "$base" >kept-after
    [ ! -f "$base" ] || rm "$base"
}

# Writes the lines that a database has; none where there is no such file.
kept_in() {
    [ ! -f "$1" ] || python3 "$reference/kept.py" get "$1"
}

# Takes off the files that say no more than that they might be missing.
thin_out() {
    [ -s report.txt ] || rm report.txt
    [ -s fault.txt ] || rm fault.txt
    [ "$(<status)" != 0 ] || rm status
    [ ! -f kept ] || ! cmp -s kept kept-after || rm kept-after
}

for folder in "$@"; do
    (cd "$folder" && answer && thin_out) || exit 2
done
