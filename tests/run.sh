#!/usr/bin/env bash
# Has a built program, or the reference, answer the cases of this folder and of examples/, and tells how many
# answers are right.
#
#     tests/run.sh PROGRAM [--small] [FOLDER..]   a program; with --small without the cases whose tables are made
#     tests/run.sh --reference [FOLDER..]         the plain program of reference/, which computed what is expected
#
# With FOLDERs, such as tests/gangs, only the cases below these. README.md says what a case is and how one is added.
# Tables are made where they are too large to be kept; these cases take a built and proved program some seconds each,
# and are none for the reference. The last line is 'N passed, M failed'; the status is 0 where none failed.
set -u

usage() {
    echo "usage: tests/run.sh PROGRAM [--small] [FOLDER..], or --reference [FOLDER..]" >&2
    exit 2
}

tests=$(dirname "$(readlink -f "${BASH_SOURCE[0]}")") || exit 2
root=$(dirname "$tests")
[ $# -gt 0 ] || usage
small=false
if [ "$1" = --reference ]; then
    small=true
    program=(python3 "$root/reference/omega.py")
else
    program=("$(readlink -f -- "$1")")
    if ! [ -f "${program[0]}" ] || ! [ -x "${program[0]}" ]; then
        echo "tests/run.sh: there is no program $1" >&2
        exit 2
    fi
fi
shift
[ "${1-}" != --small ] || { small=true && shift; }
scratch=$(mktemp -d) || exit 2
trap 'rm -rf "$scratch"' EXIT
mkdir "$scratch/empty"
echo "omega: the words are refused" >"$scratch/refusal"
passed=0
failed=0
large=0

# Runs the program in a folder with these words; what it writes goes to files. Answers its status.
answer_in() {
    local folder=$1
    shift
    (cd "$folder" && exec timeout 60 "${program[@]}" "$@") </dev/null >"$scratch/out" 2>"$scratch/err"
}

# Prints how what was written differs from what a file wants, and nothing where it doesn't; without such a file
# nothing is wanted.
differences() {
    local wanted=$1 written=$2
    [ -f "$wanted" ] || wanted=/dev/null
    cmp -s "$wanted" "$written" || diff "$wanted" "$written" | head -n 20
}

# Counts a case, of which a function prints what is wrong. One in which that function comes to no end is wrong, too.
count() { # NAME FUNCTION WORDS..
    local name=$1 faults
    shift
    faults=$("$@") || faults+=" it can't be tried"
    if [ -z "$faults" ]; then
        passed=$((passed + 1))
    else
        failed=$((failed + 1))
        printf '== %s\n%s\n' "$name" "$faults"
    fi
}

# Whether a folder's run finds kept lines, or a file where they would be, and what it leaves is looked at.
is_kept() {
    [ -f "$1/kept" ] || [ -f "$1/kept-bytes" ] || [ -f "$1/kept-sql" ]
}

# Prints the file in which these words have lines kept.
kept_file() {
    local word before='' file=omega.db
    for word in "$@"; do
        [ "$before" != --kept ] || file=$word
        [ "${word#--kept=}" = "$word" ] || file=${word#--kept=}
        before=$word
    done
    printf %s "$file"
}

# Prints what is wrong with the answer to a folder's words. Where the folder has kept lines, or its tables are made,
# the run is in a copy of it.
faults_in() {
    local words status wanted=0 where=$1 base
    mapfile -t words <"$1/words"
    if [ -f "$1/make.sh" ]; then
        where=$scratch/copy
        copy_with_made "$1" || echo "its tables weren't made"
    fi
    if is_kept "$1"; then
        where=$scratch/copy
        base=$where/$(kept_file "${words[@]}")
        copy_with_kept "$1" "$base"
    fi
    answer_in "$where" "${words[@]}"
    status=$?
    differences "$1/report.txt" "$scratch/out"
    differences "$1/fault.txt" "$scratch/err"
    [ -f "$1/status" ] && wanted=$(<"$1/status")
    [ "$status" = "$wanted" ] || echo "the status is $status, and $wanted is wanted"
    if is_kept "$1"; then
        kept_differences "$1" "$base"
        [ "$wanted" != 0 ] || faults_again "$1" "$where" "$base" "${words[@]}"
    fi
    rm -rf "$scratch/copy"
}

# Prints what is wrong where a run is made once more over what it has left in the database: it must answer the same,
# and keep no more.
faults_again() {
    local case=$1 where=$2 base=$3
    shift 3
    answer_in "$where" "$@" || echo "made again it ends with status $?"
    differences "$case/report.txt" "$scratch/out"
    kept_differences "$case" "$base"
}

# Makes a copy of a folder, and in it the tables that its script makes.
copy_with_made() {
    rm -rf "$scratch/copy"
    cp -r "$1" "$scratch/copy"
    (cd "$scratch/copy" && exec bash ./make.sh)
}

# Makes a copy of a folder, and in it a database of its kept lines, if it has any, or the file that it has instead, or
# that its statements make.
copy_with_kept() {
    rm -rf "$scratch/copy"
    cp -r "$1" "$scratch/copy"
    [ ! -f "$1/kept-bytes" ] || cp "$1/kept-bytes" "$2"
    [ ! -f "$1/kept-sql" ] || python3 "$root/reference/kept.py" make "$2" <"$1/kept-sql"
    [ ! -f "$2" ] || cp "$2" "$scratch/before"
    [ ! -s "$1/kept" ] || python3 "$root/reference/kept.py" put "$2" <"$1/kept"
}

# Prints how the lines that a database has differ from those that a folder wants kept: the same as before, where it
# doesn't say otherwise. The database has to have them without a log, and where none are wanted none is made. A file
# that stands where the database would be has to stay as it is.
kept_differences() {
    local wanted=$1/kept
    [ ! -f "$1/kept-after" ] || wanted=$1/kept-after
    if [ -f "$1/kept-bytes" ] || [ -f "$1/kept-sql" ]; then
        cmp "$scratch/before" "$2" 2>&1
    elif [ -f "$2" ]; then
        [ ! -e "$2-wal" ] || echo "a log stands beside the database"
        python3 "$root/reference/kept.py" get "$2" >"$scratch/after"
        differences "$wanted" "$scratch/after"
        [ -s "$wanted" ] || echo "a database was made to keep nothing"
    else
        differences "$wanted" /dev/null
    fi
}

# Prints what is wrong with the answer to words that must be refused, in a folder without tables.
faults_of_refused() {
    answer_in "$scratch/empty" "$@"
    [ $? = 2 ] || echo "the status isn't 2"
    differences /dev/null "$scratch/out"
    differences "$scratch/refusal" "$scratch/err"
}

# The cases of a file of refused words: on each line what is shown, a colon, and the words as a shell has them.
try_refused() {
    local line words
    while IFS= read -r line; do
        eval "words=(${line#*:})" || words=(replay) # which isn't refused, so that this line fails
        count "refused, ${line%%:*}" faults_of_refused "${words[@]}"
    done <"$1"
}

# Prints what is wrong with the answer to the tables of a folder, of which one has this text in place of its own. With
# status 0 the line must stand in the report, else be the refusal.
faults_of_text() {
    local folder=$1 table=$2 text=$3 wanted=$4 line=$5 status
    rm -rf "$scratch/copy"
    cp -r "$folder" "$scratch/copy"
    printf %b "$text" >"$scratch/copy/$table.csv"
    answer_in "$scratch/copy" replay
    status=$?
    [ "$status" = "$wanted" ] || echo "the status is $status, and $wanted is wanted"
    if [ "$wanted" = 0 ]; then
        grep -qxF -- "$line" "$scratch/out" || echo "the report has no line '$line'"
        differences /dev/null "$scratch/err"
    else
        differences /dev/null "$scratch/out"
        echo "omega: $line" | cmp -s - "$scratch/err" || echo "it says '$(<"$scratch/err")', and '$line' is wanted"
    fi
}

# The cases of a file of texts: on each line what is shown, the table, its text as `printf %b` has it, the status and
# a line, with a bar between two of them. A line that begins with # says something of those behind it.
try_texts() {
    local shown table text wanted line
    while IFS='|' read -r shown table text wanted line; do
        case $shown in
        '#'*) ;;
        *) count "$shown" faults_of_text "${1%/*}" "$table" "$text" "$wanted" "$line" ;;
        esac
    done <"$1"
}

# Whether a case is too large for this run.
is_too_large() {
    $small && [ -f "$1/make.sh" ]
}

# Counts a folder's case, unless it is too large.
try_folder() {
    if is_too_large "$1"; then
        large=$((large + 1))
    else
        count "$(realpath --relative-to="$root" "$1")" faults_in "$1"
    fi
}

[ $# -gt 0 ] || set -- "$tests" "$root/examples"
for folder in "$@"; do
    if ! [ -e "$folder" ]; then
        echo "tests/run.sh: there is no folder $folder" >&2
        exit 2
    fi
done
while IFS= read -r -d '' file; do
    case ${file##*/} in
    words) try_folder "${file%/words}" ;;
    refused) try_refused "$file" ;;
    texts) try_texts "$file" ;;
    esac
done < <(find "$@" -type f \( -name words -o -name refused -o -name texts \) -print0 | sort -z)
[ "$large" = 0 ] || echo "cases of large tables, which were passed over: $large"
echo "$passed passed, $failed failed"
[ "$failed" -eq 0 ] && [ "$passed" -gt 0 ]
