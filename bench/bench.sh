#!/usr/bin/env bash
# Times a built program on tables of real size, and prints tables for a page.
#
#     bench/bench.sh PROGRAM one MACHINES ROWS LOAD WORDS..   one line, for any scale and words
#     bench/bench.sh PROGRAM picky MACHINES ROWS LOAD WORDS.. the same, where most tasks suit one machine in a hundred
#     bench/bench.sh PROGRAM SECTION..                        some of the tables below
#     bench/bench.sh PROGRAM page                             all of them, written into docs/SPEED.md
#
# Sections: scales parts rows machines schedulers words threads constrained ends shapes chosen plans kept. ROWS are
# rows of task_events, LOAD is as in tables.py. Each line is the median of five runs (BENCH_RUNS) with their range, or one
# run that took more than ten seconds.
#
# Elapsed is the time on the clock and Processor the time of all threads. Multiple is Processor as a
# multiple of what `reading` takes for the same tables, so that machines can be compared; it is left out where
# that is less than a tenth of a second. On a machine that has other work Elapsed says nothing.
#
# Tables are made once, in the folder BENCH_DATA (default: omega-bench in the folder for temporary files;
# 1.5 GB at most). It needs Python 3, rustc for the measure, and GNU time.
set -u
here=$(cd "$(dirname "$(readlink -f "${BASH_SOURCE[0]}")")" && pwd)
data=${BENCH_DATA:-${TMPDIR:-/tmp}/omega-bench}
scale=${BENCH_SCALE:-1} # divides machines, rows and sizes, for a quick try of this script
runs=${BENCH_RUNS:-5}   # of each line
memory=/dev/shm/omega-bench.db # a file that needs no sync
status=0                # the script's own: 1 once a run has ended as none may
# Memory is had in large pages where omega.sh has it so.
[ -n "${GLIBC_TUNABLES+set}" ] || ! grep -q -e '\[madvise\]' -e '\[always\]' /sys/kernel/mm/transparent_hugepage/enabled 2>/dev/null || export GLIBC_TUNABLES=glibc.malloc.hugetlb=1

# Runs a command in a folder, and prints of its elapsed and of its processor seconds the median, the least and
# the greatest, and the greatest peak in KiB. Leaves its exit status in the file `status`.
timed() { # FOLDER OUTPUT COMMAND..
    local folder=$1 output=$2 elapsed user system peak
    shift 2
    : >"$data/times"
    for _ in $(seq "$runs"); do
        (cd "$folder" && exec /usr/bin/time -o "$data/time" -f '%e %U %S %M' timeout 900 "$@" >"$output" 2>"$data/fault")
        echo $? >"$data/status"
        read -r elapsed user system peak < <(tail -n 1 "$data/time")
        awk -v e="$elapsed" -v u="$user" -v s="$system" -v k="$peak" 'BEGIN { print e, u + s, k }' >>"$data/times"
        awk -v e="$elapsed" 'BEGIN { exit !(e > 10) }' && break
    done
    echo "$(spread 1) $(spread 2) $(cut -d' ' -f3 "$data/times" | sort -n | tail -n 1)"
}

# The median, the least and the greatest of a column of the times.
spread() { # COLUMN
    cut -d' ' -f"$1" "$data/times" | sort -n | awk '
        { at[NR] = $1 }
        END { print (NR % 2 ? at[(NR + 1) / 2] : (at[NR / 2] + at[NR / 2 + 1]) / 2), at[1], at[NR] }'
}

# Of seven numbers as `timed` prints them the cells of a table: seconds with their range, where there is one that
# is worth a word, and the peak.
cells() { # NUMBERS
    awk -v t="$1" '
        function told(median, least, greatest) {
            if (greatest - least < 0.015) return sprintf("%.2f s", median)
            return sprintf("%.2f s (%.2f to %.2f)", median, least, greatest)
        }
        BEGIN {
            split(t, at)
            printf "%s | %s | %d MiB", told(at[1], at[2], at[3]), told(at[4], at[5], at[6]), at[7] / 1024
        }'
}

# The folder of the tables of these words, made by tables.py where it is missing.
made() { # FOLDER KIND WORDS..
    local folder=$data/$1
    if ! [ -f "$folder/made" ]; then
        python3 "$here/tables.py" "$2" "$folder" "${@:3}" && touch "$folder/made" || return 1
    fi
    echo "$folder"
}

trace() { # MACHINES ROWS LOAD
    made "trace-$1-$2-$3" trace "$@"
}

# Whether the last run ended well, or in the refusal of its tables: a shape may be refused, and is read for that.
ended_well() {
    [ "$(<"$data/status")" = 0 ] || [ "$(<"$data/status")" = 3 ] || { status=1 && return 1; }
}

# What the report's last lines count: commits, and those with a claim that wasn't placed.
counts() {
    tail -c 20000 "$1" | sed 's/\],\[/\n/g; s/[][",]/ /g' |
        awk '$1 == "scheduler" { commits += $4; conflicts += $10 } END { printf "%d | %d", commits, conflicts }'
}

header() { # FIRST COLUMNS
    echo "$1 | Elapsed | Processor | Memory | Multiple | Commits | In conflict |"
    echo "$1 | Elapsed | Processor | Memory | Multiple | Commits | In conflict |" | sed 's/[^|]\{1,\}/---/g'
}

# A line: the first columns as they are handed in, and then what was measured.
measure() { # FIRST COLUMNS, FOLDER, WORDS..
    local first=$1 folder=$2 base seconds counted
    shift 2
    base=$(timed "$folder" /dev/null "$data/reading" . | cut -d' ' -f4)
    seconds=$(timed "$folder" "$data/report" "$program" "$@")
    if ! ended_well; then
        echo "$first | status $(<"$data/status") | | | | | |"
        return
    fi
    counted=$(counts "$data/report")
    awk -v first="$first" -v cells="$(cells "$seconds")" -v t="$seconds" -v base="$base" -v counted="$counted" 'BEGIN {
        split(t, at)
        multiple = base < 0.1 ? "" : sprintf("%.1f", at[4] / base)
        printf "%s | %s | %s | %s |\n", first, cells, multiple, counted }'
}

one() { # MACHINES ROWS LOAD WORDS..
    of_kind trace "$@"
}

picky() { # MACHINES ROWS LOAD WORDS..
    of_kind picky "$@"
}

of_kind() { # KIND MACHINES ROWS LOAD WORDS..
    local kind=$1 machines=$(($2 / scale + 1)) rows=$(($3 / scale)) load=$4 folder
    [ "$scale" = 1 ] && machines=$2
    shift 4
    folder=$(made "$kind-$machines-$rows-$load" "$kind" "$machines" "$rows" "$load") || exit 1
    measure "| $machines | $rows | $load | \`$*\`" "$folder" "$@"
}

scales() {
    header '| Machines | Rows of tasks | Load | Words'
    one 1000 100000 75 replay
    one 12500 100000 75 replay
    one 12500 1000000 75 replay
    one 12500 1000000 160 replay
    one 12500 1000000 160 replay --batch 8 --preempt service
}

# What the parts cost, told by runs that leave parts out.
parts() {
    local folder rows=$((1000000 / scale)) bad
    folder=$(trace $((12500 / scale)) "$rows" 75) || exit 1
    bad=$data/refused-at-the-end-$rows
    rm -rf "$bad"
    cp -r "$folder" "$bad"
    echo 'x,1' >>"$bad/machine_disk.csv"
    echo '| What is done | Elapsed | Processor | Memory |'
    echo '|---|---|---|---|'
    part 'only reading: the last row of the last table is refused' "$bad" replay
    part 'reading, and all rows in one round: few tasks are left to place' "$folder" replay --window 1099511627776
    part 'everything, with rounds of five minutes' "$folder" replay
    part 'everything, with rounds of an hour' "$folder" replay --window 3600000000
    part 'everything, with the report as JSON' "$folder" replay --format json
}

part() { # WHAT FOLDER WORDS..
    local what=$1 folder=$2 seconds
    shift 2
    seconds=$(timed "$folder" "$data/report" "$program" "$@")
    ended_well || what="$what (status $(<"$data/status"))"
    echo "| $what | $(cells "$seconds") |"
}

rows() {
    header '| Machines | Rows of tasks | Load | Words'
    for n in 100000 200000 400000 800000 1600000; do one 12500 $n 75 replay; done
}

machines() {
    header '| Machines | Rows of tasks | Load | Words'
    for n in 1000 2000 4000 8000 16000 32000; do one $n 400000 75 replay; done
}

schedulers() {
    header '| Machines | Rows of tasks | Load | Words'
    for n in 1 2 4 8 16 30; do one 12500 400000 75 replay --batch $n; done
}

words() {
    header '| Machines | Rows of tasks | Load | Words'
    for choice in '' '--rule coarse' '--mode gang' '--preempt service' '--preempt all' '--extra max' '--extra cap' '--format json'; do
        # shellcheck disable=SC2086
        one 4000 400000 300 replay --batch 8 $choice
    done
}

threads() {
    header '| Machines | Rows of tasks | Load | Words'
    for n in 1 2 4 8 16; do
        one 12500 400000 75 replay --batch $n
        one 12500 400000 75 run --batch $n
    done
    one 12500 400000 75 run --batch 8 --rule coarse
    one 12500 400000 160 run --batch 8 --preempt service
}

# Where most tasks have a constraint that one machine in a hundred meets, so that plans are most of the work.
constrained() {
    header '| Machines | Rows of tasks | Load | Words'
    for n in 1 8 30; do
        picky 12500 400000 90 replay --batch $n
        picky 12500 400000 90 run --batch $n
    done
}

# By the free clock, where tasks end by the trace and where each runs for as long as it did there.
ends() {
    header '| Machines | Rows of tasks | Load | Words'
    for n in 1 8 30; do
        one 12500 1000000 75 simulate --clock free --window 1000000 --ends trace --batch $n
        one 12500 1000000 75 simulate --clock free --window 1000000 --ends own --batch $n
    done
}

shapes() {
    header '| Shape | Size | Words'
    shape one_job 100000 replay
    shape apart 20000 replay
    shape never_fits 50000 replay
    shape one_machine 100000 replay
    shape long_runs 50000 replay
    shape attributes 50000 replay
    shape scarce 5000 replay --preempt all
    shape map_reduce 20000 replay
}

# Shapes that a stranger could choose, so that a loop is long.
chosen() {
    header '| Shape | Size | Words'
    shape victims 20000 replay --preempt all
    shape one_by_one 2000 replay --preempt all
    shape updates 2000 replay
    shape shrinking 2000 replay
    shape crowded 5000 replay --preempt all
    shape levels 32768 replay --batch 8 --preempt all
    shape levels 32768 run --batch 8 --preempt all
    shape ranks 255 replay --batch 2 --preempt all
    shape ranks 5000 replay --batch 2 --preempt all
    shape ranks_in_turn 500 replay --batch 2 --preempt all
    shape taking_over 2000 run
    shape same_tree 100000 replay
    shape other_trees 100000 replay
    shape one_note 100000 replay
    shape machines_apart 25000 replay
    shape machines_in_row 25000 replay
    shape constraints 5000 replay
    shape matched 5000 replay
    shape unset_in_order 20000 replay
    shape unset_backwards 50000 replay
    shape set_in_turn 50000 replay
    shape nowhere 5000 replay
    shape lopsided 5000 replay
    shape many_rounds 10000 replay
    shape overtaken 50000 simulate --clock free --window 1000000
    shape overtaken 50000 simulate --clock free --window 1000000 --batch 8
    shape due_at_once 200000 simulate --clock free --ends own --window 1000000
    shape held_back 200000 simulate --clock free --ends own --window 1000000
    shape ends_beside_extras 5000 simulate --clock free --ends own --window 1000000 --extra cap --cap 0
    shape comes_back 10000 replay
    shape given_up 2000 replay --give-up 1
    shape large_job 500000 replay
    shape one_waits 2000 replay
    shape restarts 2000 replay
    shape most_ended 50000 replay
    shape left_apart 50000 replay
    shape short_rounds 100000 replay --window 1
    shape short_rounds 5000 run --window 1
    shape extras 10 replay --extra max
    shape many_extras 2000 replay --extra max
    shape extras_alike 20 replay --extra max
    shape commas 10000000 replay
    shape commas_quoted 10000000 replay
    shape too_many_rows 5000000 replay
    shape quotes 10000000 replay
    shape long_text 5000000 replay
}

# What a plan of one task costs on cells of different size.
plans() {
    header '| Shape | Machines | Words'
    local n
    for n in 1250 12500; do sized half_full "$n" replay; done
    for n in 1250 12500; do sized full "$n" replay; done
    for n in 1250 12500; do sized evicting "$n" replay --preempt all; done
    for n in 1250 12500; do sized too_little "$n" replay --preempt all; done
}

# A shape at a size and at twice that size.
shape() { # NAME SIZE WORDS..
    local name=$1 size=$(($2 / scale + 1)) n
    [ "$scale" = 1 ] && size=$2
    shift 2
    for n in "$size" $((2 * size)); do
        sized "$name" "$n" "$@"
    done
}

sized() { # NAME SIZE WORDS..
    local size=$2 folder what
    what=$(python3 "$here/tables.py" | sed -n "s/^$1: //p")
    folder=$(made "shape-$1-$2" "$1" "$2") || exit 1
    shift 2
    measure "| $what | $size | \`$*\`" "$folder" "$@"
}

# What it costs to keep a run in a file, to go on from a whole one, and to audit it. In memory a file needs no sync.
kept() {
    local folder n base=$data/kept.db
    folder=$(trace $((12500 / scale)) $((1000000 / scale)) 75) || exit 1
    echo '| What is done | Elapsed | Processor | Memory |'
    echo '|---|---|---|---|'
    part '`replay`' "$folder" replay
    if [ -w /dev/shm ]; then
        trap 'rm -f "$memory" "$memory-wal"' EXIT
        kept_anew "$folder" "$memory" ' in memory'
    fi
    kept_anew "$folder" "$base" ''
    part '`resume` of the whole file' "$folder" resume --kept "$base"
    part '`audit` of it' "$folder" audit --kept "$base"
    for n in $((1000 / scale)) $((2000 / scale)); do
        viewed "$data/viewed.db" "$n"
        part "\`audit\` of a database without lines that has $n views" "$folder" audit --kept "$data/viewed.db"
    done
    echo
    echo "The file has $(($(stat -c %s "$base") / 1048576)) MiB: $(tail -c 2000 "$data/kept-report" | sed -n 's/^entries \([0-9]*\) rounds \([0-9]*\)$/\1 entries of \2 rounds/p')."
}

# Makes a database that has so many views and nothing else.
viewed() { # FILE COUNT
    rm -f "$1"
    python3 - "$@" <<'END'
import sqlite3
import sys

base = sqlite3.connect(sys.argv[1])
for number in range(int(sys.argv[2])):
    base.execute('CREATE VIEW view_%d AS SELECT 1 AS place, 2 AS line' % number)
base.commit()
END
}

# A line: a run that is kept in a new file, each time it is made.
kept_anew() { # FOLDER FILE WHERE
    local seconds
    # shellcheck disable=SC2016
    seconds=$(timed "$1" "$data/kept-report" sh -c 'rm -f "$1" "$1-wal"; exec "$0" resume --kept "$1"' "$program" "$2")
    ended_well || set -- "$1" "$2" "$3 (status $(<"$data/status"))"
    echo "| \`resume\` into a new file$3 | $(cells "$seconds") |"
}

sections=(scales parts rows machines schedulers words threads constrained ends shapes chosen plans kept)

# Puts what each section prints between that section's marks on the page, and the date and the processor above.
page() {
    local page=$here/../docs/SPEED.md section
    for section in about "${sections[@]}"; do
        echo "bench.sh: $section" >&2
        "$section" >"$data/section"
        awk -v section="$section" -v from="$data/section" '
            $0 == "<!-- bench: " section " -->" { print; while ((getline line < from) > 0) print line; inside = 1; next }
            $0 == "<!-- end -->" { inside = 0 }
            !inside { print }' "$page" >"$data/page" && cp "$data/page" "$page"
    done
}

about() {
    echo "Measured on $(date -u +%Y-%m-%d), $(nproc) processors: $(sed -n 's/^model name[[:space:]]*: //p' /proc/cpuinfo | head -n 1)."
}

print_help() {
    sed -n '2,/^set -u/s/^# \{0,1\}//p' "${BASH_SOURCE[0]}"
}

if [ "${1-}" = --help ]; then
    print_help
    exit
fi
if [ $# -lt 2 ]; then
    print_help >&2
    exit 2
fi
program=$(readlink -f "$1")
shift
if ! [ -x "$program" ]; then
    echo "bench.sh: there is no program $program" >&2
    exit 2
fi
needed=(python3 /usr/bin/time)
[ -x "$data/reading" ] || needed+=(rustc)
for tool in "${needed[@]}"; do
    if ! command -v "$tool" >/dev/null; then
        echo "bench.sh: there is no $tool" >&2
        exit 2
    fi
done
mkdir -p "$data" && data=$(cd "$data" && pwd) || exit 1
[ -x "$data/reading" ] || rustc -O --edition 2021 -o "$data/reading" "$here/reading.rs" || exit 1
case $1 in
one | picky)
    if [ $# -lt 5 ]; then
        print_help >&2
        exit 2
    fi
    header '| Machines | Rows of tasks | Load | Words'
    "$@"
    ;;
page) page ;;
*)
    for section in "$@"; do
        case " ${sections[*]} " in
        *" $section "*) "$section" ;;
        *) echo "bench.sh: there is no section $section" >&2; exit 2 ;;
        esac
        echo
    done
    ;;
esac
[ "$status" = 0 ]
