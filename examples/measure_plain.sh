#!/usr/bin/env bash
# Times the serial engine of chordsim and the programs plain and fast of examples/plain, by turns, on the examples
# churn64, churn512, lossy64 and churn4096. All write a trace and a report, which must be the same bytes. Prints for each
# example and program the seconds of each turn, the processor seconds of each turn (user + system), the least of each,
# and the greatest resident memory. Then prints the least of each of the two as a ratio to that of chordsim: 1.00 means
# as fast.
#
#   examples/measure_plain.sh [TURNS]     so many turns, 3 if not said
#
# CHORDSIM names another program than ./chordsim. The status is 0 if there is no rustc, and 1 if trace or report differ.
set -eu
# All programs have the large pages that ./chordsim gives its own.
export GLIBC_TUNABLES="${GLIBC_TUNABLES-glibc.malloc.hugetlb=1}"
top=$(CDPATH='' cd -- "$(dirname -- "$0")/.." && pwd)
if ! command -v rustc > /dev/null; then
    echo "measure_plain: there is no rustc, which builds the plain programs: nothing is measured" >&2
    exit 0
fi
# The launcher takes time of its own, so the program that it would start is timed.
program=${CHORDSIM:-$("$top/chordsim" --where)}
turns=${1:-3}
work=$(mktemp -d)
trap 'rm -rf "$work"' EXIT
# What `time` prints: the seconds, and those of the processors for the program and for the system.
TIMEFORMAT='%3R %3U %3S'
# GNU time says how much memory a program had. Its own start counts for all programs alike.
gauge=()
if [ -x /usr/bin/time ]; then
    gauge=(/usr/bin/time -f %M -a -o "$work/memory")
else
    echo "measure_plain: there is no /usr/bin/time: no memory is measured" >&2
fi

# Runs a command, and adds what it took to the rows of this name. Its standard output is the report.
take() {
    local name=$1
    shift
    : > "$work/memory"
    { time "${gauge[@]}" "$@" > "$work/$name.report" 2> "$work/errors"; } 2>> "$work/$name.row" || {
        echo "measure_plain: $name fails:" >&2
        cat "$work/errors" >&2
        exit 1
    }
    cat "$work/memory" >> "$work/$name.memory"
}

# Runs a plain program, and fails if it writes another trace or report than chordsim.
take_plain() {
    take "$1" "$work/$1" "$work/flat" "$work/$1.trace"
    for file in trace report; do
        cmp "$work/chordsim.$file" "$work/$1.$file" >&2 || {
            echo "measure_plain: another $file of $example by $1" >&2
            exit 1
        }
    done
}

# The seconds of a row, and the processor seconds.
seconds() {
    awk '{ print $1 }' "$work/$1.row"
}
processors() {
    awk '{ printf "%.3f\n", $2 + $3 }' "$work/$1.row"
}

# The least of the numbers in the lines of the input.
least() {
    sort -n | head -n 1
}

# Prints the rows of this name.
show() {
    memory=$(sort -n "$work/$1.memory" | tail -n 1)
    printf '    %-8s  seconds: %s  processors: %s  least: %s and %s  memory: %s\n' "$1" \
        "$(seconds "$1" | paste -s -d ' ')" "$(processors "$1" | paste -s -d ' ')" \
        "$(seconds "$1" | least)" "$(processors "$1" | least)" "${memory:+$memory kB}"
}

# Prints the ratio of two numbers.
ratio() {
    echo "$1 $2" | awk '{ if ($2 > 0) printf "%.2f", $1 / $2; else printf "-" }'
}

# Prints how long a plain program took, as a ratio to chordsim.
compare() {
    printf '    %s/chordsim: %s of the seconds, %s of the processor seconds\n' "$1" \
        "$(ratio "$(seconds "$1" | least)" "$(seconds chordsim | least)")" \
        "$(ratio "$(processors "$1" | least)" "$(processors chordsim | least)")"
}

# Times all programs on an example.
measure() {
    example=$1
    scenario=$top/examples/$example.toml
    rm -f "$work"/*.row "$work"/*.memory
    "$top/examples/plain/flatten" "$scenario" -o "$work/flat"
    for ((turn = 0; turn < turns; turn++)); do
        take chordsim "$program" run --serial --scenario "$scenario" --trace "$work/chordsim.trace"
        take_plain plain
        take_plain fast
    done
    echo "$example ($(sed -n 's/^events //p' "$work/plain.report") events)"
    show chordsim
    show plain
    show fast
    compare plain
    compare fast
}

rustc --edition 2021 -O -o "$work/plain" "$top/examples/plain/main.rs"
rustc --edition 2021 -O -o "$work/fast" "$top/examples/plain/fast.rs"
for name in churn64 churn512 lossy64 churn4096; do
    measure "$name"
done
