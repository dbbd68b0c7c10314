#!/usr/bin/env bash
# Times the serial engine, the crew and the team, alternately: on the 512-node example with windows of about 200, 2,000
# and 20,000 events, and on the examples churn64, lossy64, churn512 and churn4096. Crew and team have 1, 2, 3 and 4 workers,
# with as many parts, in blocks of neighbours. Prints a row for each way to run a scenario: the seconds of each turn, the
# processor seconds of each turn (user + system), and the least seconds as a ratio to the least of the serial engine.
#
#   examples/measure_workers.sh [TURNS [ENGINE [SECONDS]]]     3 turns if not said; crew and team, or this one of them;
#                                                              the whole scenarios, or so many simulated seconds of each
#
# CHORDSIM names another program than ./chordsim.
set -eu
# The program has large pages, as ./chordsim gives it.
export GLIBC_TUNABLES="${GLIBC_TUNABLES-glibc.malloc.hugetlb=1}"
top=$(CDPATH='' cd -- "$(dirname -- "$0")/.." && pwd)
# The launcher takes time of its own, so the program that it would start is timed.
program=${CHORDSIM:-$("$top/chordsim" --where)}
turns=${1:-3}
engines=${2:-crew team}
span=${3:-}
work=$(mktemp -d)
trap 'rm -rf "$work"' EXIT
# What `time` prints: the seconds, and those of the processors for the program and for the system.
TIMEFORMAT='%2R %2U+%2S'

# The 512-node example with this window and latency, and this timeout, in microseconds, and an audit each 100 seconds.
shaped() {
    sed -e "s/^window_us = .*/window_us = $1/" -e "s/^latency_us = .*/latency_us = $1/" \
        -e "s/^timeout_us = .*/timeout_us = $2/" -e "s/^audit_us = .*/audit_us = 100000000/" "$top/examples/churn512.toml"
}

# Runs the scenario with these arguments, and adds what it took to the row of this name.
take() {
    row=$work/rows/$1
    shift
    { time "$program" run --scenario "$work/scenario.toml" --trace "$work/trace" "$@" > "$work/report"; } 2>> "$row"
}

# Prints the row of this file. Its ratio is to these seconds.
show() {
    best=$(sort -n "$1" | head -n 1 | cut -d ' ' -f 1)
    seconds=$(cut -d ' ' -f 1 "$1" | tr '\n' ' ')
    processors=$(cut -d ' ' -f 2 "$1" | tr '\n' ' ')
    ratio=$(echo "$best $2" | awk '{ if ($2 > 0) printf "%.2f", $1 / $2; else printf "-" }')
    printf '    %-8s %s  processors: %s  ratio: %s\n' "$(basename "$1")" "$seconds" "$processors" "$ratio"
}

# Times all ways to run the scenario, which has this title.
measure() {
    [ -z "$span" ] || sed -i "s/^duration_us = .*/duration_us = ${span}000000/" "$work/scenario.toml"
    rm -rf "$work/rows"
    mkdir "$work/rows"
    for ((turn = 0; turn < turns; turn++)); do
        take serial --engine serial
        for workers in 1 2 3 4; do
            for engine in $engines; do
                take "$engine-$workers" --engine $engine --workers $workers --parts $workers --split block
            done
        done
    done
    echo "$1 ($(sed -n 's/^events //p' "$work/report") events in all)"
    least=$(sort -n "$work/rows/serial" | head -n 1 | cut -d ' ' -f 1)
    for row in "$work"/rows/serial "$work"/rows/*-*; do
        show "$row" "$least"
    done
}

while read -r events window timeout; do
    shaped "$window" "$timeout" > "$work/scenario.toml"
    measure "windows of about $events events"
done << END
200 12400 200000
2000 124000 600000
20000 4800000 18000000
END
for name in churn64 lossy64 churn512 churn4096; do
    cp "$top/examples/$name.toml" "$work/scenario.toml"
    measure "$name"
done
