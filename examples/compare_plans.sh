#!/bin/sh
# Runs scenarios one event at a time and by 80 plans (crew and team; 1, 2, 3, 8 and 64 workers; 1, 2, 7 and 512 parts;
# both splits), and compares the bytes of their traces and reports.
#
#   examples/compare_plans.sh FILE..     these scenario files
#   examples/compare_plans.sh -r N       N random scenarios, the same each time
#
# CHORDSIM names another program than ./chordsim.
set -eu
top=$(CDPATH='' cd -- "$(dirname -- "$0")/.." && pwd)
program=${CHORDSIM:-$top/chordsim}
work=$(mktemp -d)
trap 'rm -rf "$work"' EXIT
# Not every sh does the above when a signal ends it.
trap 'exit 129' HUP
trap 'exit 130' INT
trap 'exit 143' TERM

# Runs the scenario $scenario, with the latency file $links if there is one. The trace goes to the file $1, and the report
# and the status to $1.report. A random scenario may have more events than it allows (status 3).
play() {
    trace=$1
    shift
    status=0
    "$program" run --scenario "$scenario" ${links:+--latency "$links"} "$@" --trace "$trace" > "$trace.report" 2>&1 ||
        status=$?
    echo "status $status" >> "$trace.report"
}

# Runs a scenario by each plan, and compares what it writes with the run of one event at a time. Runs that fail have to
# fail alike; their traces end at different events.
compare() {
    scenario=$1
    links=${2:-}
    play "$work/serial" --serial
    if [ "$status" != 0 ] && [ "$status" != 3 ]; then
        cat "$work/serial.report" >&2
        exit 1
    fi
    for engine in crew team; do
        for workers in 1 2 3 8 64; do
            for parts in 1 2 7 512; do
                for split in rr block; do
                    play "$work/workers" --engine $engine --workers $workers --parts $parts --split $split
                    cmp "$work/serial.report" "$work/workers.report"
                    [ "$status" != 0 ] || cmp "$work/serial" "$work/workers"
                done
            done
        done
    done
    echo "$scenario: the same by 80 plans, $(wc -c < "$work/serial") bytes of trace"
}

usage() {
    echo "usage: examples/compare_plans.sh FILE.. | -r N" >&2
    exit 2
}

[ $# -gt 0 ] || usage
if [ "$1" = -r ]; then
    # N is a number of one to four digits, and not 0: otherwise nothing would be compared.
    [ $# -eq 2 ] && echo "$2" | grep -qx '[1-9][0-9]\{0,3\}' || usage
    seed=1
    while [ "$seed" -le "$2" ]; do
        "$top/tools/generate" --random "$seed" --links "$work/links.csv" -o "$work/random$seed.toml"
        compare "$work/random$seed.toml" "$work/links.csv"
        seed=$((seed + 1))
    done
else
    for file; do
        compare "$file"
    done
fi
