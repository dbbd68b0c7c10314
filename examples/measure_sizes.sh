#!/usr/bin/env bash
# Times rings of the extended profile with 512, 4,096, 65,536 and 1,048,576 nodes: the examples churn512 and churn4096
# with `profile = 4`, churn65536 and million, by the serial engine and by teams of 2, 3 and 4 workers with as many parts,
# alternately.
# Prints a row for each way to run a scenario: the seconds and the processor seconds of each turn, the most memory, the
# events a second of the fastest turn, and its seconds as a ratio to the least of the serial engine. A last row times
# the start: the same scenario cut to a millisecond.
#
#   examples/measure_sizes.sh [TURNS]     the number of turns, 2 by default
#
# CHORDSIM names another program than ./chordsim. It needs GNU time (/usr/bin/time).
set -eu
# The program has large pages, as ./chordsim gives it.
export GLIBC_TUNABLES="${GLIBC_TUNABLES-glibc.malloc.hugetlb=1}"
top=$(CDPATH='' cd -- "$(dirname -- "$0")/.." && pwd)
# The launcher takes time of its own, so the program that it would start is timed.
program=${CHORDSIM:-$("$top/chordsim" --where)}
turns=${1:-2}
work=$(mktemp -d)
trap 'rm -rf "$work"' EXIT

# Runs a scenario with these arguments, and adds its seconds, processor seconds and kilobytes to the row of this name.
take() {
    row=$work/$1.row
    scenario=$2
    shift 2
    /usr/bin/time -a -o "$row" -f '%e %U %S %M' \
        "$program" run --scenario "$scenario" --trace "$work/trace" "$@" > "$work/report"
}

# Prints the row of this name, of a run with this number of events, with its ratio to these seconds.
show() {
    awk -v name="$1" -v events="$2" -v least="$3" '
        { seconds = seconds " " $1; processors = processors " " $2 + $3; if ($4 > memory) memory = $4 }
        NR == 1 || $1 < best { best = $1 }
        END {
            printf "    %-8s seconds:%s  processors:%s  memory: %.0f MB", name, seconds, processors, memory / 1000
            if (events > 0) printf "  events a second: %.2f million  ratio: %.2f", events / best / 1e6, best / least
            printf "\n"
        }' "$work/$1.row"
}

# Times all ways to run the scenario in the work folder, which has this title.
measure() {
    rm -f "$work"/*.row
    for ((turn = 0; turn < turns; turn++)); do
        take serial "$work/scenario.toml" --engine serial
        for workers in 2 3 4; do
            take "team-$workers" "$work/scenario.toml" --engine team --workers $workers --parts $workers --split block
        done
    done
    events=$(sed -n 's/^events //p' "$work/report")
    sed -e 's/^duration_us = .*/duration_us = 1000/' -e 's/^audit_us = .*/audit_us = 1000/' \
        "$work/scenario.toml" > "$work/start.toml"
    take start "$work/start.toml" --engine serial
    echo "$1 ($events events)"
    least=$(cut -d ' ' -f 1 "$work/serial.row" | sort -n | head -n 1)
    for name in serial team-2 team-3 team-4; do
        show $name "$events" "$least"
    done
    show start 0 1
}

for name in churn512 churn4096; do
    sed 's/^profile = .*/profile = 4/' "$top/examples/$name.toml" > "$work/scenario.toml"
    measure "$name in profile 4"
done
for name in churn65536 million; do
    cp "$top/examples/$name.toml" "$work/scenario.toml"
    measure $name
done
