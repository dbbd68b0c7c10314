#!/usr/bin/env bash
# Times PHOLD by `phold` with 1, 2 and 4 workers, by plain Rust, by the bare event core of ns-3 and by the actors of
# SimGrid, alternately, for three shares of remote hops and three numbers of pending events. Prints a row for each: the
# events, and for each program the events a second of its fastest turn, in millions.
#
#   examples/peers/measure.sh PHOLD [TURNS]     the program `phold`, and the number of turns, 3 by default
#
# It needs rustc, g++ and Debian's libns3-dev, and GNU time (/usr/bin/time). All programs must print the same report.
# SimGrid, which is by far the slowest, runs in the first turn alone. Without Debian's libsimgrid-dev, or if the memory
# is too small for its actors, it prints `-` for SimGrid.
set -eu
# All programs have the large pages that ./chordsim gives its own.
export GLIBC_TUNABLES="${GLIBC_TUNABLES-glibc.malloc.hugetlb=1}"
here=$(CDPATH='' cd -- "$(dirname -- "$0")" && pwd)
phold=$1
turns=${2:-3}
work=$(mktemp -d)
trap 'rm -rf "$work"' EXIT
rustc -O -C target-cpu=x86-64-v2 -o "$work/plain" "$here/phold.rs"
g++ -O2 -march=x86-64-v2 -I"$here" "$here/phold_ns3.cpp" -o "$work/ns3" "$(ls /usr/lib/*/libns3*core*.so | head -1)"
if g++ -fsyntax-only -include simgrid/s4u.hpp -x c++ /dev/null 2> "$work/missing"; then
    g++ -O2 -march=x86-64-v2 -I"$here" "$here/phold_simgrid.cpp" -o "$work/simgrid" -lsimgrid
fi

# Runs one program, and keeps its least seconds under this name. SimGrid may refuse the setting, with status 2.
take() {
    name=$1
    shift
    status=0
    /usr/bin/time -o "$work/time" -f '%e' "$@" > "$work/report.$name" || status=$?
    [ "$name $status" != "simgrid 2" ] || return 0
    [ "$status" = 0 ] || { echo "$name ends with status $status" >&2; exit 1; }
    seconds=$(cat "$work/time")
    least=$(cat "$work/least.$name" 2>/dev/null || echo "$seconds")
    awk -v a="$seconds" -v b="$least" 'BEGIN { print a < b ? a : b }' > "$work/least.$name"
    cmp -s "$work/report.$name" "$work/report.serial" || { echo "$name prints another report" >&2; exit 1; }
}

# One row: nodes, jobs, remote share, duration.
row() {
    rm -f "$work"/least.*
    for turn in $(seq "$turns"); do
        set -- "$1" "$2" "$3" "$4"
        options="--nodes $1 --jobs $2 --remote $3 --duration $4"
        : > "$work/report.serial"
        "$phold" $options > "$work/report.serial"
        for workers in 1 2 4; do take "workers$workers" "$phold" $options --workers "$workers"; done
        take plain "$work/plain" "$1" "$2" "$3" "$4"
        take ns3 "$work/ns3" "$1" "$2" "$3" "$4"
        [ ! -e "$work/simgrid" ] || [ "$turn" != 1 ] || take simgrid "$work/simgrid" "$1" "$2" "$3" "$4"
    done
    events=$(awk '$1 == "events" { print $2 }' "$work/report.serial")
    printf 'nodes=%s jobs=%s remote=%s events=%s ' "$1" "$2" "$3" "$events"
    for name in workers1 workers2 workers4 plain ns3 simgrid; do
        [ -e "$work/least.$name" ] || { printf ' %s=-' "$name"; continue; }
        awk -v name="$name" -v events="$events" '{ printf " %s=%.2f", name, events / $1 / 1e6 }' "$work/least.$name"
    done
    echo
}

for remote in 10000 100000 500000; do
    row 1024 1 $remote 30000000
    row 4096 16 $remote 1000000
    row 65536 16 $remote 100000
done
