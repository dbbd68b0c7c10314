#!/usr/bin/env bash
# Times Chord by chordsim's serial engine, by the bare event core of ns-3, by the actors of SimGrid and by SimPy,
# alternately, in rings of 512, 4,096 and 65,536 nodes without churn. Prints a row for each ring and program: events,
# mean hops of a lookup, millions of events a processor second of the fastest turn (start not counted), the processor
# seconds of this run and of its start, and the greatest resident memory.
#
#   examples/peers/measure_chord.sh CHORDSIM [TURNS [all]]     the program that `./chordsim --where` prints, and the
#                                                              number of turns, 3 by default
#
# It needs Python 3.11, g++, GNU time (/usr/bin/time) and Debian's libns3-dev. SimGrid and SimPy run in the first turn
# alone, since they are by far the slowest. The row of SimGrid is `-` without Debian's libsimgrid-dev, and with 65,536
# nodes, which would take hours. That of SimPy is `-` without python3-simpy, and with 65,536 nodes, which take minutes,
# unless the third argument is `all`.
#
# The peers must agree in messages, lookups found and mean hops to a hundredth, and chordsim with them in events and
# mean hops to a twentieth, as its ring has other identifiers. Otherwise the script ends with an error.
set -eu
# All programs have the large pages that ./chordsim gives its own.
export GLIBC_TUNABLES="${GLIBC_TUNABLES-glibc.malloc.hugetlb=1}"
here=$(CDPATH='' cd -- "$(dirname -- "$0")" && pwd)
chordsim=$1
turns=${2:-3}
all=${3:-}
work=$(mktemp -d)
trap 'rm -rf "$work"' EXIT
# What `time` prints: the processor seconds of the program and of the system.
TIMEFORMAT='%3U %3S'

fail() {
    echo "measure_chord: $1" >&2
    exit 1
}

build() {
    g++ -std=c++17 -O2 -march=x86-64-v2 -I"$here" "$here/chord_ns3.cpp" -o "$work/ns3" \
        "$(ls /usr/lib/*/libns3*core*.so | head -1)"
    if g++ -fsyntax-only -include simgrid/s4u.hpp -x c++ /dev/null 2> "$work/missing"; then
        g++ -std=c++17 -O2 -march=x86-64-v2 -I"$here" "$here/chord_simgrid.cpp" -o "$work/simgrid" -lsimgrid
    fi
    if /usr/bin/python3 -c 'import SimPy.Simulation' 2> "$work/missing"; then
        cp "$here/chord_simpy.py" "$work/simpy"
    fi
}

# Writes the scenario of a ring: the means are those of the peers, and the rules that they have not are switched off.
# Arguments: nodes, simulated time, file.
generate() {
    "$here/../../tools/generate" --profile 4 --nodes "$1" --bits 32 --list 4 --duration "$2" --audit "$2" \
        --latency 10ms --timeout 100ms --stabilize 900ms --finger 900ms --jitter 200ms --lookup-gap 250ms..750ms \
        --check 0 --no-list-routes --no-goes-on --no-ask-owner --lookup-timeouts 8 --no-drop-silent --no-skip-near \
        --no-clean-lists --no-join-asks --no-join-forever --join-pause 0 --seed 1 -o "$3" 2> "$work/warnings" ||
        fail "tools/generate: $(cat "$work/warnings")"
}

# Runs chordsim on a scenario. Keeps its report, and prints its processor seconds.
time_chordsim() {
    { time /usr/bin/time -f '%M' -o "$work/memory" "$chordsim" run --serial --scenario "$1" --trace /dev/null \
        > "$work/report" 2> "$work/errors"; } 2> "$work/time" || fail "chordsim fails: $(cat "$work/errors")"
    awk '{ print $1 + $2 }' "$work/time"
}

# Prints a report of chordsim in the form of the peers. Its start is a run of a millisecond.
run_chordsim() {
    start=$(time_chordsim "$work/start.toml") || return 1
    whole=$(time_chordsim "$work/ring.toml") || return 1
    awk '$1 == "events" || $1 == "found" { print }
        $1 == "found" { found = $2 }
        $1 == "hops-sum" { print "mean-hops", $2 / found }' "$work/report"
    awk -v start="$start" -v whole="$whole" '{ print "run-seconds", whole - start; print "start-seconds", start
        print "memory-mb", $1 / 1024 }' "$work/memory"
}

# Prints a number of the report of a program.
number() {
    awk -v name="$2" '$1 == name { print $2 }' "$work/kept.$1"
}

# Runs one program, and keeps its report if no run of it before was as fast.
take() {
    name=$1
    shift
    "$@" > "$work/new" || fail "$name fails"
    if [ -e "$work/kept.$name" ]; then
        least=$(number "$name" run-seconds)
        awk -v least="$least" '$1 == "run-seconds" { exit $2 >= least }' "$work/new" || return 0
    fi
    mv "$work/new" "$work/kept.$name"
}

# Whether two numbers differ by no more than a share of the second.
near() {
    awk -v a="$1" -v b="$2" -v share="$3" 'BEGIN { d = a < b ? b - a : a - b; exit d > share * b }'
}

# Fails if a program differs from ns-3 in one of these numbers. Arguments: program, share, numbers.
compare() {
    name=$1
    share=$2
    shift 2
    for what in "$@"; do
        near "$(number "$name" "$what")" "$(number ns3 "$what")" "$share" ||
            fail "$what of $name: $(number "$name" "$what"), of ns-3: $(number ns3 "$what")"
    done
}

# Prints the row of a program.
show() {
    printf 'nodes=%s seconds=%s program=%-8s ' "$nodes" "$seconds" "$1"
    [ -e "$work/kept.$1" ] || { echo '-'; return; }
    awk '{ n[$1] = $2 }
        END { printf "events=%d hops=%.3f ", n["events"], n["mean-hops"]
            printf "million-events-a-second=%.3f ", n["events"] / n["run-seconds"] / 1e6
            printf "run=%.3f start=%.3f memory=%.1fMB\n", n["run-seconds"], n["start-seconds"], n["memory-mb"] }' \
        "$work/kept.$1"
}

# Runs the programs that are run once, if they are there.
take_slow() {
    [ ! -e "$work/simgrid" ] || [ "$nodes" -ge 65536 ] || take simgrid "$work/simgrid" "$nodes" "$seconds"
    [ "$nodes" -lt 65536 ] || [ "$all" = all ] || return 0
    [ ! -e "$work/simpy" ] || take simpy /usr/bin/python3 "$work/simpy" "$nodes" "$seconds"
}

# The rows of a ring: nodes, simulated seconds.
rows() {
    nodes=$1
    seconds=$2
    rm -f "$work"/kept.*
    generate "$nodes" "${seconds}s" "$work/ring.toml"
    generate "$nodes" 1ms "$work/start.toml"
    for turn in $(seq "$turns"); do
        take chordsim run_chordsim
        take ns3 "$work/ns3" "$nodes" "$seconds"
        take ns3-map "$work/ns3" "$nodes" "$seconds" MapScheduler
        [ "$turn" != 1 ] || take_slow
    done
    compare chordsim 0.05 events mean-hops
    for name in chordsim ns3 ns3-map simgrid simpy; do
        case $name in ns3-map | simgrid | simpy)
            [ ! -e "$work/kept.$name" ] || compare "$name" 0.01 messages found mean-hops
        esac
        show "$name"
    done
}

build
rows 512 20
rows 4096 20
rows 65536 5
