#!/bin/sh
# Runs each scenario of this folder, one event at a time, and by two workers with three parts as a crew and as a team, and
# compares its report with the one in reports/. Those were not only made by chordsim: tools/reference or the plain program
# of examples/plain makes each of them from the rules too, or a hand did.
#
#   examples/compare_reports.sh
#
# CHORDSIM names another program than ./chordsim.
set -eu
top=$(CDPATH='' cd -- "$(dirname -- "$0")/.." && pwd)
program=${CHORDSIM:-$top/chordsim}
work=$(mktemp -d)
trap 'rm -rf "$work"' EXIT
# Not every sh does the above when a signal ends it.
trap 'exit 129' HUP
trap 'exit 130' INT
trap 'exit 143' TERM

failed=0
for file in "$top"/examples/*.toml; do
    name=$(basename "$file" .toml)
    for plan in "--serial" "--engine crew --workers 2 --parts 3" "--engine team --workers 2 --parts 3"; do
        # The plan is several words.
        # shellcheck disable=SC2086
        if "$program" run --scenario "$file" $plan --trace "$work/trace" > "$work/report" &&
            cmp "$work/report" "$top/examples/reports/$name.report"; then
            echo "$name $plan: as it should be"
        else
            echo "$name $plan: another report, or none" >&2
            failed=1
        fi
    done
done
exit $failed
