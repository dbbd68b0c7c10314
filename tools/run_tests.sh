#!/bin/sh
# Runs the tests of the tools and of the program. They need no kit. The tests of plots need Debian's python3-numpy and
# python3-matplotlib: if these are not there, they are installed, and nothing else is. At the end the tests that were
# skipped are listed, with the reasons.
#
#   tools/run_tests.sh                     all tests
#   tools/run_tests.sh -v                  all tests, with their names; further options are those of unittest
#   tools/run_tests.sh -v tests.test_help  one file of tests
#
# The program is that of the variable CHORDSIM, else the one of these sources that is there. Without one the tests that
# need it are skipped.
set -eu
top=$(CDPATH='' cd -- "$(dirname -- "$0")/.." && pwd)
# The launcher looks at all sources, so that it is asked once here and not by each test.
[ -n "${CHORDSIM:-}" ] || CHORDSIM=$("$top/chordsim" --where 2> /dev/null) || CHORDSIM=
if [ -n "$CHORDSIM" ]; then
    export CHORDSIM
else
    unset CHORDSIM
    echo "tools: there is no program of these sources: what needs it is not tested" >&2
fi
python=/usr/bin/python3
[ -x "$python" ] || python=python3

if ! "$python" -c 'import matplotlib, numpy' 2> /dev/null; then
    packages="python3-numpy python3-matplotlib"
    echo "tools: installing $packages by apt-get, since the tests of plots need them" >&2
    # shellcheck disable=SC2086
    { apt-get update && apt-get install --yes --no-install-recommends $packages; } > /dev/null 2>&1 ||
        echo "tools: they cannot be installed: plots are not tested" >&2
fi
cd "$top/tools" && exec "$python" -W ignore::ResourceWarning -m tests --buffer "$@"
