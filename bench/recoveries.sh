#!/usr/bin/env bash
# How many recoveries a second the tester for stores makes of a store of 16 lines, with one thread. It builds and runs the program
# `explore_many`, which tries many survivors of each power cut, and prints how many that were, the least processor time of several runs, and
# how many a second. It is no part of the gate: a busy machine tells little.
#
#   bash bench/recoveries.sh [PROGRAM]
#
# PROGRAM is the built program. Where none is named, `rt run` builds crates/explore_many/out/explore_many first.
set -eu
top=$(CDPATH='' cd -- "$(dirname -- "$0")/.." && pwd)
program=${1:-$top/crates/explore_many/out/explore_many}
runs=5
if [ $# = 0 ]; then
    (cd "$top/crates/explore_many" && rt run >&2)
fi
if [ ! -x "$program" ]; then
    echo 'recoveries: no such program' >&2
    exit 2
fi

text=$("$program")
least=''
for ((run = 0; run < runs; run++)); do
    TIMEFORMAT='%U %S'
    seconds=$({ time "$program" >/dev/null; } 2>&1)
    now=$(awk '{ printf "%d", ($1 + $2) * 1000 }' <<<"$seconds")
    if [ -z "$least" ] || [ "$now" -lt "$least" ]; then
        least=$now
    fi
done
awk -v took="$least" '{ took = took < 1 ? 1 : took; printf "%s\n%d recoveries in %d ms, %d a second\n", $0, $1, took, $1 * 1000 / took }' <<<"$text"
