#!/usr/bin/env bash
# What a drill takes: nine lives of 800 commands in memory. It runs the drills of twenty numbers and prints the processor time of each, the
# least of several runs, as the least, the middle and the greatest of the twenty. It is no part of the gate: a busy machine tells little.
#
#   bash bench/drills.sh [PROGRAM]
#
# PROGRAM is the built program, crates/respct/out/respct where none is named.
set -eu
top=$(CDPATH='' cd -- "$(dirname -- "$0")/.." && pwd)
program=${1:-$top/crates/respct/out/respct}
runs=5
if [ ! -x "$program" ]; then
    echo 'drills: no such program; ./respct builds it' >&2
    exit 2
fi
room=$(mktemp -d)
trap 'find "$room" -delete' EXIT

# The least processor time of several runs of a drill, in milliseconds.
milliseconds() {
    local least='' seconds now
    for ((run = 0; run < runs; run++)); do
        TIMEFORMAT='%U %S'
        seconds=$({ time "$program" drill "$1" >"$room/summary"; } 2>&1)
        grep -qx 'kept 800' "$room/summary"
        now=$(awk '{ printf "%d", ($1 + $2) * 1000 }' <<<"$seconds")
        if [ -z "$least" ] || [ "$now" -lt "$least" ]; then
            least=$now
        fi
    done
    echo "$least"
}

for number in {1..20}; do
    milliseconds "$number"
done | sort -n | awk '{ took[NR] = $1 } END { printf "20 drills: %d ms the least, %d ms the middle one, %d ms the greatest\n", took[1], took[int((NR + 1) / 2)], took[NR] }'
