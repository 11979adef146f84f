#!/usr/bin/env bash
# What a closing costs in great rooms. It runs 4,096 commands of one thread, each of which closes an epoch, in rooms of 512 lines and in
# rooms of 65,536 lines, and the same scripts without a command: what these take is the reading, the formatting and the image. It prints the
# processor time of each, the least of several runs, and how many times as much the commands take in the greater rooms. It is no part of the gate: a
# busy machine tells little.
#
#   bash bench/closings.sh [PROGRAM]
#
# PROGRAM is the built program, crates/respct/out/respct where none is named.
set -eu
top=$(CDPATH='' cd -- "$(dirname -- "$0")/.." && pwd)
program=${1:-$top/crates/respct/out/respct}
runs=5
if [ ! -x "$program" ]; then
    echo 'closings: no such program; ./respct builds it' >&2
    exit 2
fi
room=$(mktemp -d)
trap 'find "$room" -delete' EXIT

# A script of so many lines a room and so many commands. A hundred keys take their turns, so that every room has place for all of them.
script() {
    printf 'respct 1\nthreads 1\nshards 1\nlines %s\nevery 1\nturns rr 1000000\nkeep none\nthread 0\n' "$1"
    for ((command = 0; command < $2; command++)); do
        printf 'put %s %s\n' $((command % 100)) "$command"
    done
    printf 'end\n'
}

# The least processor time of several runs of a script, in milliseconds.
milliseconds() {
    local least='' seconds now
    script "$1" "$2" >"$room/script"
    for ((run = 0; run < runs; run++)); do
        TIMEFORMAT='%U %S'
        seconds=$({ time "$program" start --image "$room/image" <"$room/script" >"$room/report"; } 2>&1)
        grep -qx 'end finished' "$room/report"
        now=$(awk '{ printf "%d", ($1 + $2) * 1000 }' <<<"$seconds")
        if [ -z "$least" ] || [ "$now" -lt "$least" ]; then
            least=$now
        fi
    done
    echo "$least"
}

for lines in 512 65536; do
    whole=$(milliseconds "$lines" 4096)
    image=$(milliseconds "$lines" 0)
    echo "rooms of $lines lines: $whole ms with 4096 closings, $image ms without a command"
    echo $((whole - image)) >"$room/closings.$lines"
done
awk '{ t[NR] = $1 < 1 ? 1 : $1 } END { printf "4096 closings: %d ms and %d ms, %.1f times as much\n", t[1], t[2], t[2] / t[1] }' "$room/closings.512" "$room/closings.65536"
