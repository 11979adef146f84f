#!/usr/bin/env bash
# What a turn costs. It runs scripts of one thread and of 16 threads, with a closing behind each command and behind every 64, each for a
# stated number of turns, all of which are spent, and the same scripts for no turn: what these take is the reading, the formatting and the
# image. It prints the processor time of the turns, the least of several runs, and how many turns that is a millisecond. A turn is one event
# of one thread or a rest of it. It is no part of the gate: a busy machine tells little.
#
#   bash bench/turns.sh [PROGRAM]
#
# PROGRAM is the built program, crates/respct/out/respct where none is named.
set -eu
top=$(CDPATH='' cd -- "$(dirname -- "$0")/.." && pwd)
program=${1:-$top/crates/respct/out/respct}
runs=5
if [ ! -x "$program" ]; then
    echo 'turns: no such program; ./respct builds it' >&2
    exit 2
fi
room=$(mktemp -d)
trap 'find "$room" -delete' EXIT

# A script of so many threads, over eight shards, with closings so seldom and so many turns. Each thread puts 4,096 values under keys of its own.
script() {
    printf 'respct 1\nthreads %s\nshards 8\nlines 1024\nevery %s\nturns rr %s\nkeep none\n' "$1" "$2" "$3"
    for ((thread = 0; thread < $1; thread++)); do
        printf 'thread %s\n' "$thread"
        for ((command = 0; command < 4096; command++)); do
            printf 'put %s %s\n' $((thread * 100 + command % 100)) "$command"
        done
    done
    printf 'end\n'
}

# The least processor time of several runs of a script, in milliseconds.
milliseconds() {
    local least='' seconds now
    script "$@" >"$room/script"
    for ((run = 0; run < runs; run++)); do
        TIMEFORMAT='%U %S'
        seconds=$({ time "$program" start --image "$room/image" <"$room/script" >"$room/report" || [ $? = 4 ]; } 2>&1)
        grep -qx 'end cut' "$room/report"
        now=$(awk '{ printf "%d", ($1 + $2) * 1000 }' <<<"$seconds")
        if [ -z "$least" ] || [ "$now" -lt "$least" ]; then
            least=$now
        fi
    done
    echo "$least"
}

for threads in 1 16; do
    for every in 1 64; do
        turns=$((threads * 80000))
        whole=$(milliseconds "$threads" "$every" "$turns")
        none=$(milliseconds "$threads" "$every" 0)
        awk -v threads="$threads" -v every="$every" -v turns="$turns" -v took=$((whole - none)) \
            'BEGIN { took = took < 1 ? 1 : took; printf "threads %d, every %d: %d turns in %d ms, %d a millisecond\n", threads, every, turns, took, turns / took }'
    done
done
