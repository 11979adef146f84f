#!/usr/bin/env bash
# What the refusal of the longest wrong inputs takes, beside what the right ones take. Scripts of 8,388,608 bytes are read that are right, and
# the same ones with a fault in their last line; and some of which one line, wrong at its end, takes all. So that reading is all that is
# measured, a right one is read for a resume from a name with nothing under it. An image of 37,749,848 bytes is checked, and the same one with
# a fault in the last room that is looked at. It prints the processor time of each, the least of several runs, and how many times as much the
# refusal takes. It is no part of the gate: a busy machine tells little. It takes some twenty seconds.
#
#   bash bench/hostile.sh [PROGRAM]
#
# PROGRAM is the built program, crates/respct/out/respct where none is named. It ends with status 1 where an input is not answered as it is
# to be.
set -eu
top=$(CDPATH='' cd -- "$(dirname -- "$0")/.." && pwd)
program=$(realpath -m -- "${1:-$top/crates/respct/out/respct}")
runs=3
if [ ! -x "$program" ]; then
    echo 'hostile: no such program; ./respct builds it' >&2
    exit 2
fi
room=$(mktemp -d)
trap 'find "$room" -delete' EXIT
cd "$room"
is_right=yes

# The least processor time of several runs over the input with these words, in milliseconds; they are to end with this code and say this.
measure() {
    local least='' seconds now status
    TIMEFORMAT='%U %S'
    for ((run = 0; run < runs; run++)); do
        seconds=$({ time { "$program" "${@:3}" <input >written 2>said && echo 0 >status || echo $? >status; }; } 2>&1)
        now=$(awk '{ printf "%d", ($1 + $2) * 1000 }' <<<"$seconds")
        if [ -z "$least" ] || [ "$now" -lt "$least" ]; then
            least=$now
        fi
    done
    read -r status <status
    if [ "$status" != "$1" ] || [ "$(cat said)" != "$2" ]; then
        is_right=no
        echo "hostile: it ends with $status and says '$(cat said)' in place of $1 and '$2'" >&2
    fi
    took=$least
}

# Prints what a refusal took beside what was taken where all is right.
compare() {
    awk -v what="$1" -v bad="$2" -v good="$3" \
        'BEGIN { printf "%s: refused in %d ms, accepted in %d ms, %.2f times as much\n", what, bad, good, bad / (good < 1 ? 1 : good) }'
}

script() {
    python3 "$top/bench/great.py" "$@" >input
}

# The fault of a right script with its last line changed.
for case in 'turns 24' 'keep 24' 'commands 65560'; do
    read -r name line <<<"$case"
    script "$name"
    measure 10 'no such image' resume --image none.image
    good=$took
    script bad "$name"
    measure 2 "script: line $line: command" resume --image none.image
    compare "a script of $name" "$took" "$good"
done
for case in 'digits 2 number' 'zeros 6 number' 'spaces 6 number' 'colons 7 keep' 'feeds 2 setting' 'word 9 command' 'head 1 head'; do
    read -r name line kind <<<"$case"
    script "$name"
    measure 2 "script: line $line: $kind" resume --image none.image
    compare "a line of $name" "$took" "$good"
done
[ ! -e none.image ] || is_right=no

: >input
python3 "$top/bench/great.py" image >whole.image
measure 0 '' check --image whole.image
good=$took
for case in 'tag tag ahead, room 24, line 0' 'ends ends, room 8' 'count count, room 8'; do
    read -r name fault <<<"$case"
    python3 "$top/bench/great.py" "$name" >bad.image
    measure 5 "image: $fault" check --image bad.image
    compare "an image whose fault is '$fault'" "$took" "$good"
done
[ "$is_right" = yes ]
