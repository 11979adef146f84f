#!/usr/bin/env bash
# Tries each status that a run of the built program reaches, against docs/formats.md and README.md: the exit code, all of standard output,
# all of standard error, and whether an image is left. A case that is right prints nothing. It takes a second at most.
#
#     checks/statuses.sh crates/respct/out/respct
#
# 11 needs memory that is refused: checks/refusals.py tries it, and more ways to each refusal. Each case holds for root too, who may open any
# file: so the source that cannot be read is closed, or a folder, and the place for the image is in a folder that is not there.
set -eu
top=$(CDPATH='' cd -- "$(dirname -- "$0")/.." && pwd)
program=$(CDPATH='' cd -- "$(dirname -- "$1")" && pwd)/$(basename -- "$1")
room=$(mktemp -d)
trap 'find "$room" -delete' EXIT
cd "$room"
mkdir folder
is_right=yes

# The block of this file that begins with this line: the one with this number among them.
block() {
    awk -v head="$2" -v wanted="$3" '
        /^```/ { inside = !inside; first = inside; if (!inside) writes = 0; next }
        first { first = 0; if ($0 == head) writes = ++found == wanted }
        writes { print }
    ' "$top/$1"
}

# The line on standard error for a code, by the table of docs/formats.md, and nothing where it has none. What stands there for a fault is this
# one.
line_for() {
    sed -n "/^## 14\\./,/^## 15\\./s/^| $1 | \`\\([^\`]*\\)\`.*/\\1/p" "$top/docs/formats.md" | sed "s/line L: NAME/$2/; s/TEXT/$2/"
}

# Runs the program with these words, for 20 seconds at most. Standard output is kept, or goes to `sink`.
run() {
    status=0
    rm -f -- *.image
    : >written
    timeout 20 "$program" "$@" >"${sink-written}" 2>said || status=$?
}

# The run before, which is the case of this name, ended with this code and its line, left an image of this size, or none, and wrote this
# file. Where a fault is told it is the last one given.
ended() {
    {
        [ "$status" = "$2" ] || echo "it ends with $status in place of $2"
        line_for "$2" "${5-}" | diff --label 'standard error, as it is to be' --label 'as it is' -u - said
        diff --label 'standard output, as it is to be' --label 'as it is' -u "$4" written
        [ "$(find . -name '*.image' -printf %s)" = "$3" ] || echo "the image is not of this size in bytes: ${3:-none}"
    } >differs || true
    if [ -s differs ]; then
        is_right=no
        { echo "statuses: $1:" && cat differs; } >&2
    fi
}

# The bytes of an image of one thread, one shard and 16 lines, by docs/formats.md, and of one of two threads.
image=2200
wide_image=2264
block docs/formats.md 'respct 1' 1 >script
block docs/formats.md 'respct-report 1' 1 >report
block README.md 'respct-report 1' 2 >cut_report
echo respct >no_script
printf 'respct 1\nthreads 2\nshards 1\nlines 16\nevery 1\nturns rr 400\nkeep none\nthread 0\ntake\nthread 1\ntake\nend\n' >takes
printf 'respct-report 1\nlife start\nbegan 1\nsaved 2\nflushed 3\nend stalled\n' >stalled_report
sed 's/^turns .*/live 400/' takes >live
head -c 8388608 /dev/zero >longest
head -c 8388609 /dev/zero >too_long

run start --image left.image <script
ended 'all is done' 0 "$image" report
run start --image=left.image <"$top/examples/cut.respct"
ended 'the turns are used up' 4 "$image" cut_report
run start --image left.image <takes
ended 'two threads that wait for an item' 3 "$wide_image" stalled_report
run start --image left.image <live
ended 'threads that run by themselves' 2 '' /dev/null 'line 0: not built'
run <script
ended 'no words' 1 '' /dev/null
run start --image <script
ended 'no name behind --image' 1 '' /dev/null
run start --image left.image <no_script
ended 'no script' 2 '' /dev/null 'line 1: head'
run start --image left.image </dev/null
ended 'an empty source' 2 '' /dev/null 'line 1: no end'
run start --image left.image <longest
ended 'no script, of as many bytes as a script may have' 2 '' /dev/null 'line 1: no end'
run start --image left.image <&-
ended 'standard input is closed' 7 '' /dev/null
run start --image left.image <folder
ended 'standard input is a folder' 7 '' /dev/null
sink=/dev/full run start --image left.image <script
ended 'standard output is full' 8 "$image" /dev/null
run start --image nowhere/left.image <script
ended 'the folder of the image is not there' 9 '' /dev/null
run start --image left.image <too_long
ended 'one byte more than a script may have' 12 '' /dev/null

printf 'respct-state 1\nepoch 2\nthread 0 1\nmap 5 7\nend\n' >state
printf 'respct-report 1\nlife resume\nbegan 2\nsaved 3\nflushed 1\nend finished\n' >idle_report
printf 'respct-report 1\nlife resume\nbegan 2\nflushed 0\nend cut\n' >unmoved_report
run start --image left.image <"$top/crates/respct/stdin"
ended 'one put' 0 "$image" "$top/crates/respct/stdout"
cp left.image kept
run check --image kept
ended 'a check of what one put left' 0 '' state
sink=/dev/full run check --image kept
ended 'a check with standard output full' 8 '' /dev/null
run check --image no_script
ended 'a check of a file that is no image' 5 '' /dev/null short
run check --image nothing
ended 'a check of a name with nothing under it' 10 '' /dev/null

block docs/formats.md 'drill 1' 1 >summary
run drill 1 <folder
ended 'a drill, which reads nothing' 0 '' summary
run drill 1 <script
ended 'the same drill again' 0 '' summary
sink=/dev/full run drill 1
ended 'a drill with standard output full' 8 '' /dev/null
run drill 01
ended 'a drill with a zero in front of its number' 1 '' /dev/null
run drill 18446744073709551616
ended 'a drill with a number of more than 64 bits' 1 '' /dev/null
run drill
ended 'a drill without a number' 1 '' /dev/null

# A resume over this script, from a copy of what one put left, or of another file. The copy is the image that is left.
resume() {
    keeps=${2-kept}
    status=0
    rm -f -- *.image
    cp "$keeps" left.image
    : >written
    timeout 20 "$program" resume --image left.image <"$1" >"${sink-written}" 2>said || status=$?
}

put=$top/crates/respct/stdin
resume "$put"
ended 'a resume with nothing left to do' 0 "$image" idle_report
sed 's/^turns .*/turns rr 0/' "$put" >no_turns
resume no_turns
ended 'a resume without a turn' 4 "$image" unmoved_report
sink=/dev/full resume "$put"
ended 'a resume with standard output full' 8 "$image" /dev/null
resume no_script
ended 'a resume without a script' 2 "$image" /dev/null 'line 1: head'
resume "$put" no_script
ended 'a resume from a file that is no image' 5 "$(wc -c <no_script)" /dev/null short
sed 's/^lines .*/lines 32/' "$put" >other_lines
resume other_lines
ended 'a resume with other lines' 6 "$image" /dev/null 'lines 16, 32'
sed '/^put/d' "$put" >no_command
resume no_command
ended 'a resume behind the end of a script' 6 "$image" /dev/null 'position of thread 0 1, 0'
run resume --image nothing <"$put"
ended 'a resume from a name with nothing under it' 10 '' /dev/null
run resume --image <"$put"
ended 'a resume without a name behind --image' 1 '' /dev/null

[ "$is_right" = yes ]
echo "statuses: as docs/formats.md has them, by $program"
