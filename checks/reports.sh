#!/usr/bin/env bash
# Compares what a command writes with what README.md and docs/lives.md show, letter by letter, and with the stored run of the program.
#
#     checks/reports.sh ./respct                            the words stand behind the command
#     checks/reports.sh ./respct --unproved
#     checks/reports.sh crates/respct/out/respct
set -eu
top=$(CDPATH='' cd -- "$(dirname -- "$0")/.." && pwd)
command=$(CDPATH='' cd -- "$(dirname -- "$1")" && pwd)/$(basename -- "$1")
shift
room=$(mktemp -d)
trap 'find "$room" -delete' EXIT
cd "$room"

# The text that a page, README.md where none is named, shows at this place among those that begin with this line.
shown() {
    awk -v head="$1" -v wanted="$2" '
        /^```/ { inside = !inside; first = inside; if (!inside) writes = 0; next }
        first { first = 0; if ($0 == head) writes = ++found == wanted }
        writes { print }
    ' "$top/${3:-README.md}"
}

# A run with this word over this script ends with this status, and writes what is in the file `wanted`.
compare_as() {
    local status=0
    "$command" "${@:4}" "$1" --image compared.image <"$2" >written || status=$?
    if [ "$status" != "$3" ] || [ ! -s wanted ] || ! diff wanted written >&2; then
        echo "reports: $1 over ${2#"$top"/} ends with $status in place of $3, or writes another text than is shown" >&2
        exit 1
    fi
}

compare() {
    compare_as start "$@"
}

shown "respct-report 1" 1 >wanted
compare "$top/examples/first.respct" 0 "$@"
shown "respct-report 1" 2 >wanted
compare "$top/examples/cut.respct" 4 "$@"
printf 'respct-report 1\nlife start\nbegan 1\nentry 0 0 put 1 10 = new\nentry 1 0 put 1 20 = old 10\nflushed 0\nend cut\n' >wanted
compare "$top/examples/two_threads.respct" 4 "$@"
printf 'respct-report 1\nlife start\nbegan 1\nentry 1 0 enq 9 = done\nsaved 2\nentry 0 0 take = is 9\nsaved 3\nflushed 11\nend finished\n' >wanted
compare "$top/examples/take.respct" 0 "$@"
cat "$top/crates/respct/stdout" >wanted
compare "$top/crates/respct/stdin" 0 "$@"

# A drill, which needs no script.
shown "drill 1" 1 >wanted
if ! "$command" "$@" drill 1 >written || [ ! -s wanted ] || ! diff wanted written >&2; then
    echo "reports: drill 1 is refused, or writes another text than is shown" >&2
    exit 1
fi

# The walk over two lives. A run that is not proved leaves no image, and so cannot go on from one.
shown "respct-report 1" 2 >wanted
compare "$top/examples/interrupted.respct" 4 "$@"
if [ -e compared.image ]; then
    shown "respct-state 1" 2 >wanted
    compare_as check /dev/null 0 "$@"
    shown "respct-report 1" 3 >wanted
    compare_as resume "$top/examples/resumed.respct" 0 "$@"
    shown "respct-state 1" 3 >wanted
    compare_as check /dev/null 0 "$@"
fi

# The three runs of docs/lives.md.
if [ -e compared.image ]; then
    place=0
    for run in "start 4 70 all" "resume 4 20 all" "resume 0 384 none"; do
        read -r word status turns keep <<<"$run"
        place=$((place + 1))
        sed "s/^turns .*/turns rr $turns/; s/^keep .*/keep $keep/" "$top/examples/first.respct" >script
        shown "respct-report 1" "$place" docs/lives.md >wanted
        compare_as "$word" script "$status" "$@"
        case $place in
        1) shown "respct-state 1" 1 docs/lives.md >wanted ;;
        2) printf 'respct-state 1\nepoch 3\nthread 0 1\nmap 5 7\nend\n' >wanted ;;
        3) shown "respct-state 1" 2 docs/lives.md >wanted ;;
        esac
        compare_as check /dev/null 0 "$@"
    done
fi
echo "reports: as README.md and docs/lives.md show them, by $command $*"
