#!/usr/bin/env bash
# Tries the commands of README.md as a newcomer does, in a fresh clone of what is committed: words that are refused, the first look, the
# first command with its build, and the same after a touch of all sources. It says how long each takes. With proofs that earlier checks on
# this machine kept, the build is shorter than a newcomer's.
set -eu
top=$(CDPATH='' cd -- "$(dirname -- "$0")/.." && pwd)
room=$(mktemp -d)
trap 'find "$room" -delete' EXIT
git clone -q "$top" "$room/respct"
cd "$room/respct"

fail() {
    echo "first_command: $*" >&2
    exit 1
}

# Runs a command and says how long it took.
timed() {
    local start=$SECONDS
    "$@"
    echo "first_command: $((SECONDS - start)) s for $*"
}

timed bash checks/launcher.sh
timed bash checks/reports.sh ./respct --unproved
timed bash checks/reports.sh ./respct
find crates -name out -prune -o -type f -exec touch {} +
timed bash checks/reports.sh ./respct 2>said
cat said >&2
if grep -q 'proving' said; then
    fail 'after a touch the program is proved again'
fi
rm said
[ -z "$(git status --porcelain)" ] || fail 'the commands leave files that git does not ignore'
echo 'first_command: the commands of README.md do what it says'
