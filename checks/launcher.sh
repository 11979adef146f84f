#!/usr/bin/env bash
# Tries the script `respct` at the top, with a stand-in for the toolchain that proves nothing and builds a program that echoes. Takes a few seconds.
set -eu
top=$(CDPATH='' cd -- "$(dirname -- "$0")/.." && pwd)
room=$(mktemp -d)
trap 'chmod -R u+w "$room" && find "$room" -delete' EXIT
cd "$room"
usage='usage: respct start, resume or check with --image NAME, or respct drill N'

fail() {
    printf 'launcher: %s\n' "$*" >&2
    exit 1
}

# A repository with the crates of the true one, each with one file, and beside it a crate that the program does not use.
mkdir here bin free
cp "$top/respct" "$top/crates.txt" here
for name in $(sed -n 's/^\([a-z_]*\)[ :].*/\1/p' here/crates.txt) spare; do
    mkdir -p "here/crates/$name/src"
    echo one >"here/crates/$name/src/lib.rt"
done

# The stand-in: it has a stamp of what it built, by contents, notes each call, and lets one call at a time into a crate's folder. Where WAITED
# is set, a build goes on once another call waits for it.
cat >bin/rt <<'STANDIN'
#!/usr/bin/env bash
set -eu
echo "$*" >>"$RT_CALLS"
if [ "$1" = try ]; then
    shift 2
    echo "tried $*" && exec cat
fi
cat >/dev/null
exec 9<.
if ! flock -n 9; then
    echo "rt: waiting for another rt to finish in $PWD" >&2
    echo waits >>"$RT_CALLS"
    flock 9
fi
if grep -q broken ../*/src/*; then
    echo 'src/lib.rt:1:1: error: no proof' && exit 1
fi
mkdir -p out
if [ "$(cat ../byte_ports/src/* src/* | cksum)" = "$(cat out/respct.stamp 2>&1)" ]; then
    echo 'rt: nothing has changed since the last proved build, by out/respct.stamp, so nothing is checked now' >&2
else
    echo builds >>"$RT_CALLS"
    if [ -n "${WAITED-}" ]; then
        timeout 10 sh -c 'until grep -q waits "$RT_CALLS"; do sleep 0.02; done'
    fi
    for name in byte_ports line_memory respct; do
        echo "rt: chose --jobs 2 for $name" >&2
    done
    printf '#!/bin/sh\necho "$PWD $*"\ncat\nexit 4\n' >out/respct
    chmod +x out/respct
    echo 'linked target=stand-in' >&2
    cat ../byte_ports/src/* src/* | cksum >out/respct.stamp
    echo built >>"$RT_CALLS"
fi
echo 'rt: running out/respct; to give it other input, run that file yourself' >&2
echo 'usage: respct' >&2
exit 1
STANDIN
chmod +x bin/rt
export PATH="$room/bin:$PATH" RT_CALLS="$room/calls" TMPDIR="$room/free"

# What another user needs of this folder, to run the script.
: >calls
chmod a+x . bin bin/rt
chmod a+r bin/rt
chmod a+rwx free
chmod a+rw calls

# The words that another user runs by, and none for who runs this check.
runner=()

# Runs the script with words, keeps what it writes, and gives its status.
run() {
    local status=0
    : >calls
    echo text | "${runner[@]}" here/respct "$@" >out 2>err || status=$?
    echo "$status"
}

# The program ran, with this name for the image, in this folder, and wrote all of standard output; the toolchain built it so often.
ran() {
    local status
    status=$(run start --image "$1")
    [ "$status" = 4 ] || fail "status $status for $1"
    [ "$(cat out)" = "$room start --image $1"$'\n'text ] || fail "standard output for $1: $(cat out)"
    [ "$(grep -c '^built' calls)" = "$2" ] || fail "$1: not built $2 times"
}

grep -qF "\"$usage\"" "$top/crates/respct/src/status.rt" || fail 'the program has another text for words that it refuses'
for words in '' help --help Start --image --unproved 'start extra' 'start --image' 'start --image=' 'start --image -x' 'start --image=-x' \
    'start --image a b' 'resume --image' 'check --image' drill 'drill x' 'drill 01' 'drill +1' 'drill -1' 'drill 1 2' 'drill --image x' \
    'drill 18446744073709551616' 'drill 100000000000000000000' '--unproved drill'; do
    # shellcheck disable=SC2086
    status=$(run $words)
    [ "$status" = 1 ] && [ "$(cat err)" = "$usage" ] && [ ! -s out ] && [ ! -s calls ] || fail "the words '$words' are not refused at once"
done

ran first 1
grep -q 'takes some .* minutes' err || fail 'it is not said how long the first build takes'
grep -q 'proving byte_ports, 1 of \([0-9]*\); ' err || fail "the first crate is not named: $(cat err)"
grep -q 'proving respct, \([0-9]*\) of \1; 0 left' err || fail "the last crate is not named: $(cat err)"
ran again 0
[ ! -s err ] || fail "a program that is current is no news: $(cat err)"
for words in start resume 'resume --image a' 'check --image=a' 'drill 0' 'drill 7' 'drill 18446744073709551615'; do
    # shellcheck disable=SC2086
    status=$(run $words)
    [ "$status" = 4 ] && [ "$(cat out)" = "$room $words"$'\n'text ] || fail "the words '$words' are not handed on: $status"
done
sleep 1
touch here/crates/*/src/*
ran after_a_touch 0
echo two >here/crates/spare/src/lib.rt
ran after_an_edit_beside_it 0
echo two >here/crates/byte_ports/src/lib.rt
ran after_an_edit 1
grep -q 'sources have changed' err || fail 'it is not said that sources have changed'
mv here there
mkdir here
mv there/* here
mv here moved
ln -s moved here
ran moved 0
echo broken >here/crates/byte_ports/src/lib.rt
status=$(run start)
[ "$status" = 70 ] && [ ! -s out ] && grep -q 'no proof' err && grep -q 'was not built' err || fail "a failed build: $status"
echo two >here/crates/byte_ports/src/lib.rt
status=$(run --unproved start --image=x)
[ "$status" = 0 ] && [ "$(cat out)" = 'tried start --image=x'$'\n'text ] && [ "$(cat calls)" = 'try -- start --image=x' ] || fail "unproved: $status"

# Two runs at once, before anything is built: the first builds, and the second waits for it and runs what it built.
find moved/crates/respct/out -delete
: >calls
export WAITED=yes
for name in first second; do
    {
        status=0
        echo "text of the $name" | here/respct start --image "$name" >"$name.out" 2>"$name.err" || status=$?
        echo "$status" >"$name.status"
    } &
    timeout 10 sh -c 'until grep -q builds calls; do sleep 0.02; done' || fail 'the first of two runs does not build'
done
wait
unset WAITED
for name in first second; do
    [ "$(cat "$name.status")" = 4 ] || fail "the $name of two runs at once: status $(cat "$name.status")"
    [ "$(cat "$name.out")" = "$room start --image $name"$'\n'"text of the $name" ] || fail "the $name of two runs at once: $(cat "$name.out")"
done
[ "$(grep -c '^built' calls)" = 1 ] || fail 'two runs at once do not build once'
grep -q 'proving respct, ' first.err || fail "the first of two runs at once: $(cat first.err)"
said="respct: waiting for another rt to finish in $room/here/crates/respct"
[ "$(grep -v 'takes some .* minutes' second.err)" = "$said" ] || fail "the second of two runs at once: $(cat second.err)"

# A checkout that may only be read. Root, who may write anywhere, is nobody there.
if [ "$(id -u)" = 0 ]; then
    runner=(setpriv --reuid=65534 --regid=65534 --clear-groups)
fi
chmod -R a+rX,a-w moved
if "${runner[@]}" test -x "$room/bin/rt"; then
    ran read_only 0
    [ ! -s err ] || fail "a program that is current in a read-only checkout is no news: $(cat err)"
    chmod -R u+w moved
    find moved/crates/respct/out -delete
    chmod -R a-w moved
    status=$(run start)
    said="respct: the program is not built, and it cannot be built here, since $room/here/crates/respct may not be written to"
    [ "$status" = 70 ] && [ ! -s out ] && [ "$(cat err)" = "$said" ] && [ ! -s calls ] || fail "nothing built, read-only: $status, $(cat err)"
    runner=()
    chmod -R u+w moved
    ran writable_again 1
else
    echo 'launcher: not tried in a read-only checkout, since root may write anywhere, and nobody may not come here' >&2
    runner=()
    chmod -R u+w moved
fi

PATH=/usr/bin:/bin
if ! command -v rt >/dev/null; then
    ran with_no_toolchain 0
    grep -q 'no rt on the path' err || fail 'it is not said that there is no toolchain'
fi
echo 'launcher: the script respct does what it says'
