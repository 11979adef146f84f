#!/usr/bin/env bash
# What a check of the greatest image takes, and a resume from it, beside a plain program in C that reads the same bytes, judges the same
# words, walks the same chains, sorts the same keys, and writes the same texts and bytes. The image has 37,749,848 bytes: 524,216 pairs and
# 65,534 items. It is checked and resumed as it is, and once more with every cell torn, where a recovery has 2,359,388 events. It prints the
# processor time of each, the least of several runs, and the ratio. Both are to write the same text and leave the same image, or it ends
# with status 1. It is no part of the gate: a busy machine tells little. It takes some ten seconds, and 200 MB under the folder for
# temporary files.
#
#   bash bench/check_resume.sh [PROGRAM]
#
# PROGRAM is the built program, crates/respct/out/respct where none is named. The plain program is built by `cc -O2`.
set -eu
top=$(CDPATH='' cd -- "$(dirname -- "$0")/.." && pwd)
program=$(realpath -m -- "${1:-$top/crates/respct/out/respct}")
runs=5
if [ ! -x "$program" ]; then
    echo 'check_resume: no such program; ./respct builds it' >&2
    exit 2
fi
if ! command -v cc >/dev/null; then
    echo 'check_resume: there is no cc to build the plain program with' >&2
    exit 2
fi
room=$(mktemp -d)
trap 'find "$room" -delete' EXIT
cd "$room"

cat >plain.c <<'PLAIN'
/* The plain program: `plain check IMAGE` and `plain resume IMAGE`, where a resume has nothing left to do but the recovery. */
#include <stdint.h>
#include <stdio.h>
#include <stdlib.h>
#include <string.h>

struct pair { uint64_t key, value; };
static uint64_t *words, epoch;
static unsigned threads, shards, lines;
static struct pair *pairs;
static uint64_t *items;
static size_t pair_count, item_count;

static const uint64_t *cell(uint64_t line) {
    const uint64_t *at = words + 8 * line;
    return at[6] == epoch ? at + 3 : at;
}

static void refuse(const char *what, unsigned number) {
    fprintf(stderr, "%s %u\n", what, number);
    exit(5);
}

static int by_key(const void *left, const void *right) {
    uint64_t a = ((const struct pair *)left)->key, b = ((const struct pair *)right)->key;
    return a < b ? -1 : a > b;
}

static void judge_room(unsigned room, unsigned char *met) {
    uint64_t base = (uint64_t)room * lines, live = 0, idle = 0, last = 0;
    int is_map = room < shards;
    uint64_t low = is_map ? 9 : 2;
    const uint64_t *header = cell(base);
    uint64_t spare = header[0], fresh = header[1], count = header[2];
    if (fresh < low || fresh > lines || (spare && (spare < low || spare >= fresh)) || count > fresh - low)
        refuse("header", room);
    memset(met, 0, lines);
    if (is_map) {
        size_t first = pair_count;
        for (unsigned bucket = 0; bucket < 8; bucket++)
            for (uint64_t at = cell(base + 1 + bucket)[0]; at;) {
                if (at < low || at >= fresh || met[at])
                    refuse("chain", room);
                met[at] = 1;
                const uint64_t *node = cell(base + at);
                if (node[0] % shards != room || node[0] / shards % 8 != bucket)
                    refuse("chain", room);
                pairs[pair_count++] = (struct pair){node[0], node[1]};
                live++;
                at = node[2];
            }
        qsort(pairs + first, pair_count - first, sizeof *pairs, by_key);
        for (size_t place = first + 1; place < pair_count; place++)
            if (pairs[place].key == pairs[place - 1].key)
                refuse("chain", room);
    } else {
        for (uint64_t at = cell(base + 1)[0]; at;) {
            if (at < low || at >= fresh || met[at])
                refuse("chain", room);
            met[at] = 1;
            items[item_count++] = cell(base + at)[0];
            live++;
            last = at;
            at = cell(base + at)[1];
        }
        if (cell(base + 1)[1] != last)
            refuse("ends", room);
    }
    for (uint64_t at = spare; at;) {
        if (at < low || at >= fresh || met[at])
            refuse("free list", room);
        met[at] = 1;
        idle++;
        at = cell(base + at)[0];
    }
    if (count != live || live + idle != fresh - low)
        refuse("count", room);
}

int main(int argc, char **argv) {
    FILE *file = argc == 3 ? fopen(argv[2], "rb") : NULL;
    size_t most = 40000000;
    unsigned char *bytes = malloc(most + 8);
    if (!file || !bytes)
        return 9;
    size_t length = fread(bytes, 1, most, file);
    fclose(file);
    uint32_t head[4];
    if (length < 24 || memcmp(bytes, "RESPCTIM", 8))
        refuse("magic", 0);
    memcpy(head, bytes + 8, 16);
    threads = head[1], shards = head[2], lines = head[3];
    if (head[0] != 1 || threads < 1 || threads > 16 || shards < 1 || shards > 8 || lines < 16 || lines > 65536)
        refuse("settings", 0);
    uint64_t cells = (uint64_t)(shards + 1) * lines + threads, total = cells + 1;
    if (length != 24 + 64 * total)
        refuse("length", 0);
    words = malloc(64 * total);
    pairs = malloc(sizeof *pairs * shards * lines);
    items = malloc(8 * lines);
    unsigned char *met = malloc(lines);
    if (!words || !pairs || !items || !met)
        return 11;
    memcpy(words, bytes + 24, 64 * total);
    epoch = words[8 * cells];
    if (epoch < 1 || epoch > 4294967295u)
        refuse("epoch", 0);
    for (uint64_t line = 0; line < cells; line++)
        if (words[8 * line + 6] > epoch)
            refuse("tag ahead", line);
    for (unsigned room = 0; room <= shards; room++)
        judge_room(room, met);
    if (!strcmp(argv[1], "check")) {
        qsort(pairs, pair_count, sizeof *pairs, by_key);
        printf("respct-state 1\nepoch %llu\n", (unsigned long long)epoch);
        for (unsigned thread = 0; thread < threads; thread++)
            printf("thread %u %llu\n", thread, (unsigned long long)cell((uint64_t)(shards + 1) * lines + thread)[0]);
        for (size_t place = 0; place < pair_count; place++)
            printf("map %llu %llu\n", (unsigned long long)pairs[place].key, (unsigned long long)pairs[place].value);
        for (size_t place = 0; place < item_count; place++)
            printf("item %llu\n", (unsigned long long)items[place]);
        printf("end\n");
        return 0;
    }
    uint64_t flushed = 1;
    for (uint64_t line = 0; line < cells; line++)
        if (words[8 * line + 6] == epoch) {
            memcpy(words + 8 * line, words + 8 * line + 3, 24);
            flushed++;
        }
    words[8 * cells] = epoch + 1;
    memcpy(bytes + 24, words, 64 * total);
    file = fopen(argv[2], "wb");
    if (!file || fwrite(bytes, 1, length, file) != length || fclose(file))
        return 9;
    printf("respct-report 1\nlife resume\nbegan %llu\nsaved %llu\nflushed %llu\nend finished\n", (unsigned long long)epoch,
           (unsigned long long)epoch + 1, (unsigned long long)flushed);
    return 0;
}
PLAIN
cc -O2 -o plain plain.c

# The script of threads without commands, with turns enough.
{
    printf 'respct 1\nthreads 16\nshards 8\nlines 65536\nevery 1\nturns rr 10000000\nkeep none\n'
    for ((thread = 0; thread < 16; thread++)); do
        echo "thread $thread"
    done
    echo end
} >script

# The least processor time of several runs of a word of a command over an image, in milliseconds. The text is left in `written`, the image in
# `run.image`.
milliseconds() {
    local least='' seconds now
    TIMEFORMAT='%U %S'
    for ((run = 0; run < runs; run++)); do
        cp "$3.image" run.image
        if [ "$1" = ./plain ]; then
            seconds=$({ time ./plain "$2" run.image >written; } 2>&1)
        else
            seconds=$({ time "$1" "$2" --image run.image <script >written; } 2>&1)
        fi
        now=$(awk '{ printf "%d", ($1 + $2) * 1000 }' <<<"$seconds")
        if [ -z "$least" ] || [ "$now" -lt "$least" ]; then
            least=$now
        fi
    done
    echo "$least"
}

is_same=yes
for name in image torn; do
    python3 "$top/bench/great.py" "$name" >"$name.image"
    for word in check resume; do
        plain=$(milliseconds ./plain "$word" "$name")
        mv written plain.written
        mv run.image plain.image
        ours=$(milliseconds "$program" "$word" "$name")
        cmp written plain.written && cmp run.image plain.image || is_same=no
        awk -v what="$word of the greatest image$([ "$name" = torn ] && echo ', every cell torn')" -v ours="$ours" -v plain="$plain" \
            'BEGIN { printf "%s: %d ms, the plain program %d ms, %.1f times as much\n", what, ours, plain, ours / (plain < 1 ? 1 : plain) }'
    done
done
[ "$is_same" = yes ]
