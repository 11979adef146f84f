#!/usr/bin/env python3
"""Writes the greatest images and scripts to standard output, for bench/check_resume.sh and bench/hostile.sh.

    python3 bench/great.py image|torn|tag|ends|count        37,749,848 bytes
    python3 bench/great.py turns|keep|commands|...          8,388,608 bytes

The image has 16 threads, 8 shards, 65,536 lines in each room, 524,216 pairs, which is a key in each node line, and 65,534 items, in epoch 7. In
`torn` every cell is tagged with the epoch, and its record is to be put back from its backup. In `tag` the last thread's room is tagged
ahead, in `ends` and `count` the queue room, which is judged last, has wrong ends or a wrong count.

Scripts are named by what fills them; with `bad` before the name the last line is no right one. The last few scripts are wrong at the end
of one line that fills them.
"""
import array
import struct
import sys

THREADS, SHARDS, LINES, EPOCH = 16, 8, 65536, 7
SIZE = 8388608
HEAD = b"respct 1\nthreads 16\nshards 8\nlines 65536\nevery 1\n"
SECTIONS = b"".join(b"thread %d\n" % thread for thread in range(THREADS)) + b"end\n"


def image(name):
    """The bytes of an image."""
    total = (SHARDS + 1) * LINES + THREADS + 1
    words = array.array("Q", bytes(64 * total))
    tag = EPOCH if name == "torn" else 1

    def cell(line, first, second, third):
        at = 8 * line
        triple = (first, second, third)
        words[at:at + 8] = array.array("Q", [*((3, 1, 2) if name == "torn" else triple), *triple, tag, 0])

    for shard in range(SHARDS):
        base = shard * LINES
        cell(base, 0, LINES, LINES - 9)
        heads = [0] * 8
        for node in range(9, LINES):
            # Keys in no order of their lines.
            bucket = node % 8
            key = SHARDS * (8 * (node * 2654435761 % 2**32) + bucket) + shard
            cell(base + node, key, node, heads[bucket])
            heads[bucket] = node
        for bucket, head in enumerate(heads):
            cell(base + 1 + bucket, head, 0, 0)
    base = SHARDS * LINES
    cell(base, 0, LINES, LINES - 2)
    cell(base + 1, 2, LINES - 1, 0)
    for node in range(2, LINES):
        cell(base + node, node, (node + 1) % LINES, 0)
    for thread in range(THREADS):
        cell(base + LINES + thread, 0, 0, 0)
    words[8 * (total - 1)] = EPOCH
    if name == "tag":
        words[8 * (total - 2) + 6] = EPOCH + 1
    elif name == "ends":
        words[8 * (base + 1) + 1] = LINES - 2
    elif name == "count":
        words[8 * base + 2] = LINES - 3
    if sys.byteorder == "big":
        words.byteswap()
    return struct.pack("<8s4I", b"RESPCTIM", 1, THREADS, SHARDS, LINES) + words.tobytes()


def with_keeps(front, behind):
    """A script of the greatest size with a list of what a cut keeps between these parts: items as long as may be, the last ones shorter."""
    items, size = [], len(front) + len(behind)
    while size < SIZE:
        items.append(b" %d:4294967295" % len(items))
        size += len(items[-1])
    at = len(items)
    while size > SIZE:
        at -= 1
        count = min(size - SIZE, 9)
        items[at] = items[at][:-count]
        size -= count
    return front + b"".join(items) + behind


def script(name):
    """The bytes of a script."""
    if name == "turns":
        # As many turns as there is room for, of no commands: the life is over at its beginning. Two digits now and then fill the odd byte.
        front, behind = HEAD + b"turns list", b"\nkeep none\n" + SECTIONS
        count = SIZE - len(front) - len(behind)
        return front + b" 15" * (count % 2) + b" 7" * ((count - 3 * (count % 2)) // 2) + behind
    if name == "keep":
        return with_keeps(HEAD + b"turns rr 0\nkeep list", b"\n" + SECTIONS)
    if name == "commands":
        number = b"18446744073709551615"
        section = (b"put %s %s\n" % (number, number)) * 4096
        sections = b"".join(b"thread %d\n" % thread + section for thread in range(THREADS))
        return with_keeps(HEAD + b"turns rr 0\nkeep list", b"\n" + sections + b"end\n")
    lines = {
        "digits": b"respct 1\nthreads %s\n",
        "zeros": HEAD + b"turns rr 0%s\n",
        "spaces": HEAD + b"turns list 0%s\n",
        "colons": HEAD + b"turns rr 0\nkeep list 0%s\n",
        "feeds": b"respct 1%s\n",
        "word": HEAD + b"turns rr 0\nkeep none\nthread 0\n%s\n",
        "head": b"%s\n",
    }
    fill = {"digits": b"1", "zeros": b"0", "spaces": b" ", "colons": b":", "feeds": b"\n", "word": b"x", "head": b"r"}
    line = lines[name]
    return line % (fill[name] * (SIZE - len(line) + 2))


def main(words):
    """Writes what the words ask for."""
    is_bad = words[0] == "bad"
    name = words[-1]
    data = image(name) if name in ("image", "torn", "tag", "ends", "count") else script(name)
    if is_bad:
        data = data[:-2] + b"x\n"
    sys.stdout.buffer.write(data)


if __name__ == "__main__":
    main(sys.argv[1:])
