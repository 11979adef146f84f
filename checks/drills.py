#!/usr/bin/env python3
"""Holds drills of the built program against a model of their nine lives.

    python3 checks/drills.py [PROGRAM [NUMBER..]]

The scripts of a drill are drawn here by section 17 of docs/formats.md, and its lives led by the model of checks/model.py, which knows nothing
of the program: each from the image that the life before leaves. The summary over the last image is compared with what the program writes, to
the last byte. Ends with status 1 at the first drill that is otherwise.
"""
import concurrent.futures
import pathlib
import sys
import tempfile
import time

sys.dont_write_bytecode = True
import formats  # noqa: E402
import model  # noqa: E402
from formats import Image, Script, run, split_mix  # noqa: E402

THREADS, SHARDS, LINES, EVERY, COMMANDS, LAST = 4, 3, 256, 8, 200, 8
MANY = 2**64
NUMBERS = (0, 1, 2, 7, 20261202, 2**32, 2**63, MANY - 1)


def programs(number):
    """The commands of all threads, of which each life has the same."""
    words = split_mix(number)
    threads = []
    for thread in range(THREADS):
        commands = []
        for index in range(COMMANDS):
            kind, key = next(words) % 8, next(words) % 100
            value = 4 * index + thread
            kinds = [("put", key, value)] * 3 + [("get", key)] * 2 + [("del", key), ("enq", value), ("deq",)]
            commands.append(kinds[kind])
        threads.append(commands)
    return threads


def scripts(number):
    """The scripts of the nine lives."""
    commands = programs(number)
    for life in range(LAST + 1):
        seed = (number + life) % MANY
        turns, keep = (("seed", seed, 3000), ("seed", seed)) if life < LAST else (("rr", 1000000), ("none",))
        yield Script(THREADS, SHARDS, LINES, EVERY, turns, keep, commands)


def summary(number):
    """What the program has to write."""
    data, end = None, ""
    for script in scripts(number):
        report, data = model.life(script, data)
        end = report.decode().split()[-1]
    epoch, positions, pairs, items = Image(data).recovered()
    total = (sum(pairs.values()) + sum(items)) % MANY
    lines = (f"drill {number}", "lives 9", f"kept {sum(positions)}", f"epoch {epoch}", f"pairs {len(pairs)}", f"items {len(items)}",
             f"sum {total}", f"end {end}")
    return "".join(f"{line}\n" for line in lines).encode()


def attempt(program, number):
    """What is wrong with the drill of a number, or nothing."""
    with tempfile.TemporaryDirectory() as folder:
        done = run(program, folder, ["drill", str(number)])
    wanted = 0, summary(number), b""
    return None if tuple(done) == wanted else f"drill {number}: {tuple(done)} in place of {wanted}"


def main(program, numbers):
    """Tries all numbers."""
    begin = time.monotonic()
    with concurrent.futures.ProcessPoolExecutor() as pool:
        for what in pool.map(attempt, [program] * len(numbers), numbers):
            if what:
                sys.exit(f"drills: {what}")
    print(f"drills: {len(numbers)} drills are as by docs/formats.md, in {time.monotonic() - begin:.0f} s, by {program}")


if __name__ == "__main__":
    main(pathlib.Path(sys.argv[1] if len(sys.argv) > 1 else formats.PROGRAM).resolve(), tuple(map(int, sys.argv[2:])) or NUMBERS)
