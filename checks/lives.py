#!/usr/bin/env python3
"""Compares lives of the built program with the same lives by checks/model.py: each report and each image, to the last byte.

    python3 checks/lives.py [PROGRAM [FIRST COUNT]]

Memories and scripts are drawn from numbers, the same ones in each run: up to five threads and three shards, small rooms that fill up, all
commands, all schedules of a replay and all choices of a cut. Each memory has up to six lives, with other quotas, turns and choices, and now
and then with longer scripts, and then one with turns enough. COUNT numbers from FIRST on are tried.

Ends with status 1 at the first life that is otherwise, with its script and the image from which it began.
"""
import concurrent.futures
import os
import pathlib
import random
import sys
import tempfile
import time

sys.dont_write_bytecode = True
import formats  # noqa: E402
import model  # noqa: E402
from formats import Script, run, script_text  # noqa: E402

IMAGE = "life.image"
CODES = {b"finished": 0, b"stalled": 3, b"cut": 4}


def command(draw, keys):
    """A command."""
    name = draw.choice(("put",) * 4 + ("get",) + ("del",) * 2 + ("enq",) * 4 + ("deq", "deq", "take"))
    operands = {"put": 2, "get": 1, "del": 1, "enq": 1}.get(name, 0)
    return (name, *(draw.choice((draw.randrange(keys), draw.randrange(2**64))) if at else draw.randrange(keys) for at in range(operands)))


def schedule(draw, threads):
    """A schedule of some turns."""
    count = draw.randrange(draw.choice((30, 300, 1000)))
    if draw.randrange(3) == 0:
        return "seed", draw.randrange(2**64), count
    return ("rr", count) if draw.randrange(2) else ("list", [draw.randrange(threads) for _ in range(count)])


def choice(draw, total):
    """What a cut keeps of so many lines."""
    lines = sorted(draw.sample(range(total), draw.randrange(total + 1)))
    return draw.choice((("none",), ("all",), ("seed", draw.randrange(2**64)), ("list", {line: draw.randrange(12) for line in lines})))


def scripts(number):
    """The scripts of the lives of one memory."""
    draw = random.Random(number)
    threads, shards, lines = draw.randrange(1, 6), draw.randrange(1, 4), draw.choice((16, 16, 17, 30))
    total = (shards + 1) * lines + threads + 1
    longest, keys = draw.choice((3, 12, 60)), draw.choice((4, 30, 300))
    programs = [[command(draw, keys) for _ in range(draw.randrange(longest))] for _ in range(threads)]
    for _ in range(draw.randrange(7)):
        yield Script(threads, shards, lines, draw.randrange(1, 6), schedule(draw, threads), choice(draw, total), programs)
        if draw.randrange(6) == 0:
            programs = [[*program, *(command(draw, keys) for _ in range(3))] for program in programs]
    yield Script(threads, shards, lines, draw.randrange(1, 6), ("rr", 200000), choice(draw, total), programs)


def attempt(program, number):
    """Leads the lives of a number, and gives what is wrong, or nothing, and how many they were."""
    data, count = None, 0
    with tempfile.TemporaryDirectory() as folder:
        path = pathlib.Path(folder, IMAGE)
        for script in scripts(number):
            count += 1
            report, image = model.life(script, data)
            done = run(program, folder, ["resume" if data else "start", "--image", IMAGE], script_text(script))
            wanted = CODES[report.split()[-1]], report, b""
            saved = path.read_bytes() if path.exists() else None
            if tuple(done) != wanted or saved != image:
                what = "another image" if tuple(done) == wanted else f"{tuple(done)} in place of {wanted}"
                begin = f"from the image {data.hex()}" if data else "from formatted memory"
                return f"number {number}, life {count}: {what}\n{script_text(script).decode()}{begin}", count
            data = image
    return None, count


def main(program, first, numbers):
    """Tries all numbers, and ends with what is wrong first, or with a line that tells how much was tried."""
    begin, lives = time.monotonic(), 0
    # Processes, since the model takes longer than the program.
    with concurrent.futures.ProcessPoolExecutor(os.cpu_count()) as pool:
        for what, count in pool.map(attempt, [program] * numbers, range(first, first + numbers), chunksize=5):
            if what:
                pool.shutdown(wait=False, cancel_futures=True)
                sys.exit(f"lives: {what}")
            lives += count
    print(f"lives: {lives} lives of {numbers} memories are as by docs/formats.md, to the last byte, in {time.monotonic() - begin:.0f} s, by {program}")


if __name__ == "__main__":
    main(pathlib.Path(sys.argv[1] if len(sys.argv) > 1 else formats.PROGRAM).resolve(), *map(int, sys.argv[2:4] or (0, 200)))
