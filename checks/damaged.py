#!/usr/bin/env python3
"""Gives the built program damaged scripts and images, and compares what it says with the first fault by docs/formats.md.

    python3 checks/damaged.py [PROGRAM]

Scripts: each line of three right ones left out and doubled, each character left out, doubled and changed into others, each first part of
them, each number at its limits, one beyond, and written in ways that are no number; other line ends, tabs, spaces and bytes; sections in
other orders. Images: each first part of one, each word of two in turn with other values, each byte of the head, many words of one at once,
and a list of damages whose faults were worked out by hand.

The first fault of each is found by the readers of checks/formats.py. A refusal has its code and its line on standard error, letter by
letter, nothing on standard output, and leaves no image, or the image as it was. What is no fault after all is carried out, and is judged as
by checks/cuts.py.

Ends with status 1, and with the first inputs about which the program says something else.
"""
import concurrent.futures
import functools
import itertools
import os
import pathlib
import random
import struct
import sys
import tempfile
import time

sys.dont_write_bytecode = True
import cuts  # noqa: E402
import formats  # noqa: E402
from formats import KINDS, MOST, Fault, Image, Recovered, read_report, read_script, run, state_text  # noqa: E402

IMAGE = "damaged.image"
# Whether scripts of threads that run by themselves are carried out: as long as they are not, the documents say so.
RUNS_LIVE = "`script: line 0: not built`" not in (formats.ROOT / "docs/formats.md").read_text(encoding="utf-8")
FIRST = b"respct 1\nthreads 1\nshards 1\nlines 16\nevery 1\nturns rr 49\nkeep none\nthread 0\nput 5 7\nend\n"
SECOND = (
    b"respct 1\nthreads 2\nshards 2\nlines 16\nevery 3\nturns list 0 1 1 0\nkeep list 0:3 49:4294967295\n"
    b"thread 0\nput 1 20\nget 1\ndel 1\nthread 1\nenq 5\ndeq\ntake\nend\n"
)
THIRD = b"respct 1\nthreads 1\nshards 8\nlines 20\nevery 1024\nturns seed 18446744073709551615 300\nkeep seed 0\nthread 0\ntake\nend\n"
CHANGES = [b" ", b"\n", b"\0", b"\t", b"\r", b":", b"0", b"1", b"9", b"x", b"\xff"]
NO_NUMBERS = (
    b"", b"+1", b"-1", b"-0", b"01", b"00", b"1.0", b"1e3", b"0x1", b"1_000", b" 1", b"1 ", b"  1", b"\t1", b"1\t", b"1\r", b"1\0", b"\0", b"one",
    "١".encode(), "１".encode(), b"\xff", b"1:1", b":", b"18446744073709551616", b"99999999999999999999999", b"1" * 40,
)


# Scripts


def slots():
    """Texts with one number left open, and the numbers at which it is tried: its limits and one beyond."""
    head = b"respct 1\nthreads %s\nshards %s\nlines %s\nevery %s\n%s\n%s\n"
    first = b"thread 0\nput 5 7\nend\n"
    turns, keep = b"turns rr 60", b"keep none"
    many = b"".join(b"thread %d\n" % thread for thread in range(16)) + b"end\n"
    for sections in (first, many):
        yield head % (b"%s", b"1", b"16", b"1", turns, keep) + sections, (0, 1, 2, 15, 16, 17)
    yield head % (b"1", b"%s", b"16", b"1", turns, keep) + first, (0, 1, 8, 9)
    yield head % (b"1", b"1", b"%s", b"1", turns, keep) + first, (15, 16, 65536, 65537)
    yield head % (b"1", b"1", b"16", b"%s", turns, keep) + first, (0, 1, 1024, 1025)
    for form in (b"turns rr %s", b"turns seed 5 %s", b"live %s"):
        yield head % (b"1", b"1", b"16", b"1", form, keep) + first, (0, 1, 10000000, 10000001)
    yield head % (b"1", b"1", b"16", b"1", b"turns seed %s 60", keep) + first, (0, MOST, MOST + 1)
    yield head % (b"3", b"1", b"16", b"1", b"turns list 0 %s 1", keep) + many[:27] + b"end\n", (0, 2, 3)
    yield head % (b"1", b"1", b"16", b"1", turns, b"keep seed %s") + first, (0, MOST, MOST + 1)
    yield head % (b"1", b"1", b"16", b"1", turns, b"keep list 4:1 %s:2") + first, (3, 4, 5, 33, 34)
    yield head % (b"1", b"1", b"16", b"1", turns, b"keep list 4:1 7:%s") + first, (0, 2**32 - 1, 2**32)
    for form in (b"thread 0\nput %s 7", b"thread 0\nput 7 %s", b"thread 0\nget %s", b"thread 0\ndel %s", b"thread 0\nenq %s"):
        yield head % (b"1", b"1", b"16", b"1", turns, keep) + form + b"\nend\n", (0, MOST, MOST + 1)
    yield head % (b"1", b"1", b"16", b"1", turns, keep) + b"thread %s\nend\n", (0, 1)
    yield head % (b"2", b"1", b"16", b"1", turns, keep) + b"thread 0\ndeq\nthread %s\nend\n", (0, 1, 2)


def shifted(text):
    """A text whose lines are damaged in turn."""
    lines = text.splitlines(keepends=True)
    for at, line in enumerate(lines):
        yield b"".join(lines[:at] + lines[at + 1:])
        yield b"".join(lines[:at] + [line] + lines[at:])
        for word in (b" ", b"x", b"\r"):
            yield b"".join(lines[:at] + [line[:-1] + word + b"\n"] + lines[at + 1:])
        yield b"".join(lines[:at] + [b" " + line] + lines[at + 1:])
        yield b"".join(lines[:at] + [line.replace(b" ", b"  ")] + lines[at + 1:])
        yield b"".join(lines[:at] + [line.replace(b" ", b"\t")] + lines[at + 1:])
        yield b"".join(lines[:at] + [line.upper()] + lines[at + 1:])
        yield b"".join(lines[:at] + [b"\n"] + lines[at:])
        if at:
            yield b"".join(lines[:at - 1] + [line, lines[at - 1]] + lines[at + 1:])


def scripts():
    """All scripts that are tried."""
    for text in (FIRST, SECOND, THIRD):
        yield from shifted(text)
        for at in range(len(text)):
            yield text[:at]
            yield text[:at] + text[at + 1:]
            yield text[:at + 1] + text[at:]
            for change in CHANGES:
                yield text[:at] + change + text[at + 1:]
        yield text.replace(b"\n", b"\r\n")
        yield text.replace(b"\n", b"\r")
        yield b"\xef\xbb\xbf" + text
        yield text.decode("ascii").encode("utf-16")
        for after in (b"\n", b"\0", b" ", b"x", b"end\n", text):
            yield text + after
    for text, numbers in slots():
        for word in [*(b"%d" % one for one in numbers), *NO_NUMBERS]:
            yield text % word
    command = b"get 1\n"
    for count, last in ((4096, b""), (4097, b""), (4096, b"got 1\n"), (4096, b"get x\n"), (4096, b"thread 1\n")):
        yield FIRST.replace(b"put 5 7\n", command * count + last)
    yield SECOND.replace(b"thread 1\n", b"thread 2\n")
    yield SECOND.replace(b"thread 1\n", b"")
    yield SECOND.replace(b"thread 0\n", b"")
    yield SECOND.replace(b"end\n", b"thread 2\nend\n")
    yield FIRST.replace(b"turns rr 49", b"live 49")
    yield FIRST.replace(b"turns rr 49", b"live 49").replace(b"end\n", b"")
    # Two faults in one line, and lines that stand before or behind them.
    for form in (b"keep list 9:x 3", b"keep list 3:x 4:9:9", b"keep list x:4294967296", b"keep list 34:x", b"keep list 34:1 3", b"keep list 5:1 5:x"):
        yield FIRST.replace(b"keep none", form)
    for form in (b"turns list 0 1 x", b"turns list 0 x 1", b"turns seed x 10000001", b"turns seed 5", b"turns rr", b"turns", b"live", b"live 1 1"):
        yield FIRST.replace(b"turns rr 49", form)


# The scripts whose first faults were worked out by hand.
ROWS = (
    (b"respct 1\nthreads 2\nshards 1\nlines 16\nevery 1\nturns rr 0\nkeep none\nthread 0\nthread 2\nend\n", (9, 7)),
    (FIRST.replace(b"end\n", b""), (10, 10)),
    (FIRST.replace(b"threads 1", b"threads 2"), (10, 7)),
    (FIRST.replace(b"rr 49", b"rr 10000001"), (6, 4)),
    (FIRST.replace(b"put 5 7", b"put 18446744073709551616 1"), (9, 3)),
    (b"", (1, 10)),
    (b"respct 2\n", (1, 1)),
    (FIRST.replace(b"threads 1", b"threads "), (2, 3)),
    (FIRST.replace(b"threads 1", b"threads  1"), (2, 2)),
    (FIRST.replace(b"rr 49", b"rr 5 "), (6, 5)),
    (FIRST.replace(b"keep none", b"keep none "), (7, 6)),
    (FIRST.replace(b"keep none", b"keep list 0:"), (7, 3)),
    (FIRST.replace(b"put 5 7", b"get "), (9, 3)),
    (FIRST.replace(b"put 5 7", b"deq "), (9, 8)),
    (FIRST.replace(b"put 5 7\n", b"get 1\n" * 4097), (4105, 9)),
    (FIRST + b"\n", (11, 11)),
)


def try_script(program, folder, text):
    """What is wrong with what the program makes of a text, where something is."""
    path = pathlib.Path(folder) / IMAGE
    path.unlink(missing_ok=True)
    done = run(program, folder, ["start", "--image", IMAGE], text)
    try:
        script = read_script(text)
        if script.mode[0] == "live" and not RUNS_LIVE:
            raise Fault(0, 0)
    except Fault as fault:
        line, kind = fault.args
        said = f"script: line {line}: {KINDS[kind]}\n".encode()
        if done != (2, b"", said) or path.exists():
            return f"it is to say {said!r}, and it does {done!r}, with {'an' if path.exists() else 'no'} image"
        return None
    try:
        cuts.want(not done.said and path.exists(), f"it is right, and the program does {done!r}")
        report = read_report(done.written)
        cuts.want(cuts.ENDS.get(report.end) == done.status, f"status {done.status} and 'end {report.end}'")
        image = Image(path.read_bytes())
        cuts.judge(script, "start", Recovered(1, [0] * script.threads, {}, []), None, report, image)
    except (cuts.Wrong, Fault) as wrong:
        return str(wrong)
    return None


# Images


def put_image():
    """What the put leaves at its end."""
    return formats.image_bytes(1, 1, 16, cuts.left(formats.formatted(1, 1, 16), cuts.PUT_TURNS, ("none",)))


def rich_image():
    """An image of two threads, two shards and 16 lines in epoch 6: chains of three and two nodes, a queue, free lists, and torn cells."""
    words = formats.formatted(2, 2, 16)

    def cell(room, line, *triple, torn=None, tag=5):
        at = 8 * (16 * room + line)
        record, backup = (torn, triple) if torn else (triple, (1, 2, 3))
        words[at:at + 7] = [*record, *backup, 6 if torn else tag]

    cell(0, 0, 11, 14, 3)
    cell(0, 4, 9, 0, 0)
    cell(0, 9, 6, 60, 13)
    cell(0, 13, 22, 220, 10, torn=(22, 221, 10))
    cell(0, 10, 38, 380, 0)
    cell(0, 11, 12, 0, 0)
    cell(0, 12, 0, 0, 0, torn=(7, 7, 7))
    cell(1, 0, 0, 11, 2, torn=(0, 12, 3))
    cell(1, 1, 9, 0, 0)
    cell(1, 8, 10, 0, 0)
    cell(1, 9, 1, 100, 0)
    cell(1, 10, 15, 150, 0)
    cell(2, 0, 5, 6, 3)
    cell(2, 1, 2, 4, 0)
    cell(2, 2, 70, 3, 0)
    cell(2, 3, 71, 4, 0, torn=(71, 0, 0))
    cell(2, 4, 72, 0, 0)
    cell(2, 5, 0, 0, 0)
    cell(3, 0, 4, 0, 0, torn=(5, 0, 0))
    words[8 * 49:8 * 49 + 7] = [2, 0, 0, 1, 0, 0, 5]
    words[8 * 50] = 6
    return formats.image_bytes(2, 2, 16, words)


# What the rich image recovers to.
RICH = Recovered(6, [4, 2], {6: 60, 22: 220, 38: 380, 1: 100, 15: 150}, [70, 71, 72])


def with_word(data, offset, value, form="<Q"):
    """The bytes with a number at this offset."""
    size = struct.calcsize(form)
    return data[:offset] + struct.pack(form, value & MOST) + data[offset + size:]


def image_rows(data):
    """Damages of what the put leaves, with the faults that were worked out by hand."""
    yield data + b"\0", "long"
    yield b"\0" + data[1:], "magic"
    yield with_word(data, 8, 9, "<I"), "version"
    yield with_word(data, 12, 17, "<I"), "settings"
    for offset, value, fault in (
        (2136, 0, "epoch"),
        (32, 17, "header, room 0"),
        (40, 2, "header, room 0"),
        (600, 6, "chain, room 0"),
        (24, 9, "free list, room 0"),
        (40, 0, "count, room 0"),
        (1120, 2, "ends, room 1"),
        (648, 3, "tag ahead, room 0, line 9"),
        (616, 9, "chain, room 0"),
        (2136, 2**32, "epoch"),
        (2136, 2**32 - 1, None),
        (2136, 1, "tag ahead, room 0, line 0") if Image(data).words[6] > 1 else (2136, 1, None),
    ):
        yield with_word(data, offset, value), fault
    yield data[:-1], "short"
    yield b"", "short"


def images():
    """All images that are tried."""
    put, rich = put_image(), rich_image()
    for data in (put, rich):
        yield from (data[:length] for length in range(0, len(data), 1 if data is put else 7))
        yield from (data + b"\0" * count for count in (1, 64, 5000))
        for at, value in itertools.product(range(24), (0, 1, 2, 16, 17, 255)):
            yield data[:at] + bytes([value]) + data[at + 1:]
        image = Image(data)
        for at, old in enumerate(image.words):
            for value in {0, old + 1, old ^ 2**32, MOST, 9, image.epoch + 1} - {old}:
                yield with_word(data, 24 + 8 * at, value)
    for field, numbers in ((12, (0, 1, 16, 17)), (16, (0, 1, 8, 9)), (20, (15, 16, 65536, 65537, 2**32 - 1))):
        for value in numbers:
            yield with_word(put, field, value, "<I")
    draw = random.Random(21)
    count = len(Image(rich).words)
    for _ in range(1500):
        data = rich
        for _ in range(draw.randrange(2, 7)):
            at = draw.choice((draw.randrange(count), 8 * draw.randrange(count // 8) + draw.randrange(7)))
            data = with_word(data, 24 + 8 * at, draw.choice((0, 2, 4, 5, 6, 7, 9, 10, 11, 12, 13, 14, 16, 22, 1 << 63, draw.randrange(18))))
        yield data


def try_image(program, folder, data):
    """What is wrong with what a check of these bytes, and a resume from them, makes of them, where something is."""
    path = pathlib.Path(folder) / IMAGE
    path.write_bytes(data)
    done = run(program, folder, ["check", "--image", IMAGE])
    try:
        wanted = (0, state_text(Image(data).recovered()), b"")
        fault = None
    except Fault as found:
        fault = str(found)
        wanted = (5, b"", f"image: {fault}\n".encode())
    if done != wanted:
        return f"a check is to do {wanted!r}, and does {tuple(done)!r}"
    if path.read_bytes() != data:
        return "a check changes the image"
    if fault is not None and (len(data) % 16 == 8 or len(data) < 40):
        done = run(program, folder, ["resume", "--image", IMAGE], FIRST)
        if done != wanted or path.read_bytes() != data:
            return f"a resume is to do {wanted!r}, and does {tuple(done)!r}"
    return None


# Running


@functools.cache
def own_folder(place):
    """A folder of this process's own in this place."""
    return tempfile.mkdtemp(dir=place)


def attempt(program, place, one):
    """Tries one input, and gives what is wrong, or nothing."""
    call, data = one
    try:
        what = call(program, own_folder(place), data)
    except OSError as error:
        what = str(error)
    return what and f"{what}\nof the input {data!r}"


def by_hand():
    """What is wrong with the readers, by inputs whose faults were worked out by hand."""
    for text, fault in ROWS:
        try:
            read_script(text)
            found = None
        except Fault as wrong:
            found = wrong.args
        if found != fault:
            yield f"the reader finds {found} in place of {fault} in {text!r}"
    if Image(rich_image()).recovered() != RICH:
        yield "the reader has another state of the rich image"
    for data, fault in image_rows(put_image()):
        try:
            Image(data).recovered()
            found = None
        except Fault as wrong:
            found = str(wrong)
        if found != fault:
            yield f"the reader finds {found} in place of {fault}"


def main(program):
    """Tries all, and ends with what is wrong first, or with a line that tells how much was tried."""
    begin = time.monotonic()
    texts = dict.fromkeys([*(text for text, _ in ROWS), *scripts()])
    datas = dict.fromkeys([*(data for data, _ in image_rows(put_image())), *images()])
    wrong = list(by_hand())
    calls = [(try_script, text) for text in texts] + [(try_image, data) for data in datas]
    with tempfile.TemporaryDirectory() as place, concurrent.futures.ProcessPoolExecutor(os.cpu_count()) as pool:
        wrong += filter(None, pool.map(functools.partial(attempt, program, place), calls, chunksize=50))
    for what in wrong[:10]:
        print(f"damaged: {what}", file=sys.stderr)
    if wrong:
        sys.exit(f"damaged: {len(wrong)} inputs of {len(calls)} are answered otherwise")
    took = time.monotonic() - begin
    print(f"damaged: {len(texts)} scripts and {len(datas)} images have the first fault that they have to, in {took:.0f} s, by {program}")


if __name__ == "__main__":
    main(pathlib.Path(sys.argv[1] if len(sys.argv) > 1 else formats.PROGRAM).resolve())
