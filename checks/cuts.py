#!/usr/bin/env python3
"""Cuts lives of the built program at turn after turn, and recoveries at event after event, and goes on from what each cut leaves.

    python3 checks/cuts.py [PROGRAM]

Four scripts are started and cut: one put of one thread at each of its turns; two threads over two shards; a thread that takes what
another one brings, so that cuts undo the item that woke it; and takes of which two have to wait for ever. Each is cut with `keep none`,
`keep all` and a seed. What is left is checked, resumed to its end, and checked again. Recoveries of the put are cut at each of their
events, twice in a row, and then finished. Lists of up to seven lives of several threads are cut at random turns, the same ones in each run.

What a life has to tell is worked out here: by the object of one thread, by the definitions of docs/formats.md, and for the put and for
recoveries by tables of their turns, to the last byte of report and image. Each reply is that object's in the report's order; each thread's
commands come in order; marks rise, with the epochs behind the beginning; an image recovers to what the last mark covers, or, where the
next epoch was stored and not acknowledged, to all entries; what a life leaves under `keep all` has in each room that is not held what all
entries leave. So nothing that was acknowledged is lost, and over a list of lives each command is kept once and in order.

Ends with status 1 at the first life that is otherwise, with its script and the image from which it began.
"""
import concurrent.futures
import functools
import itertools
import os
import pathlib
import random
import sys
import tempfile
import time

sys.dont_write_bytecode = True
import formats  # noqa: E402
from formats import Fault, Image, Plain, Recovered, Script, read_report, run, script_text, state_text  # noqa: E402

ENDS = {"finished": 0, "stalled": 3, "cut": 4}
KEEPS = (("none",), ("all",), ("seed", 7))
IMAGE = "cut.image"
MANY = ("rr", 1000)
PUT = Script(1, 1, 16, 1, MANY, ("none",), [[("put", 5, 7)]])
TWO = Script(
    2, 2, 16, 2, MANY, ("none",),
    [
        [("put", 1, 10), ("enq", 5), ("del", 1), ("get", 2), ("put", 17, 3)],
        [("put", 1, 20), ("put", 2, 21), ("deq",), ("enq", 6), ("get", 1)],
    ],
)
TAKES = Script(
    2, 1, 16, 1, MANY, ("none",),
    [[("take",), ("put", 1, 10), ("take",)], [("enq", 9), ("del", 1), ("enq", 8)]],
)
STALLS = Script(2, 1, 16, 2, MANY, ("none",), [[("put", 1, 10), ("take",), ("take",)], [("enq", 9), ("take",)]])


class Wrong(Exception):
    """What is not as it has to be."""


def want(is_so, what):
    """Tells what is wrong where something is not so."""
    if not is_so:
        raise Wrong(what)


# What a cut leaves of memory whose stores and fences are known


def left(words, events, keep):
    """The words that a cut behind these events leaves of memory: stores are of a line, a word and a value, fences of the lines of a room."""
    words, pending = list(words), {}

    def play(line, stores):
        for word, value in stores:
            words[8 * line + word] = value

    for event in events:
        if event[0] == "store":
            pending.setdefault(event[1], []).append(event[2:])
        elif event[0] == "fence":
            for line in event[1]:
                play(line, pending.pop(line, []))
    drawn = list(itertools.islice(formats.split_mix(keep[1]), len(words) // 8)) if keep[0] == "seed" else []
    for line, stores in pending.items():
        count = {"none": 0, "all": len(stores)}.get(keep[0])
        play(line, stores[:drawn[line] % (len(stores) + 1) if count is None else count])
    return words


def recovery_events(image):
    """The events of a recovery of an image."""
    top = image.rooms[-1][0]
    events = []
    for lines in image.torn():
        events += [("store", line, word, image.words[8 * line + 3 + word]) for line in lines for word in range(3)]
        events += [("back", line) for line in lines]
        events.append(("fence", lines))
    return events + [("store", top, 0, image.epoch + 1), ("back", top), ("fence", [top])]


# The turns of the put, from the first on: the header's fresh, the node at line 9, the head of bucket 5 at line 6, the header's count; then
# the thread's own line 32, and the super room's line 33. Turns that store nothing are other turns.
OTHER = [("other",)]


def stores(line, *pairs):
    """Stores to a line."""
    return [("store", line, word, value) for word, value in pairs]


PUT_TURNS = (
    2 * OTHER
    + stores(0, (3, 0), (4, 9), (5, 0), (6, 1), (1, 10))
    + stores(9, (3, 0), (4, 0), (5, 0), (6, 1), (0, 5), (1, 7), (2, 0))
    + stores(6, (3, 0), (4, 0), (5, 0), (6, 1), (0, 9))
    + stores(0, (2, 1))
    + 3 * OTHER
    + stores(32, (3, 0), (4, 0), (5, 0), (6, 1), (0, 1))
    + 4 * OTHER
    + [("back", 0), ("back", 9), ("back", 6), ("fence", range(16))]
    + 4 * OTHER
    + [("back", 32), ("fence", [32])]
    + 2 * OTHER
    + [("store", 33, 0, 2), ("back", 33), ("fence", [33])]
    + 2 * OTHER
)
# The rooms held behind the turns from the first number to the last.
PUT_HELD = ((2, 21, 0), (23, 28, 2), (32, 36, 0), (38, 38, 1), (40, 42, 2), (44, 47, 3))


def text(*lines):
    """The text of these lines, without those that are empty."""
    return "".join(f"{line}\n" for line in lines if line).encode()


def backs(events):
    """How many of these events are write-backs."""
    return sum(event[0] == "back" for event in events)


def put_report(cut):
    """The report of the put that is cut behind so many turns."""
    return text(
        "respct-report 1", "life start", "began 1",
        "entry 0 0 put 5 7 = new" if cut >= 21 else "",
        "saved 2" if cut >= 49 else "",
        *(f"held {room}" for first, last, room in PUT_HELD if first <= cut <= last),
        f"flushed {backs(PUT_TURNS[:cut])}",
        "end finished" if cut >= 49 else "end cut",
    )


def resumed_report(image, position):
    """The report of a resume of the put to its end, from an image with this position."""
    epoch = image.epoch
    flushed = image.recovery()[1] + (0 if position else 5)
    entry = [] if position else ["entry 0 0 put 5 7 = new", f"saved {epoch + 2}"]
    return text("respct-report 1", "life resume", f"began {epoch}", f"saved {epoch + 1}", *entry, f"flushed {flushed}", "end finished")


def recovering_report(image, turns):
    """The report of a resume that is cut behind so many events of its recovery, not all of them."""
    flushed = backs(recovery_events(image)[:turns])
    return text("respct-report 1", "life resume", f"began {image.epoch}", f"flushed {flushed}", "end cut")


# Lives


class Lives:
    """A list of lives of one memory: what the last image recovers to, and the entries that all of them kept."""

    def __init__(self, program, folder):
        self.program, self.folder = program, folder
        self.path = pathlib.Path(folder) / IMAGE
        self.path.unlink(missing_ok=True)
        self.data = self.image = self.state = None
        self.kept = []
        self.began = None  # the script of the last life, and the bytes from which it began

    def begin(self, data):
        """The lives of another memory of the put, with these bytes as its image."""
        self.path.write_bytes(data)
        self.data, self.image = data, Image(data)
        self.state = self.image.recovered()
        self.kept = [(0, 0, ("put", 5, 7), "new")][:self.state.positions[0]]

    def live(self, script, mode, keep):
        """Leads a life of this script with these turns and this choice, and looks whether it tells and leaves what it has to."""
        script = script._replace(mode=mode, keep=keep)
        kind = "resume" if self.data else "start"
        self.began = f"{kind} over", script, self.data
        done = run(self.program, self.folder, [kind, "--image", IMAGE], script_text(script))
        want(not done.said, f"it says {done.said!r}")
        report = read_report(done.written)
        want(ENDS.get(report.end) == done.status, f"status {done.status} and 'end {report.end}'")
        state = self.state or Recovered(1, [0] * script.threads, {}, [])
        data = self.path.read_bytes()
        image = Image(data)
        kept = judge(script, kind, state, self.image, report, image)
        want(image.recovered().epoch >= state.epoch + len(report.marks), "an acknowledged epoch is lost")
        self.kept += report.entries[:kept]
        self.data, self.image, self.state = data, image, image.recovered()
        want(self.state == replay(script, self.kept).now(self.image.epoch), "it recovers to another state than all that was kept leaves")
        return done, report

    def check(self):
        """Has the program check the image that is left."""
        done = run(self.program, self.folder, ["check", "--image", IMAGE])
        want((done.status, done.said) == (0, b""), f"the check of what it left ends with {done.status} and says {done.said!r}")
        want(done.written == state_text(self.state), f"the check of what it left tells {done.written!r} in place of {state_text(self.state)!r}")
        want(self.path.read_bytes() == self.data, "the check changes the image")


def replay(script, entries, state=None):
    """The object behind these entries, where each is its thread's next command and has the object's reply."""
    plain = Plain(script, state)
    for thread, place, one, reply in entries:
        want(thread < script.threads and place == plain.positions[thread], f"entry {thread} {place} is not the next of its thread")
        want(place < len(script.programs[thread]) and script.programs[thread][place] == one, f"entry {thread} {place} is another command")
        answer = plain.apply(one)
        want(reply == answer, f"entry {thread} {place} has the reply {reply} in place of {answer}")
        plain.positions[thread] += 1
    return plain


def judge(script, kind, state, before, report, image):
    """Looks whether a life from this state that left this image may have this report, and gives how many entries the image keeps."""
    entries, marks = report.entries, report.marks
    lengths = [length for _, length in marks]
    want((report.life, report.began) == (kind, state.epoch), "it is another life, or began in another epoch")
    want([epoch for epoch, _ in marks] == list(range(state.epoch + 1, state.epoch + 1 + len(marks))), "marks have other epochs")
    want(lengths == sorted(lengths), "marks fall")
    end = replay(script, entries, state)
    if kind == "resume":
        want(lengths[:1] == [0] if marks else not entries, "the first mark of a resume is not its recovery's")
    stretches(script, state, entries, lengths)
    last = lengths[-1] if lengths else 0
    ends(script, kind, report, lengths, end)
    rooms = len(image.rooms)
    want(report.held == sorted(set(report.held)) and len(report.held) <= script.threads, "rooms that are held do not ascend, or are too many")
    want(all(room < rooms for room in report.held), "no such room is held")
    want(not report.held or (report.end in ("cut", "starved") and (kind == "start" or marks)), "a room is held where none can be")
    closings = len(marks) - (kind == "resume" and bool(marks))
    most = (before.recovery()[1] if before else 0) + 4 * len(entries) + (script.threads + 1) * (closings + 1)
    want(report.flushed <= most, "more write-backs than can be")
    found = image.recovered()
    if found.epoch == state.epoch + len(marks):
        want(found == replay(script, entries[:last], state).now(found.epoch), "it recovers to another state than the last mark covers")
        kept = last
    else:
        want(found.epoch == state.epoch + len(marks) + 1, "the image has an epoch that this life did not write")
        want(report.held in ([], [rooms - 1]), "an epoch was stored while another room than the super room is held")
        want(found == end.now(found.epoch), "it recovers to another state than all entries leave")
        stretches(script, state, entries, [*lengths, len(entries)])
        kept = len(entries)
    if script.keep == ("all",) and (kind == "start" or marks):
        present(report, image, end, replay(script, entries[:last], state))
    return kept


def stretches(script, state, entries, lengths):
    """Between two marks a thread has no entry, as many as its quota, or fewer at its end or before a take; and no more behind the last."""
    positions = list(state.positions)
    for begin, close in itertools.pairwise([0, *lengths, len(entries)]):
        is_closed = close != len(entries) or len(entries) in lengths
        counts = [0] * script.threads
        for thread, *_ in entries[begin:close]:
            counts[thread] += 1
        for thread, count in enumerate(counts):
            positions[thread] += count
            rest = script.programs[thread][positions[thread]:]
            want(count <= script.every, f"thread {thread} has more entries in an epoch than its quota")
            if is_closed and 0 < count < script.every:
                want(not rest or rest[0] == ("take",), f"thread {thread} has fewer entries in an epoch than its quota")


def ends(script, kind, report, lengths, end):
    """A life is finished exactly where all is done and saved, and stalled only where all that is left waits, and all is saved; but it may starve."""
    if report.end == "starved":
        return
    rests = [program[position:] for program, position in zip(script.programs, end.positions)]
    count = len(report.entries)
    is_saved = bool(lengths) and lengths[-1] == count
    is_idle = kind == "start" and not count and not lengths
    want((report.end == "finished") == (not any(rests) and (is_saved or is_idle)), f"it has 'end {report.end}'")
    if report.end == "stalled":
        waits = [rest[0] == ("take",) for rest in rests if rest]
        closed = len(lengths) > (kind == "resume")
        want(is_saved and closed and waits and all(waits) and not end.items, "it stalls, and not all waits and is saved")


def present(report, image, end, saved):
    """Under `keep all` the image has what memory loads: each room that is not held has what all entries leave."""
    for room in range(image.shards + 1):
        if room in report.held:
            continue
        items = []
        pairs = image.room(room, image.loads, items)
        if room < image.shards:
            want(pairs == {key: value for key, value in end.pairs.items() if key % image.shards == room}, f"map room {room} loads other pairs")
        else:
            want(items == end.items, "the queue loads other items")
    for thread in range(image.threads):
        room = image.shards + 1 + thread
        if room not in report.held:
            place = image.loads(image.rooms[room][0])[0]
            want(place in (saved.positions[thread], end.positions[thread]), f"thread {thread} loads another place")


# What is tried


def try_put(lives, cut, keep):
    """The put cut behind so many turns, and resumed to its end."""
    done, _ = lives.live(PUT, ("rr", cut), keep)
    want(done.written == put_report(cut), f"its report is {done.written!r} in place of {put_report(cut)!r}")
    words = left(formats.formatted(1, 1, 16), PUT_TURNS[:cut], keep)
    want(lives.data == formats.image_bytes(1, 1, 16, words), "its image has other bytes")
    lives.check()
    finish_put(lives)


def finish_put(lives):
    """A resume of the put to its end, and a check."""
    report = resumed_report(lives.image, lives.state.positions[0])
    done, _ = lives.live(PUT, MANY, ("none",))
    want(done.written == report, f"its report is {done.written!r} in place of {report!r}")
    want((lives.state.positions, lives.state.pairs, lives.state.items) == ([1], {5: 7}, []), "the put is not there at the end")
    lives.check()


def cut_recovery(lives, turns, keep):
    """A recovery of the put that is cut behind so many of its events, not all of them."""
    before = lives.image
    report = recovering_report(before, turns)
    done, _ = lives.live(PUT, ("rr", turns), keep)
    want(done.written == report, f"its report is {done.written!r} in place of {report!r}")
    words = left(before.words, recovery_events(before)[:turns], keep)
    want(lives.data == formats.image_bytes(1, 1, 16, words), "its image has other bytes")


def try_recovery(lives, data, first, seconds):
    """A recovery from this image cut behind its first events, and then behind each of these counts of events; and then finished."""
    lives.begin(data)
    cut_recovery(lives, *first)
    once, state = lives.data, lives.state
    for turns, keep in seconds:
        lives.begin(once)
        want(lives.state == state, "one image recovers to two states")
        cut_recovery(lives, turns % lives.image.recovery()[0], keep)
        finish_put(lives)


def try_script(lives, script, cut, keep):
    """A script of several threads cut behind so many turns, and resumed to its end."""
    lives.live(script, ("rr", cut), keep)
    lives.check()
    finish(lives, script)


def finish(lives, script):
    """A resume of a script to its end, and a check."""
    _, report = lives.live(script, MANY, ("none",))
    rests = [program[position:] for program, position in zip(script.programs, lives.state.positions)]
    wanted = [("take",)] * 2 if script == STALLS else []
    want(report.end == ("stalled" if wanted else "finished"), "a resume with turns enough does not come to its end")
    want(sum(rests, []) == wanted, "other commands than have to wait are left at the end")
    lives.check()


def try_list(lives, script, seed):
    """Lives of a script cut at random turns, in turns of each kind and by each choice, and then one to the end."""
    draw = random.Random(seed)
    for _ in range(draw.randrange(1, 7)):
        count = draw.randrange(160)
        modes = ("rr", count), ("seed", draw.randrange(2**64), count), ("list", [draw.randrange(script.threads) for _ in range(count)])
        lives.live(script, draw.choice(modes), draw.choice((("none",), ("all",), ("seed", draw.randrange(2**64)))))
    lives.check()
    finish(lives, script)


def needed(program, script):
    """The least number of turns at which a start of a script comes to its end."""
    least, most = 0, 1000
    with tempfile.TemporaryDirectory() as folder:
        while least < most:
            middle = (least + most) // 2
            done = run(program, folder, ["start"], script_text(script._replace(mode=("rr", middle))))
            least, most = (least, middle) if done.status in (0, 3) else (middle + 1, most)
    return least


def put_images():
    """The images that cuts of the put leave, each once."""
    images = {}
    for cut, keep in itertools.product(range(50), KEEPS):
        words = left(formats.formatted(1, 1, 16), PUT_TURNS[:cut], keep)
        images.setdefault(formats.image_bytes(1, 1, 16, words), f"cut {cut}, keep {keep}")
    return images


def tasks(program):
    """All that is tried: what it is called, and the call."""
    for cut, keep in itertools.product(range(50), KEEPS):
        yield f"the put, cut at {cut}", try_put, cut, keep
    for data in put_images():
        count = Image(data).recovery()[0]
        for turns in range(count):
            keep = KEEPS[turns % 3]
            yield f"a recovery, cut at {turns}", try_recovery, data, (turns, keep), [(turns * 5 + 2, KEEPS[(turns + 1) % 3])]
    whole = formats.image_bytes(1, 1, 16, left(formats.formatted(1, 1, 16), PUT_TURNS[:44], ("all",)))
    for turns, keep in itertools.product(range(Image(whole).recovery()[0]), KEEPS[1:]):
        yield f"a recovery of four cells, cut at {turns}", try_recovery, whole, (turns, keep), [(again, ("all",)) for again in range(21)]
    for name, script in (("two threads", TWO), ("takes", TAKES), ("takes that stall", STALLS)):
        count = needed(program, script)
        want(count < 1000, f"{name}: no number of turns is enough")
        for cut in range(0, count + 1, 1 + count // 200):
            for keep in KEEPS:
                yield f"{name}, cut at {cut}", try_script, script, cut, keep
        for seed in range(150):
            yield f"{name}, list {seed} of lives", try_list, script, seed


def attempt(program, task):
    """Tries one thing, and gives what is wrong, or nothing."""
    name, call, *arguments = task
    with tempfile.TemporaryDirectory() as folder:
        lives = Lives(program, folder)
        try:
            call(lives, *arguments)
        except (Wrong, Fault, OSError, ValueError) as wrong:
            what = [f"{name}: {wrong}"]
            if lives.began:
                kind, script, before = lives.began
                what += [f"the last life was a {kind}", script_text(script).decode() + (f"from the image {before.hex()}" if before else "")]
            return "\n".join(what)
    return None


def main(program):
    """Tries all, and ends with what is wrong first, or with a line that tells how much was tried."""
    begin, count = time.monotonic(), 0
    with concurrent.futures.ProcessPoolExecutor(os.cpu_count()) as pool:
        for what in pool.map(functools.partial(attempt, program), tasks(program), chunksize=10):
            if what:
                pool.shutdown(wait=False, cancel_futures=True)
                sys.exit(f"cuts: {what}")
            count += 1
    print(f"cuts: {count} lists of lives, cut at turn after turn, went as they have to in {time.monotonic() - begin:.0f} s, by {program}")


if __name__ == "__main__":
    main(pathlib.Path(sys.argv[1] if len(sys.argv) > 1 else formats.PROGRAM).resolve())
