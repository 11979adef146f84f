"""The texts and images of docs/formats.md, read by code that knows nothing of the program; the object of one thread; and runs of the program.

It is the ground of checks/cuts.py, checks/damaged.py and checks/refusals.py, and does nothing by itself.
"""
import collections
import contextlib
import os
import pathlib
import re
import struct
import subprocess

ROOT = pathlib.Path(__file__).resolve().parent.parent
PROGRAM = ROOT / "crates/respct/out/respct"
MOST = 2**64 - 1
NUMBER = re.compile(rb"0|[1-9][0-9]*")
KINDS = ("not built", "head", "setting", "number", "range", "turns", "keep", "thread", "command", "too many", "no end", "after")
HEAD, SETTING, NUMERAL, RANGE, TURNS, KEEP, THREAD, COMMAND, TOO_MANY, NO_END, AFTER = range(1, 12)
SETTINGS = ((b"threads", 1, 16), (b"shards", 1, 8), (b"lines", 16, 65536), (b"every", 1, 1024))
COMMANDS = {b"put": 3, b"get": 2, b"del": 2, b"enq": 2, b"deq": 1, b"take": 1}


class Fault(Exception):
    """What is wrong with a text or an image; its arguments say what and where."""


Script = collections.namedtuple("Script", "threads shards lines every mode keep programs")
Report = collections.namedtuple("Report", "life began entries marks held flushed end")
Recovered = collections.namedtuple("Recovered", "epoch positions pairs items")


def rooms(threads, shards, lines):
    """The first line of each room and how many it has, in the order of rooms."""
    first, spans = 0, []
    for count in [lines] * (shards + 1) + [1] * (threads + 1):
        spans.append((first, count))
        first += count
    return spans


# Scripts


def number(line, word, least=0, most=MOST):
    """The number that a word of a line stands for, within its limits."""
    if len(word) > 20 or not NUMBER.fullmatch(word) or int(word) > MOST:
        raise Fault(line, NUMERAL)
    if not least <= int(word) <= most:
        raise Fault(line, RANGE)
    return int(word)


def turns(line, words, threads):
    """The mode that line 6 names."""
    if words[:2] == [b"turns", b"rr"] and len(words) == 3:
        return "rr", number(line, words[2], most=10000000)
    if words[:2] == [b"turns", b"seed"] and len(words) == 4:
        return "seed", number(line, words[2]), number(line, words[3], most=10000000)
    if words[:2] == [b"turns", b"list"]:
        named = []
        for place, word in enumerate(words[2:]):
            named.append(number(line, word, most=threads - 1))
            if place >= 10000000:
                raise Fault(line, RANGE)
        return "list", named
    if words[0] == b"live" and len(words) == 2:
        return "live", number(line, words[1], most=10000000)
    raise Fault(line, TURNS)


def keep(line, words, total):
    """What the cut keeps by line 7, where memory has so many lines."""
    if words in ([b"keep", b"none"], [b"keep", b"all"]):
        return (words[1].decode(),)
    if words[:2] == [b"keep", b"seed"] and len(words) == 3:
        return "seed", number(line, words[2])
    if words[:2] != [b"keep", b"list"]:
        raise Fault(line, KEEP)
    counts, before = {}, -1
    for word in words[2:]:
        pieces = word.split(b":")
        if len(pieces) != 2:
            raise Fault(line, KEEP)
        kept, count = (number(line, piece) for piece in pieces)
        if not before < kept < total or count > 2**32 - 1:
            raise Fault(line, RANGE)
        counts[kept] = count
        before = kept
    return "list", counts


def command(line, words):
    """The command that a line of a section is."""
    if COMMANDS.get(words[0]) != len(words):
        raise Fault(line, COMMAND)
    return (words[0].decode(), *(number(line, word) for word in words[1:]))


def read_script(text):
    """The script that a text is, or its first fault by line and kind."""
    lines = text.split(b"\n")
    whole = len(lines) - 1

    def at(line):
        if line > whole:
            raise Fault(line, NO_END)
        return lines[line - 1]

    if at(1) != b"respct 1":
        raise Fault(1, HEAD)
    found = []
    for line, (name, least, most) in enumerate(SETTINGS, 2):
        words = at(line).split(b" ")
        if len(words) != 2 or words[0] != name:
            raise Fault(line, SETTING)
        found.append(number(line, words[1], least, most))
    threads, shards, room, _ = found
    mode = turns(6, at(6).split(b" "), threads)
    kept = keep(7, at(7).split(b" "), (shards + 1) * room + threads + 1)
    line, programs = 8, []
    for thread in range(threads):
        if at(line) != b"thread %d" % thread:
            raise Fault(line, THREAD)
        line += 1
        program = []
        while at(line) != b"end" and at(line).split(b" ")[0] != b"thread":
            right = command(line, at(line).split(b" "))
            if len(program) == 4096:
                raise Fault(line, TOO_MANY)
            program.append(right)
            line += 1
        programs.append(program)
    if at(line) != b"end":
        raise Fault(line, THREAD)
    if line < whole or lines[line]:
        raise Fault(line + 1, AFTER)
    return Script(*found, mode, kept, programs)


def script_text(script):
    """The text of a script."""
    mode = script.mode
    if mode[0] == "list":
        mode = ("list", *mode[1])
    kept = script.keep
    if kept[0] == "list":
        kept = ("list", *(f"{line}:{count}" for line, count in kept[1].items()))
    texts = ["respct 1", f"threads {script.threads}", f"shards {script.shards}", f"lines {script.lines}", f"every {script.every}"]
    texts.append(" ".join(map(str, mode if mode[0] == "live" else ("turns", *mode))))
    texts.append(" ".join(map(str, ("keep", *kept))))
    for thread, program in enumerate(script.programs):
        texts += [f"thread {thread}", *(" ".join(map(str, one)) for one in program)]
    return "\n".join([*texts, "end", ""]).encode()


# Reports and states


class Lines:
    """The lines of a text, taken from the front."""

    def __init__(self, text):
        self.lines = text.decode("ascii").split("\n")
        self.at = 0
        if self.lines.pop():
            raise Fault("the last line does not end")

    def take(self, pattern):
        """The groups of the next line where all of it is as the pattern says, else nothing, and the line is left."""
        found = re.fullmatch(pattern, self.lines[self.at]) if self.at < len(self.lines) else None
        if found is not None:
            self.at += 1
        return found

    def want(self, pattern):
        """The same, where the next line is to be so."""
        found = self.take(pattern)
        if found is None:
            raise Fault(f"line {self.at + 1} is not {pattern}")
        return found


N = "(0|[1-9][0-9]*)"
REPLIES = f"new|old {N}|full|is {N}|was {N}|none|done|empty"


def read_report(text):
    """The report that a text is. The entries are threads, places, commands and replies; a mark is its epoch and how many entries it covers."""
    lines = Lines(text)
    lines.want("respct-report 1")
    life = lines.want("life (start|resume)")[1]
    began = int(lines.want(f"began {N}")[1])
    entries, marks, held = [], [], []
    while True:
        if entry := lines.take(f"entry {N} {N} (.*) = ({REPLIES})"):
            name, *operands = entry[3].split(" ")
            entries.append((int(entry[1]), int(entry[2]), (name, *map(int, operands)), entry[4]))
        elif saved := lines.take(f"saved {N}"):
            marks.append((int(saved[1]), len(entries)))
        else:
            break
    while room := lines.take(f"held {N}"):
        held.append(int(room[1]))
    flushed = int(lines.want(f"flushed {N}")[1])
    end = lines.want("end (finished|stalled|cut|starved)")[1]
    if lines.at != len(lines.lines):
        raise Fault("text follows the end")
    return Report(life, began, entries, marks, held, flushed, end)


def state_text(state):
    """The text of what an image recovers to."""
    texts = ["respct-state 1", f"epoch {state.epoch}"]
    texts += [f"thread {thread} {position}" for thread, position in enumerate(state.positions)]
    texts += [f"map {key} {value}" for key, value in sorted(state.pairs.items())]
    texts += [f"item {value}" for value in state.items]
    return "\n".join([*texts, "end", ""]).encode()


# Images


class Image:
    """The bytes of an image, with all that its words say."""

    def __init__(self, data):
        if len(data) < 24:
            raise Fault("short")
        if data[:8] != b"RESPCTIM":
            raise Fault("magic")
        version, threads, shards, lines = struct.unpack_from("<4I", data, 8)
        if version != 1:
            raise Fault("version")
        if not (1 <= threads <= 16 and 1 <= shards <= 8 and 16 <= lines <= 65536):
            raise Fault("settings")
        self.threads, self.shards, self.lines = threads, shards, lines
        self.rooms = rooms(threads, shards, lines)
        total = sum(count for _, count in self.rooms)
        if len(data) != 24 + 64 * total:
            raise Fault("short" if len(data) < 24 + 64 * total else "long")
        self.words = struct.unpack_from(f"<{8 * total}Q", data, 24)
        self.epoch = self.words[8 * self.rooms[-1][0]]

    def cell(self, line):
        """The triple to which a cell recovers."""
        at = 8 * line
        return self.words[at + 3:at + 6] if self.words[at + 6] == self.epoch else self.words[at:at + 3]

    def loads(self, line):
        """The record of a cell."""
        return self.words[8 * line:8 * line + 3]

    def torn(self):
        """For each room but the super room the lines that are tagged with the epoch, where there is one."""
        tagged = ([line for line in range(first, first + count) if self.words[8 * line + 6] == self.epoch] for first, count in self.rooms[:-1])
        return [lines for lines in tagged if lines]

    def recovery(self):
        """How many events a recovery of it has, and how many of them are write-backs."""
        torn = self.torn()
        cells = sum(map(len, torn))
        return 4 * cells + len(torn) + 3, cells + 1

    def recovered(self):
        """The state that it recovers to, or its first fault."""
        if not 1 <= self.epoch <= 2**32 - 1:
            raise Fault("epoch")
        for room, (first, count) in enumerate(self.rooms[:-1]):
            for line in range(first, first + count):
                if self.words[8 * line + 6] > self.epoch:
                    raise Fault(f"tag ahead, room {room}, line {line - first}")
        return self.state(self.cell)

    def state(self, cell):
        """The state for which its rooms stand, read cell by cell, or the first fault of a room."""
        pairs, items = {}, []
        for room in range(self.shards + 1):
            pairs.update(self.room(room, cell, items))
        positions = [cell(self.rooms[room][0])[0] for room in range(self.shards + 1, self.shards + 1 + self.threads)]
        return Recovered(self.epoch, positions, pairs, items)

    def room(self, room, cell, items=None):
        """The pairs of a map room, or nothing of the queue room, whose items are added to these."""
        def read(line):
            return cell(self.rooms[room][0] + line)

        is_map = room < self.shards
        low = 9 if is_map else 2
        free, fresh, count = read(0)
        if not (low <= fresh <= self.lines and (free == 0 or low <= free < fresh) and count <= fresh - low):
            raise Fault(f"header, room {room}")
        met, pairs, at = set(), {}, 0

        def chain(line, link, fault):
            while line:
                if not low <= line < fresh or line in met:
                    raise Fault(f"{fault}, room {room}")
                met.add(line)
                yield line
                line = read(line)[link]

        if is_map:
            for bucket in range(8):
                for line in chain(read(1 + bucket)[0], 2, "chain"):
                    key, value, _ = read(line)
                    if key % self.shards != room or key // self.shards % 8 != bucket or key in pairs:
                        raise Fault(f"chain, room {room}")
                    pairs[key] = value
        else:
            first, last, _ = read(1)
            for at in chain(first, 1, "chain"):
                items.append(read(at)[0])
            if last != at:
                raise Fault(f"ends, room {room}")
        live = len(met)
        for _ in chain(free, 0, "free list"):
            pass
        if count != live or len(met) != fresh - low:
            raise Fault(f"count, room {room}")
        return pairs


def image_bytes(threads, shards, lines, words):
    """The bytes of an image."""
    return struct.pack("<8s4I", b"RESPCTIM", 1, threads, shards, lines) + struct.pack(f"<{len(words)}Q", *words)


def formatted(threads, shards, lines):
    """The words of formatted memory."""
    spans = rooms(threads, shards, lines)
    words = [0] * (8 * sum(count for _, count in spans))
    for room in range(shards + 1):
        words[8 * spans[room][0] + 1] = 9 if room < shards else 2
    words[8 * spans[-1][0]] = 1
    return words


def split_mix(seed):
    """The words that SplitMix64 draws from a seed."""
    while True:
        seed = (seed + 0x9E3779B97F4A7C15) & MOST
        word = (seed ^ seed >> 30) * 0xBF58476D1CE4E5B9 & MOST
        word = (word ^ word >> 27) * 0x94D049BB133111EB & MOST
        yield word ^ word >> 31


# The object of one thread


class Plain:
    """The map and the queue as one thread alone has them, and each thread's place."""

    def __init__(self, script, state=None):
        self.shards, self.places = script.shards, script.lines - 9
        self.room = script.lines - 2
        self.pairs = dict(state.pairs) if state else {}
        self.items = list(state.items) if state else []
        self.positions = list(state.positions) if state else [0] * script.threads

    def apply(self, one):
        """The reply to a command, or nothing where a take has to wait."""
        name, *operands = one
        if name == "put":
            key, value = operands
            if key in self.pairs:
                reply = f"old {self.pairs[key]}"
            elif sum(other % self.shards == key % self.shards for other in self.pairs) >= self.places:
                return "full"
            else:
                reply = "new"
            self.pairs[key] = value
            return reply
        if name == "get":
            return f"is {self.pairs[operands[0]]}" if operands[0] in self.pairs else "none"
        if name == "del":
            return f"was {self.pairs.pop(operands[0])}" if operands[0] in self.pairs else "none"
        if name == "enq":
            if len(self.items) >= self.room:
                return "full"
            self.items.append(operands[0])
            return "done"
        if not self.items:
            return "empty" if name == "deq" else None
        return f"is {self.items.pop(0)}"

    def now(self, epoch):
        """What an image of this epoch recovers to where this is saved."""
        return Recovered(epoch, list(self.positions), dict(self.pairs), list(self.items))


# Runs of the program


Run = collections.namedtuple("Run", "status written said")


def run(program, folder, words, script=b""):
    """What a run of the program with these words over this script, in this folder, ends with and writes."""
    with contextlib.ExitStack() as files:
        source, written, said = (files.enter_context(open(os.memfd_create("run"), "w+b", buffering=0)) for _ in range(3))
        source.write(script)
        source.seek(0)
        status = subprocess.Popen([program, *words], stdin=source, stdout=written, stderr=said, cwd=folder).wait(60)
        written.seek(0)
        said.seek(0)
        return Run(status, written.read(), said.read())
