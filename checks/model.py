"""A life by docs/formats.md, turn by turn, in code that knows nothing of the program.

`life` gives the report and the image of a script, to the last byte. It is for checks/lives.py, and does nothing by itself.
"""
import itertools

import formats
from formats import Image, Plain


class Memory:
    """Lines with their pending stores, and how many of these were asked for."""

    def __init__(self, words):
        self.words = list(words)
        self.pending, self.asked, self.write_backs = {}, {}, 0

    def load(self, line, word):
        """The last store to a word, or what the line has."""
        for to, value in reversed(self.pending.get(line, ())):
            if to == word:
                return value
        return self.words[8 * line + word]

    def store(self, line, word, value):
        """A store stays pending."""
        self.pending.setdefault(line, []).append((word, value))

    def write_back(self, line):
        """All that is pending on a line is asked for."""
        self.asked[line] = len(self.pending.get(line, ()))
        self.write_backs += 1

    def fence(self, lines):
        """What was asked for of these lines goes into them."""
        for line in [line for line in self.asked if line in lines]:
            stores = self.pending.get(line, [])
            for word, value in stores[:self.asked[line]]:
                self.words[8 * line + word] = value
            self.pending[line] = stores[self.asked.pop(line):]

    def cut(self, keep):
        """The words that a cut leaves."""
        words = list(self.words)
        drawn = list(itertools.islice(formats.split_mix(keep[1]), len(words) // 8)) if keep[0] == "seed" else []
        for line, stores in self.pending.items():
            count = {"none": 0, "all": len(stores)}.get(keep[0])
            if count is None:
                count = drawn[line] % (len(stores) + 1) if drawn else keep[1].get(line, 0)
            for word, value in stores[:count]:
                words[8 * line + word] = value
        return words


class Thread:
    """Where a thread stands in the table of a turn."""

    def __init__(self, number, program, position):
        self.number, self.program, self.position = number, program, position
        self.phase, self.quota, self.ran = "standing", 0, 0
        self.has_written = self.met_empty = False
        self.room = self.reply = self.one = None
        self.stores, self.closing = [], None
        self.end = self.told = "ended" if position == len(program) else "ready"


class Life:
    """A life of a script over formatted memory, or from an image."""

    def __init__(self, script, image=None):
        self.script = script
        self.rooms = formats.rooms(script.threads, script.shards, script.lines)
        self.memory = Memory(image.words if image else formats.formatted(script.threads, script.shards, script.lines))
        self.began = image.epoch if image else 1
        self.entries, self.marks, self.is_over, self.end = [], [], False, "cut"
        self.listed = [[] for _ in self.rooms]
        self.locks = [None] * len(self.rooms)
        self.threads, self.epoch, self.is_fed, self.is_closing = [], None, False, False
        self.recovering = self.recovery(image) if image else None
        self.state = image.recovered() if image else None
        if not image:
            self.open(1)

    def line(self, room, line):
        """The number of a line of a room through all rooms."""
        return self.rooms[room][0] + line

    def recovery(self, image):
        """The events of a recovery, one after the other."""
        for lines in image.torn():
            for line in lines:
                for word in range(3):
                    yield self.memory.store(line, word, image.words[8 * line + 3 + word])
            for line in lines:
                yield self.memory.write_back(line)
            yield self.memory.fence(lines)
        top = self.rooms[-1][0]
        yield self.memory.store(top, 0, image.epoch + 1)
        yield self.memory.write_back(top)
        self.memory.fence([top])
        self.marks.append((image.epoch + 1, 0))
        self.open(image.epoch + 1)
        yield None

    def open(self, epoch):
        """The workers' first state."""
        self.epoch = epoch
        self.plain = Plain(self.script, self.state)
        self.threads = [Thread(number, program, self.plain.positions[number]) for number, program in enumerate(self.script.programs)]
        self.is_fed = bool(self.plain.items)
        self.is_over = all(thread.end == "ended" for thread in self.threads)
        if self.is_over:
            self.end = "finished"

    # The stores of commands

    def write(self, plan, room, line, *pairs):
        """Plans writes of record words of a cell."""
        line = self.line(room, line)
        for word, value in pairs:
            if self.memory.load(line, 6) != self.epoch and not any(store[0] == line for store in plan):
                plan += [(line, 3 + at, self.memory.load(line, at)) for at in range(3)] + [(line, 6, self.epoch)]
            plan.append((line, word, value))

    def begin(self, room, one):
        """The reply to a command and its stores, or nothing where a take has to wait."""
        name, *operands = one
        plan = []

        def read(line):
            return [self.memory.load(self.line(room, line), word) for word in range(3)]

        free, fresh, count = read(0)

        def take():
            if free:
                self.write(plan, room, 0, (0, read(free)[0]))
                return free
            self.write(plan, room, 0, (1, fresh + 1))
            return fresh

        def give(line):
            self.write(plan, room, line, (0, free))
            self.write(plan, room, 0, (0, line))

        is_full = not free and fresh == self.script.lines
        if room < self.script.shards:
            key = operands[0]
            before, word = 1 + key // self.script.shards % 8, 0
            head = node = read(before)[0]
            while node and read(node)[0] != key:
                before, word, node = node, 2, read(node)[2]
            value = read(node)[1] if node else None
            if name == "get":
                return (f"is {value}" if node else "none"), plan
            if name == "del":
                if not node:
                    return "none", plan
                self.write(plan, room, before, (word, read(node)[2]))
                give(node)
                self.write(plan, room, 0, (2, count - 1))
                return f"was {value}", plan
            if node:
                self.write(plan, room, node, (1, operands[1]))
                return f"old {value}", plan
            if is_full:
                return "full", plan
            new = take()
            self.write(plan, room, new, (0, key), (1, operands[1]), (2, head))
            self.write(plan, room, 1 + key // self.script.shards % 8, (0, new))
            self.write(plan, room, 0, (2, count + 1))
            return "new", plan
        first, last, _ = read(1)
        if name == "enq":
            if is_full:
                return "full", plan
            new = take()
            self.write(plan, room, new, (0, operands[0]), (1, 0))
            if first:
                self.write(plan, room, last, (1, new))
            else:
                self.write(plan, room, 1, (0, new))
            self.write(plan, room, 1, (1, new))
            self.write(plan, room, 0, (2, count + 1))
            return "done", plan
        if not first:
            return ("empty" if name == "deq" else None), plan
        value, behind, _ = read(first)
        self.write(plan, room, 1, (0, behind))
        if not behind:
            self.write(plan, room, 1, (1, 0))
        give(first)
        self.write(plan, room, 0, (2, count - 1))
        return f"is {value}", plan

    # Turns

    def turn(self, number):
        """A turn of a thread: the first row of the table that applies."""
        if self.recovering is not None:
            next(self.recovering)
            if self.epoch is not None:
                self.recovering = None
            return
        me = self.threads[number]
        own = self.script.shards + 1 + number
        if me.phase == "closing":
            next(me.closing)
        elif me.phase == "standing":
            self.stand_turn(me)
        elif me.room is not None and me.stores:
            self.store(me.room, *me.stores.pop(0))
        elif me.reply is not None:
            self.entries.append((number, me.position, me.one, me.reply))
            me.reply, me.one = None, "drawn"
        elif me.room is not None:
            self.locks[me.room] = None
            if me.room == own:
                me.has_written, me.end = True, me.told
            elif me.one == "drawn":
                me.position += 1
                me.quota -= 1
            me.room = me.one = None
        elif me.quota and me.position < len(me.program) and not me.met_empty:
            one = me.program[me.position]
            room = one[1] % self.script.shards if one[0] in ("put", "get", "del") else self.script.shards
            if self.locks[room] is None:
                self.locks[room] = me.room = room
                self.locks[room] = number
                me.one = one
                me.reply, me.stores = self.begin(room, one)
                me.met_empty = me.reply is None
        elif not me.has_written:
            self.locks[own], me.room = number, own
            self.write(me.stores, own, 0, (0, me.position))
            me.told = "ended" if me.position == len(me.program) else "waits" if me.met_empty else "ready"
        else:
            me.phase = "standing"

    def store(self, room, line, word, value):
        """A store to a line of a room, which lists it."""
        self.memory.store(line, word, value)
        if line not in self.listed[room]:
            self.listed[room].append(line)

    def stand_turn(self, me):
        """A turn of a thread that stands: it leaves, or closes the epoch, or rests."""
        if self.is_closing:
            return
        if me.ran < self.epoch and (me.end == "ready" or me.end == "waits" and self.is_fed):
            me.phase, me.quota, me.ran = "running", self.script.every, self.epoch
            me.has_written = me.met_empty = False
        elif me.ran == self.epoch and all(thread.phase == "standing" for thread in self.threads):
            me.phase, me.closing, self.is_closing = "closing", self.close(me), True

    def close(self, me):
        """The events of a closing, one after the other."""
        for room, (first, count) in enumerate(self.rooms[:-1]):
            self.locks[room] = me.number
            yield
            for line in self.listed[room]:
                self.memory.write_back(line)
                yield
            if self.listed[room]:
                self.memory.fence(range(first, first + count))
                self.listed[room] = []
                yield
            self.locks[room] = None
            if room == self.script.shards:
                fed = self.memory.load(self.line(room, 1), 0) != 0
            yield
        room, top = len(self.rooms) - 1, self.rooms[-1][0]
        self.locks[room] = me.number
        yield
        self.memory.store(top, 0, self.epoch + 1)
        yield
        self.memory.write_back(top)
        yield
        self.memory.fence([top])
        yield
        self.locks[room] = None
        yield
        self.epoch += 1
        self.marks.append((self.epoch, len(self.entries)))
        me.phase, self.is_closing, self.is_fed = "standing", False, fed
        ends = [thread.end for thread in self.threads]
        self.is_over = "ready" not in ends and not (fed and "waits" in ends)
        if self.is_over:
            self.end = "finished" if set(ends) == {"ended"} else "stalled"
        yield

    def lead(self):
        """Makes the turns of the schedule until the life is over."""
        mode, count = self.script.mode, self.script.threads
        if mode[0] == "rr":
            order = (turn % count for turn in range(mode[1]))
        elif mode[0] == "seed":
            order = (word % count for word in itertools.islice(formats.split_mix(mode[1]), mode[2]))
        else:
            order = iter(mode[1])
        while not self.is_over:
            number = next(order, None)
            if number is None:
                break
            self.turn(number)

    def report(self):
        """The text of its report."""
        texts = ["respct-report 1", f"life {'resume' if self.state else 'start'}", f"began {self.began}"]
        marks = list(self.marks)
        for at in range(len(self.entries) + 1):
            while marks and marks[0][1] == at:
                texts.append(f"saved {marks.pop(0)[0]}")
            if at < len(self.entries):
                thread, place, one, reply = self.entries[at]
                texts.append(f"entry {thread} {place} {' '.join(map(str, one))} = {reply}")
        held = [room for room, lock in enumerate(self.locks) if lock is not None]
        texts += [*(f"held {room}" for room in held), f"flushed {self.memory.write_backs}", f"end {self.end}"]
        return "".join(f"{line}\n" for line in texts).encode()


def life(script, data=None):
    """The report of a life of a script, which is a resume from these bytes where there are some, and the image that it leaves."""
    one = Life(script, Image(data) if data else None)
    one.lead()
    words = one.memory.cut(script.keep)
    return one.report(), formats.image_bytes(script.threads, script.shards, script.lines, words)
