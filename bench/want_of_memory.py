#!/usr/bin/env python3
"""Refuses each request for memory of a few runs of the built program in turn, one number a run, and prints what came of it.

    python3 bench/want_of_memory.py [PROGRAM]
    python3 bench/want_of_memory.py --interpreted N..      the N-th request of the start, by `rt try --fail-alloc N`: minutes for each

The runs are a start of 32 commands on four threads that its turns cut, a start of it over an image, a resume of it to the end, a check, and
a start that stalls. A refused request ends the run with 11 and `out of memory`, or, where it was not needed, as a run with memory enough. No run
may be killed, or end otherwise. None may lose an acknowledged epoch: the image is then as before, or it is lawful and has the epoch of each
mark that was told, and a life that is told to have starved is judged as by checks/cuts.py.

It is no part of the gate, and takes some seconds for a thousand requests. The built program's requests are refused by a small library that
stands before the C library's, so it needs `cc`. Ends with status 1 where a run is otherwise than it may be.
"""
import collections
import concurrent.futures
import os
import pathlib
import subprocess
import sys
import tempfile

sys.dont_write_bytecode = True
ROOT = pathlib.Path(__file__).resolve().parent.parent
sys.path.insert(0, str(ROOT / "checks"))
import cuts  # noqa: E402
import formats  # noqa: E402
from formats import Image, Recovered, Script, read_report, script_text  # noqa: E402

LIBRARY = r"""
#include <fcntl.h>
#include <stdlib.h>
#include <sys/mman.h>
#include <unistd.h>

extern void *__libc_malloc(size_t), *__libc_calloc(size_t, size_t), *__libc_realloc(void *, size_t), *__libc_memalign(size_t, size_t);
static unsigned long *count, refused;

__attribute__((constructor)) static void begin(void) {
    int file = open(getenv("REQUESTS"), O_RDWR);
    refused = strtoul(getenv("REFUSED"), NULL, 10);
    count = mmap(NULL, sizeof *count, PROT_READ | PROT_WRITE, MAP_SHARED, file, 0);
    close(file);
}

static int is_refused(void) {
    return count && count != MAP_FAILED && __sync_add_and_fetch(count, 1) == refused;
}

void *malloc(size_t size) { return is_refused() ? NULL : __libc_malloc(size); }
void *calloc(size_t items, size_t size) { return is_refused() ? NULL : __libc_calloc(items, size); }
void *realloc(void *old, size_t size) { return is_refused() ? NULL : __libc_realloc(old, size); }
void *aligned_alloc(size_t to, size_t size) { return is_refused() ? NULL : __libc_memalign(to, size); }
int posix_memalign(void **made, size_t to, size_t size) { return is_refused() ? 12 : !(*made = __libc_memalign(to, size)) * 12; }
"""
NAME = "starved.image"


def lanes():
    """The commands of four threads."""
    for thread in range(4):
        low, high = 2 * thread + 1, 2 * thread + 2
        last = ("enq", 100 * thread + 101) if thread in (0, 2) else ("deq",)
        yield [
            ("put", low, 10 * low), ("put", high, 10 * high), ("get", low), ("del", high),
            ("enq", 100 * thread + 100), ("put", low, 10 * low + 1), last, ("get", high),
        ]


LANES = Script(4, 3, 64, 3, ("rr", 400), ("seed", 7), list(lanes()))
FIRST = Recovered(1, [0] * 4, {}, [])


class Starver:
    """Runs of the program, of which one request for memory is refused."""

    def __init__(self, program, place):
        self.program, self.place = program, place
        self.library = f"{place}/refuse.so"
        subprocess.run(["cc", "-O2", "-shared", "-fPIC", "-x", "c", "-o", self.library, "-"], input=LIBRARY.encode(), check=True)

    def run(self, word, script, before, number):
        """A run over this script with this image under the name, whose request of this number is refused; and how many there were."""
        folder = tempfile.mkdtemp(dir=self.place)
        path, requests = pathlib.Path(folder, NAME), pathlib.Path(folder, "requests")
        requests.write_bytes(bytes(8))
        if before is not None:
            path.write_bytes(before)
        done = subprocess.run(
            [self.program, word, "--image", NAME], input=script, capture_output=True, cwd=folder, timeout=60, check=False,
            env={"LD_PRELOAD": self.library, "REQUESTS": str(requests), "REFUSED": str(number)},
        )
        after = path.read_bytes() if path.exists() else None
        return done.returncode, done.stdout, done.stderr, after, int.from_bytes(requests.read_bytes(), sys.byteorder)


def judge(script, state, before, right, found):
    """What a run with a refused request is: a word for the table. What it may not be is raised."""
    if found[:4] == right[:4]:
        return "as with memory enough"
    code, written, said, after, _ = found
    cuts.want((code, said) == (11, b"out of memory\n"), f"it ends with {code} and says {said!r}")
    if after == before:
        cuts.want(not written, f"nothing is saved, and it writes {written!r}")
        return "11, the image as before"
    cuts.want(after is not None, "the image is gone")
    image = Image(after)
    epoch = image.recovered().epoch
    cuts.want(epoch >= state.epoch, "an epoch that was acknowledged before is lost")
    if not written.endswith(b"end starved\n"):
        cuts.want(after == right[3] and right[1].startswith(written), f"it saves another image, or writes {written!r}")
        return "11, an image, and a first part of the report"
    report = read_report(written)
    cuts.judge(script, report.life, state, before and Image(before), report, image)
    return "11, an image, and 'end starved'"


def table(program):
    """Prints the table, and says whether all is as it may be."""
    is_right = True
    with tempfile.TemporaryDirectory() as place, concurrent.futures.ThreadPoolExecutor(os.cpu_count()) as pool:
        starver = Starver(program, place)
        text = script_text(LANES)
        first = starver.run("start", text, None, 0)
        rest = LANES._replace(mode=("rr", 100000), keep=("none",))
        last = starver.run("resume", script_text(rest), first[3], 0)
        takes = cuts.TAKES._replace(programs=[[("take",), ("take",)], [("enq", 9)]], mode=("rr", 1000), keep=("all",))
        runs = (
            ("start", LANES, None, FIRST), ("start", LANES, last[3], FIRST), ("resume", rest, first[3], Image(first[3]).recovered()),
            ("check", LANES, first[3], Image(first[3]).recovered()), ("start", takes, None, Recovered(1, [0, 0], {}, [])),
        )
        for word, script, before, state in runs:
            text = script_text(script)
            right = starver.run(word, text, before, 0)
            loaded = before if word == "resume" else None
            numbers = range(1, right[4] + 1)
            counts = collections.Counter()
            for number, found in zip(numbers, pool.map(lambda number: starver.run(word, text, before, number), numbers)):
                try:
                    if found[3] == before or loaded is not None:
                        counts[judge(script, state, before, right, found)] += 1
                    else:
                        counts[judge(script, state, None, right, found)] += 1
                except (cuts.Wrong, formats.Fault) as wrong:
                    is_right = False
                    counts["otherwise"] += 1
                    print(f"want_of_memory: {word}, request {number}: {wrong}; the run gave {found[:3]}", file=sys.stderr)
            over = "" if before is None or word != "start" else " over an image"
            print(f"{word}{over}, which ends with {right[0]}: {right[4]} requests")
            for what, count in counts.most_common():
                print(f"    {what}: {count}")
    return is_right


def interpreted(numbers):
    """Prints with which status the start ends where a request is refused by the toolchain."""
    for number in numbers:
        words = ["rt", "try", "--fail-alloc", number, "--", "start"]
        done = subprocess.run(words, input=script_text(LANES), capture_output=True, cwd=ROOT / "crates/respct", check=False)
        said = "out of memory" if b"out of memory\n" in done.stderr else "nothing of memory"
        print(f"the start, request {number} refused by the interpreter: it ends with {done.returncode}, and says {said}", flush=True)


if __name__ == "__main__":
    if sys.argv[1:2] == ["--interpreted"]:
        interpreted(sys.argv[2:])
    elif not table(pathlib.Path(sys.argv[1] if len(sys.argv) > 1 else formats.PROGRAM).resolve()):
        sys.exit(1)
