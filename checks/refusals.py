#!/usr/bin/env python3
"""Tries each row of README.md's table 'What a refusal leaves' on the built program.

    python3 checks/refusals.py [PROGRAM]

Of each run the code, standard output, and standard error by docs/formats.md are compared, and the bytes of the image under the name before
and behind it. Failures come from outside: words, texts and images that are wrong; a standard input that is closed, a folder, or breaks off
in the middle; a name with nothing under it, a folder, a file that may not be opened, a folder that is not there; a standard output that is
full, closed, or full in the middle; a disk that is full in the middle of an image; less memory than the run takes.

Ends with status 1 where a run does something else than its row says, or where a row has no case here.
"""
import collections
import os
import pathlib
import pty
import re
import resource
import shutil
import signal
import subprocess
import sys
import tempfile
import time
import tty

sys.dont_write_bytecode = True
import cuts  # noqa: E402
import formats  # noqa: E402
from formats import Image, Recovered, script_text, state_text  # noqa: E402

NAME = "left.image"
PUT = script_text(cuts.PUT)
TAKE = script_text(cuts.PUT._replace(programs=[[("take",)]]))
GET = script_text(cuts.PUT._replace(programs=[[("put", 5, 7), ("get", 5)]]))
ROOMY = script_text(cuts.PUT._replace(shards=8, lines=65536))
KEPT = formats.image_bytes(1, 1, 16, cuts.left(formats.formatted(1, 1, 16), cuts.PUT_TURNS, ("none",)))
CUT = formats.image_bytes(1, 1, 16, cuts.left(formats.formatted(1, 1, 16), cuts.PUT_TURNS[:44], ("all",)))
STATE = state_text(Recovered(2, [1], {5: 7}, []))
IDLE = cuts.resumed_report(Image(KEPT), 1)
DONE = cuts.put_report(49)
STALLED = b"respct-report 1\nlife start\nbegan 1\nsaved 2\nflushed 2\nend stalled\n"
USAGE = "usage: respct start, resume or check with --image NAME, or respct drill N"
TEXTS = {1: USAGE, 7: "cannot read the script", 8: "cannot write the report", 9: "cannot use the image store", 10: "no such image",
         11: "out of memory", 12: "script too long"}
NOBODY = 65534

Case = collections.namedtuple("Case", "row title words before after written said options", defaults=({},))
# What the image under the name is behind a run: these words are those of the table.
SAME, NEW, OPEN = "as before", "new", "open"


def case(word, code, title, written=b"", said=None, before=KEPT, after=SAME, name=NAME, words=None, **options):
    """A run with this word, which ends with this code."""
    said = TEXTS.get(code, "") if said is None else said
    return Case((word, code), title, words or [word, "--image", name], before, after, written, said, options)


def usages():
    """Words of no form, over a script that is right and an image that is there."""
    wrong = (
        [], [""], ["help"], ["--help"], ["Start"], ["start", "extra"], ["start", "--image"], ["start", "--image="], ["start", "--image", ""],
        ["start", "--image", "-x"], ["start", "--image=-x"], ["start", "--image", "a", "b"], ["--image", NAME, "start"], ["start", "-i", NAME],
        ["resume", "--image"], ["resume", NAME], ["check", "--image", NAME, NAME], ["check", "--images", NAME], ["start", "--", "x"],
        ["drill"], ["drill", "01"], ["drill", "+1"], ["drill", "18446744073709551616"], ["drill", "1", "2"], ["start", b"--image=\xff"],
    )
    for words in wrong:
        yield case("any other words", 1, f"the words {words}", words=words or None) if words else \
            Case(("any other words", 1), "no words", [], KEPT, SAME, b"", USAGE, {})


def sources():
    """Scripts that are wrong or cannot be read."""
    for word in ("start", "resume"):
        yield case(word, 2, "an empty source", said="script: line 1: no end", script=b"")
        yield case(word, 2, "a head with a fault, and no image", said="script: line 1: head", script=b"respct 2\n", before=None)
        yield case(word, 2, "a fault at the end", said="script: line 11: after", script=PUT + b"\n")
        yield case(word, 2, "as many bytes as a script may have", said="script: line 1: no end", script=bytes(8388608))
        yield case(word, 7, "standard input is closed", stdin="closed")
        yield case(word, 7, "standard input is a folder", stdin="folder")
        yield case(word, 7, "standard input breaks off", stdin="broken", script=PUT[:40])
        yield case(word, 7, "standard input breaks off behind a whole script, and no image", stdin="broken", script=PUT, before=None)
        yield case(word, 12, "one byte more than a script may have", script=bytes(8388609))
        yield case(word, 12, "a source without an end", stdin="endless")


def loads():
    """Images that are not there, cannot be loaded, are none, or do not fit."""
    for word in ("resume", "check"):
        yield case(word, 10, "nothing is under the name", before=None)
        yield case(word, 10, "the folder is not there", name=f"nowhere/{NAME}", before=None)
        yield case(word, 10, "a link to nothing", before=None, link="nothing")
        yield case(word, 9, "the name is a folder", before="folder")
        yield case(word, 9, "the file may not be read", mode=0o000)
        yield case(word, 9, "a part of the path is a file", name=f"{NAME}/x", looks=NAME)
        yield case(word, 9, "the name is longer than a name may be", name="x" * 300, before=None)
        yield case(word, 9, "a link to itself", before=None, link=NAME)
        yield case(word, 5, "an empty file", said="image: short", before=b"")
        yield case(word, 5, "another beginning", said="image: magic", before=b"x" + KEPT[1:])
        yield case(word, 5, "one byte too many", said="image: long", before=KEPT + b"x")
        yield case(word, 5, "more bytes than any image", said="image: long", before=KEPT, size=50000000)
        yield case(word, 5, "a tag ahead", said="image: tag ahead, room 0, line 9", before=KEPT[:648] + b"\3" + KEPT[649:])
    yield case("resume", 2, "a wrong script, and an image that is none", said="script: line 1: no end", script=b"", before=b"")
    yield case("resume", 7, "a closed source, and an image that is none", stdin="closed", before=b"")
    for one, said in (
        (cuts.PUT._replace(threads=2, programs=[[("put", 5, 7)], []]), "threads 1, 2"),
        (cuts.PUT._replace(shards=3), "shards 1, 3"),
        (cuts.PUT._replace(lines=32), "lines 16, 32"),
        (cuts.PUT._replace(programs=[[]]), "position of thread 0 1, 0"),
    ):
        yield case("resume", 6, said, said=f"misfit: {said}", script=script_text(one))
    late = KEPT[:2136] + (4278190080).to_bytes(8, "little") + KEPT[2144:]
    yield case("resume", 6, "the last epoch", said="misfit: epoch 4278190080, 4278190080", before=late)


def saves():
    """Images that cannot be saved, and texts that cannot be written."""
    for word, before in (("start", None), ("start", KEPT), ("resume", KEPT)):
        report = DONE if word == "start" else IDLE
        yield case(word, 9, "the disk is full in the middle of the image", before=before, after=OPEN, limit=1000)
        yield case(word, 8, "standard output is full", before=before, after=NEW, stdout="full")
        yield case(word, 8, "standard output is closed", before=before, after=NEW, stdout="closed")
        yield case(word, 8, "nobody reads standard output", before=before, after=NEW, stdout="unread")
        yield case(word, 8, "standard output is full in the middle", report[:30], before=before, after=NEW, stdout="file", limit=2300, filled=2270)
        yield case(word, 0, "all is well", report, before=before, after=NEW)
    yield case("resume", 9, "the file may be read and not written", after=SAME, mode=0o444)
    yield case("start", 9, "the file may not be written", after=SAME, mode=0o444)
    yield case("start", 9, "the name is a folder", before="folder", after=SAME)
    yield case("start", 9, "the folder is not there", name=f"nowhere/{NAME}", before=None, after=SAME)
    yield case("start", 9, "no file may be made in the folder", before=None, after=SAME, folder=0o555)
    yield case("start", 9, "a full device", name="/dev/full", looks=NAME)
    yield case("start", 3, "a take that waits", STALLED, script=TAKE, after=NEW)
    yield case("start", 4, "turns are spent", cuts.put_report(7), script=script_text(cuts.PUT._replace(mode=("rr", 7))), after=NEW)
    yield case("resume", 4, "turns are spent", cuts.recovering_report(Image(CUT), 2), before=CUT, after=NEW,
               script=script_text(cuts.PUT._replace(mode=("rr", 2))))
    stalled = cuts.text("respct-report 1", "life resume", "began 2", "saved 3", "saved 4", "flushed 3", "end stalled")
    waits = script_text(cuts.PUT._replace(programs=[[("put", 5, 7), ("take",)]]))
    yield case("resume", 3, "a take that waits", stalled, after=NEW, script=waits)
    yield case("check", 8, "standard output is full", stdout="full")
    yield case("check", 8, "standard output is closed", stdout="closed")
    yield case("check", 8, "nobody reads standard output", stdout="unread")
    yield case("check", 8, "standard output is full in the middle", STATE[:20], stdout="file", limit=2300, filled=2280)
    yield case("check", 0, "all is well", STATE)
    yield case("check", 0, "standard input is closed", STATE, stdin="closed")
    # A drill reads no script and uses no image.
    text = (formats.ROOT / "docs/formats.md").read_text(encoding="utf-8")
    summary = re.search(r"```\n(drill 1\n.*?)```", text, re.S)[1].encode()
    drill = {"words": ["drill", "1"], "script": b""}
    yield case("drill", 0, "all is well", summary, **drill)
    yield case("drill", 0, "no image and a closed source", summary, before=None, stdin="closed", words=["drill", "1"])
    yield case("drill", 8, "standard output is full", stdout="full", **drill)
    yield case("drill", 8, "standard output is closed", stdout="closed", **drill)
    yield case("drill", 8, "nobody reads standard output", stdout="unread", **drill)
    yield case("drill", 8, "standard output is full in the middle", summary[:20], stdout="file", limit=2300, filled=2280, **drill)
    yield case("check", 5, "standard error is closed", before=b"", stderr="closed")
    yield case("check", 5, "standard error is full", before=b"", stderr="full")


def wants_of_memory():
    """Runs with less memory than they take."""
    for before in (None, KEPT):
        yield case("start", 11, "little memory", before=before, after=SAME, memory=30 << 20, script=ROOMY)
        yield case("start", 11, "memory for the life, and not for its image", before=before, after=SAME, memory=90 << 20, script=ROOMY)
    yield case("resume", 11, "little memory", memory=30 << 20, size=39000000)
    yield case("check", 11, "little memory", memory=30 << 20, size=39000000)


def cases():
    """All that is tried."""
    yield from usages()
    yield from sources()
    yield from loads()
    yield from saves()
    yield from wants_of_memory()


# Running


def broken(script):
    """A standard input that gives these bytes and then an error: the far end of a terminal that is gone."""
    reads, writes = pty.openpty()
    tty.setraw(writes)
    os.write(writes, script)
    os.close(writes)
    return reads


def lead(program, folder, one):
    """Runs a case in a folder, and gives its code, what it wrote and said, and the path that is looked at."""
    options = one.options
    path = pathlib.Path(folder) / options.get("looks", NAME)
    if one.before == "folder":
        path.mkdir()
    elif one.before is not None:
        path.write_bytes(one.before)
        if "size" in options:
            os.truncate(path, options["size"])
    if "link" in options:
        path.symlink_to(options["link"])
    as_nobody = "mode" in options or "folder" in options
    if "mode" in options:
        path.chmod(options["mode"])
    pathlib.Path(folder).chmod(options.get("folder", 0o755))

    source = tempfile.TemporaryFile()
    source.write(options.get("script", PUT))
    source.seek(0)
    stdin = {
        "closed": lambda: source.fileno(),
        "folder": lambda: os.open("/", os.O_RDONLY),
        "broken": lambda: broken(options["script"]),
        "endless": lambda: os.open("/dev/zero", os.O_RDONLY),
    }.get(options.get("stdin"), lambda: source.fileno())()
    written = tempfile.TemporaryFile()
    written.write(bytes(options.get("filled", 0)))
    written.flush()
    stdout = written.fileno()
    if options.get("stdout") == "full":
        stdout = os.open("/dev/full", os.O_WRONLY)
    elif options.get("stdout") == "unread":
        reads, stdout = os.pipe()
        os.close(reads)
    said = tempfile.TemporaryFile()
    stderr = os.open("/dev/full", os.O_WRONLY) if options.get("stderr") == "full" else said.fileno()

    def prepare():
        for number, name in enumerate(("stdin", "stdout", "stderr")):
            if options.get(name) == "closed":
                os.close(number)
        if "limit" in options:
            resource.setrlimit(resource.RLIMIT_FSIZE, (options["limit"], options["limit"]))
        if "memory" in options:
            resource.setrlimit(resource.RLIMIT_AS, (options["memory"], options["memory"]))

    person = {"user": NOBODY, "group": NOBODY, "extra_groups": []} if as_nobody and os.geteuid() == 0 else {}
    # What a write past a limit, or to a pipe that nobody reads, raises is not to end the program: it is an error of the call.
    done = subprocess.run([program, *one.words], stdin=stdin, stdout=stdout, stderr=stderr, cwd=folder, timeout=60, check=False,
                          restore_signals=False, preexec_fn=prepare, **person)
    written.seek(options.get("filled", 0))
    said.seek(0)
    for number in {stdin, stdout, stderr} - {source.fileno(), written.fileno(), said.fileno()}:
        os.close(number)
    return done.returncode, written.read(), said.read(), path


def left_under(path):
    """The bytes under a name, or that a folder or a link is there, or nothing."""
    if path.is_symlink():
        return os.readlink(path)
    if path.is_dir():
        return sorted(path.iterdir())
    return path.read_bytes() if path.exists() else None


def wrong_with(program, place, one):
    """What a run does otherwise than its row says."""
    folder = tempfile.mkdtemp(dir=place)
    os.chmod(folder, 0o755)
    code, written, said, path = lead(program, folder, one)
    if one.options.get("size"):
        before = one.before + bytes(one.options["size"] - len(one.before))
    else:
        before = [] if one.before == "folder" else one.options.get("link", one.before)
    path.parent.chmod(0o755)
    if one.before not in (None, "folder"):
        path.chmod(0o644)
    after = left_under(path)
    if code != one.row[1]:
        yield f"it ends with {code}"
    if written != one.written:
        yield f"it writes {written!r} in place of {one.written!r}"
    if "stderr" not in one.options and said != f"{one.said}\n".encode() * bool(one.said):
        yield f"it says {said!r} in place of {one.said!r}"
    if one.after == SAME and after != before:
        yield "the image is not as before"
    if one.after == NEW:
        try:
            state = Image(after or b"").recovered()
            if one.row[1] in (0, 8) and state[1:] != ([1], {5: 7}, []):
                yield "the image is not that of the whole life"
        except formats.Fault as fault:
            yield f"what it leaves is no image: {fault}"
    others = [other.name for other in pathlib.Path(folder).iterdir() if other != path]
    if others:
        yield f"it leaves {others} beside the image"


def table():
    """The rows of README.md's table: the words and codes, and what it says of the image."""
    text = (formats.ROOT / "README.md").read_text(encoding="utf-8")
    part = re.search(r"## What a refusal leaves\n(.*?)\n## ", text, re.S)
    rows = {}
    for line in part[1].splitlines() if part else ():
        cells = [cell.strip().replace("`", "") for cell in line.strip("|").split("|")]
        if len(cells) >= 4 and cells[1].isdigit():
            for word in cells[0].split(", "):
                rows[word, int(cells[1])] = rows.get((word, int(cells[1])), "") + " " + cells[3]
    return rows


def main(given):
    """Tries all cases, and ends with what is wrong, or with a line that tells how many were tried."""
    begin, count, is_right, tried = time.monotonic(), 0, True, collections.defaultdict(set)
    rows = table()
    with tempfile.TemporaryDirectory() as place:
        os.chmod(place, 0o755)
        program = shutil.copy(given, place)
        for one in cases():
            count += 1
            tried[one.row].add(one.after)
            for what in wrong_with(program, place, one):
                is_right = False
                print(f"refusals: {' '.join(map(str, one.row))}, {one.title}: {what}", file=sys.stderr)
    for row in sorted(set(rows) ^ set(tried), key=str):
        is_right = False
        print(f"refusals: {row[0]} {row[1]} is {'in README.md, and has no case' if row in rows else 'no row of README.md'}", file=sys.stderr)
    for row in set(rows) & set(tried):
        if not all(after in rows[row] for after in tried[row]):
            is_right = False
            print(f"refusals: {row[0]} {row[1]}: README.md has another word for what is under the name: {rows[row]}", file=sys.stderr)
    if not is_right:
        sys.exit(1)
    print(f"refusals: {count} runs leave what README.md says, in {time.monotonic() - begin:.0f} s, by {given}")


if __name__ == "__main__":
    signal.signal(signal.SIGPIPE, signal.SIG_IGN)
    main(pathlib.Path(sys.argv[1] if len(sys.argv) > 1 else formats.PROGRAM).resolve())
