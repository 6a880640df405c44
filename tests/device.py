#!/usr/bin/env python3
"""Runs the program on files with each of its calls on the file failing in turn, and cuts its runs
short at each of them.

    tests/device.py PROGRAM

Without a fault the calls are those that region.py derives from the commands, each reply after those
of its command. With one, the replies end with the right `unsure`, no call on the file follows, and
the file, read by region.py and looked up by another run, holds what was acknowledged. And wherever
the machine stops, whatever becomes of the unsynced bytes, what is left is a cache with all that was
acknowledged, and nothing that nobody asked for.
"""
import os
import random
import sys

import device_calls
import harness
import oracle
import region
import runs

SMALL = oracle.Geometry(top=3, roots=8, slots=256)
# A name that takes two slots of the journal.
EXT = runs.LONG_LOADERS[-1]
SCRIPT = [
    b"loader app",
    runs.define(b"app", b"A", 0),
    runs.define(b"app", b"B", 900),
    b"find app B",
    b"loader " + EXT,
    runs.define(EXT, b"A", 8000),
    runs.define(b"app", b"B", 0),
    b"unload app",
    b"loader app",
    runs.define(b"app", b"C", 3000),
    b"find app B",
    b"unload " + EXT,
    runs.define(b"app", b"A", 5000),
    b"loader " + EXT,
    runs.define(EXT, b"A", 864),
    runs.define(EXT, b"D", 0),
    runs.define(EXT, b"E", 0),
    # Two records move; then there is no better chunk.
    b"tighten " + EXT,
    b"tighten " + EXT,
    b"find " + EXT + b" E",
    b"unloadall " + EXT + b" app",
    b"find " + EXT + b" E",
    b"loader app",
]
# As many commands come before it as make a checkpoint fall in the middle of it, into a half that
# was used before.
BEFORE = 248


class Bench:
    """The program, the same with its calls logged, and a folder."""

    def __init__(self, program, folder):
        self.program = program
        self.watched = device_calls.Watched(program, folder)
        self.folder = folder
        self.checks = harness.Checks()

    def new_file(self, held):
        path = f"{self.folder}/cache"
        harness.remove(path)
        harness.write(path, held.bytes)
        return path


def failed(path):
    """What standard error says of a file whose call failed."""
    return f"cmcache: {path}: {device_calls.EIO}\n"


# ---- one call fails

def fail_one(bench, fails, stores, due):
    """The script with a call failing, then the remaining lines in another run."""
    cache, file = device_calls.begun(SMALL, BEFORE)
    path = bench.new_file(file)
    name = f"call {fails} fails, {stores} bytes stored"
    ran, calls = bench.watched.run(["apply", path], SCRIPT, FAIL=fails, STORES=stores)
    made = device_calls.on_file(calls)
    done = due[:[at for at, call in enumerate(due) if call[0] != "r"][fails - 1]]
    count = sum(call[0] == "r" for call in done)
    wanted = [cache.answer(line) for line in SCRIPT[:count]]
    wanted.append(b"unsure %d" % (cache.number + 1) if fails > 1 else b"device")
    bench.checks.check(f"{name}: the replies", ran == (wanted, 3, failed(path)),
                       f"{ran}, wanted {wanted}")
    bench.checks.check(f"{name}: no call follows", len(made) == fails and made[-1][0].isupper())
    line = SCRIPT[count] if fails > 1 else None
    runs.settle(bench.checks, f"{name}: the file", path, cache, line)
    runs.look_up(bench.checks, f"{name}: the classes", bench.program, path, cache)
    rest = SCRIPT[count:]
    wanted = runs.answers(cache, rest)
    ran = harness.run(bench.program, ["apply", path], rest)
    bench.checks.check(f"{name}: the remaining lines", ran == (*wanted, ""),
                       f"{ran}, wanted {wanted}")
    runs.settle(bench.checks, f"{name}: the file after it", path, cache, None)


def fail_each(bench, due):
    for fails, (letter, _, data) in enumerate(device_calls.on_file(due), 1):
        for stores in sorted({0, len(data) // 2, len(data)}):
            fail_one(bench, fails, stores, due)


# ---- the machine stops

def stop_at_each_call(bench, calls):
    rng = random.Random(13)
    path, replies = f"{bench.folder}/stopped", 0
    whole, _ = device_calls.begun(SMALL, BEFORE)
    runs.answers(whole, SCRIPT)
    cache, file = device_calls.begun(SMALL, BEFORE)
    disk = device_calls.Stopped(file.bytes)
    for at, call in enumerate(calls):
        if call[0] == "r":
            cache.answer(SCRIPT[replies])
            replies += 1
            continue
        disk.note(call)
        for fate, of in device_calls.fates(rng).items():
            if not disk.since and fate != "as written":
                continue
            harness.write(path, disk.left(of))
            state, number = runs.state_in(path)
            name = f"the machine stops after call {at}, unsynced bytes: {fate}"
            good = (number in (cache.number, cache.number + 1) and number <= whole.number
                    and state == region.state_of(whole.states[number]))
            if bench.checks.check(name, good,
                                  f"number {number}, {cache.number} acknowledged: {state!s:.100}"):
                ran = harness.run(bench.program, ["apply", path], runs.FINDS)
                found = runs.answers(whole.copy().reopened(number), runs.FINDS)
                bench.checks.check(f"{name}: the classes", ran == (*found, ""), f"{ran}")


# ---- making a file

def format_with_faults(bench):
    path = f"{bench.folder}/new"
    words = runs.format_words(path, SMALL)
    ran, calls = bench.watched.run(words)
    new = bytes(region.Region(SMALL).bytes)
    closed = new[:4095] + b"\0" + new[4096:]
    sync = device_calls.SYNC
    due = [sync, sync, *device_calls.pieces((0, closed)), sync, ("w", 4095, b"\xa5"), sync,
           ("r", 0, b"ok\n")]
    bench.checks.check("format: its calls", ran == ([b"ok"], 0, "") and calls == due)
    os.remove(path)
    for fails, (_, _, data) in enumerate(device_calls.on_file(due), 1):
        for stores in sorted({0, len(data) // 2, len(data)}):
            name = f"format, call {fails} fails, {stores} bytes stored"
            ran, calls = bench.watched.run(words, FAIL=fails, STORES=stores)
            bench.checks.check(f"{name}: what it says",
                               ran == ([b"device"], 3, failed(path)), f"{ran}")
            bench.checks.check(f"{name}: no call follows",
                               len(device_calls.on_file(calls)) == fails)
            bench.checks.check(f"{name}: no file stays", not os.path.exists(path))
            ran = harness.run(bench.program, words)
            bench.checks.check(f"{name}: the next one", ran == ([b"ok"], 0, ""), f"{ran}")
            os.remove(path)
    ran, _ = bench.watched.run(words, FAIL=3, KEEP=1)
    good = (ran[:2] == ([b"device"], 3) and failed(path) in ran[2]
            and "holds no cache" in ran[2])
    bench.checks.check("format fails, and its file can't be removed", good and os.path.exists(path),
                       f"{ran}")


# ---- trimming a file

# The second root is in use until the last line.
LEFT_ROOT = [b"loader app", runs.define(b"app", b"A", 0), b"loader ext",
             runs.define(b"ext", b"A", 8000), b"unload ext"]


def trim_with_faults(bench):
    cache, _ = oracle.answers(LEFT_ROOT, SMALL)
    file = region.file_of(cache)
    end = len(file.bytes) - 8192
    due = [device_calls.SYNC, ("c", end, b""), device_calls.SYNC, ("r", 0, b"roots 1\n")]
    path = bench.new_file(file)
    ran, calls = bench.watched.run(["trim", path])
    bench.checks.check("trim: its calls", ran == ([b"roots 1"], 0, "") and calls == due,
                       f"{ran} {calls}")
    bench.checks.check("trim: the file", os.path.getsize(path) == end)
    ran, calls = bench.watched.run(["trim", path])
    bench.checks.check("a second trim cuts nothing",
                       ran == ([b"roots 1"], 0, "")
                       and device_calls.on_file(calls) == due[:1], f"{calls}")
    for fails in range(1, 4):
        path = bench.new_file(file)
        name = f"trim, call {fails} fails"
        ran, calls = bench.watched.run(["trim", path], FAIL=fails, STORES=0)
        bench.checks.check(f"{name}: what it says",
                           ran == ([b"device"], 3, failed(path)), f"{ran}")
        bench.checks.check(f"{name}: no call follows", len(device_calls.on_file(calls)) == fails)
        runs.settle(bench.checks, f"{name}: the file", path, cache, None)
        ran = harness.run(bench.program, ["trim", path])
        bench.checks.check(f"{name}: the next one", ran == ([b"roots 1"], 0, ""), f"{ran}")
        runs.settle(bench.checks, f"{name}: the file after it", path, cache, None)
        bench.checks.check(f"{name}: its size after it", os.path.getsize(path) == end)


def main(program):
    with harness.new_folder() as folder:
        bench = Bench(program, folder)
        cache, file = device_calls.begun(SMALL, BEFORE)
        ran, calls = bench.watched.run(["apply", bench.new_file(file)], SCRIPT)
        due = device_calls.due_calls(cache, file, SCRIPT)
        bench.checks.check("the calls of a script", calls == due and ran[1:] == (1, ""), f"{ran}")
        cache, file = device_calls.begun(oracle.Geometry())
        ran, long_calls = bench.watched.run(["apply", bench.new_file(file)], SCRIPT)
        bench.checks.check("the calls on a file of the usual sizes",
                           long_calls == device_calls.due_calls(cache, file, SCRIPT), f"{ran}")
        fail_each(bench, due)
        stop_at_each_call(bench, calls)
        format_with_faults(bench)
        trim_with_faults(bench)
        return bench.checks.finish()


if __name__ == "__main__":
    sys.exit(main(*sys.argv[1:]))
