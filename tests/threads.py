#!/usr/bin/env python3
"""Runs random scripts with one worker and with several, some of them on a device that fails.

    tests/threads.py PROGRAM SCRIPTS SEED

A command is stored before the next is accepted, so the device calls of a script are the same with
any number of workers: those that region.py derives from the commands that oracle.py accepts. So are
the replies, the status and the bytes of the file, also if one of these calls fails. What such a run
leaves holds all that was acknowledged, and another run continues with it.
"""
import random
import subprocess
import sys

import device_calls
import harness
import oracle
import runs

WORKERS = ["1", "2", "16"]
A = harness.class_a()
ROWS = {
    "row 1": [b"loader app", harness.define(b"app", A), b"find app A"],
    "row 8": [b"loader a", b"loader b", harness.define(b"a", A), harness.define(b"b", A),
              harness.define(b"a", A)],
    "row 14": [b"loader a", harness.define(b"a", A), b"unload a", b"loader a",
               runs.define(b"a", b"A", 0), b"find a A"],
    "row 17": [b"loader a", runs.define(b"a", b"A", 0), runs.define(b"a", b"B", 864),
               b"tighten a", b"tighten a"],
    "a chunk that is filled": [b"loader a", runs.define(b"a", b"A", 0),
                               runs.define(b"a", b"B", 704)],
}
GEOMETRY = oracle.Geometry(top=3, roots=3, slots=256)
MOST_LINES = 100
# One in this many scripts runs on a device that fails.
FAILING = 4
# Lines that are refused whatever the cache holds.
BAD_LINES = [b"", b"find app", b"loader " + runs.TOO_LONG, b"define app 0", b"define app cafebabe",
             harness.define(b"app", A + b"\0"), b"find app %41", b"unload  app"]


def some_lines(rng):
    """Random lines, now and then one that no cache accepts."""
    loaders = runs.some_loaders(rng)
    return [rng.choice(BAD_LINES) if rng.random() < 0.06 else runs.some_line(rng, loaders)
            for _ in range(rng.randrange(MOST_LINES))]


class Script:
    """Lines, and the expected result of running them on a new file."""

    def __init__(self, lines):
        self.lines = lines
        cache, file = device_calls.begun(GEOMETRY)
        self.new = bytes(file.bytes)
        self.calls = device_calls.due_calls(cache, file, lines)
        self.replies = device_calls.replies_in(self.calls)
        self.status = oracle.status_of(self.replies)
        self.errors = ""
        self.left = bytes(file.bytes)
        self.env = {}


class Broken:
    """A script, and the expected result of a run in which a device call fails, counted from 1,
    after storing some bytes."""

    def __init__(self, script, path, library, fails, stores):
        at = [at for at, call in enumerate(script.calls) if call[0] != "r"][fails - 1]
        done, (letter, place, data) = script.calls[:at], script.calls[at]
        self.lines = script.lines
        self.new = script.new
        self.replies = device_calls.replies_in(done)
        # After the last number that was acknowledged; the first call only opens the file.
        number = 1 + sum(reply.startswith(b"ok ") for reply in self.replies)
        self.replies.append(b"unsure %d" % number if fails > 1 else b"device")
        self.status = 3
        self.errors = f"cmcache: {path}: {device_calls.EIO}\n"
        self.left = device_calls.after(script.new, [*done, (letter, place, data[:stores])])
        self.env = {"LD_PRELOAD": library, "FAIL": str(fails), "STORES": str(stores)}


class Bench:
    """The program, the library that makes its calls fail, and a file."""

    def __init__(self, program, folder):
        self.program = program
        self.library = harness.library("calls")
        self.path = f"{folder}/cache"
        self.checks = harness.Checks()

    def run(self, name, due, workers):
        """A run on a new file, compared with the expected result."""
        harness.write(self.path, due.new)
        told = harness.run(self.program, ["apply", self.path, "--workers", workers], due.lines,
                        due.env)
        name = f"{name}, {workers} workers"
        self.checks.check(name, told == (due.replies, due.status, due.errors), f"{told!s:.200}")
        self.checks.check(f"{name}: the file", harness.read(self.path) == due.left)

    def run_all(self, name, due):
        for workers in WORKERS:
            self.run(name, due, workers)

    def fail_one(self, rng, name, script):
        """A script on a device that fails at one of its calls, and then the remaining lines."""
        calls = device_calls.on_file(script.calls)
        fails = rng.randrange(1, len(calls) + 1)
        length = len(calls[fails - 1][2])
        stores = rng.choice([0, length // 2, length])
        name = f"{name}, call {fails} fails, {stores} bytes stored"
        due = Broken(script, self.path, self.library, fails, stores)
        self.run_all(name, due)
        cache = oracle.Cache(GEOMETRY)
        count = len(due.replies) - 1
        for line in due.lines[:count]:
            cache.answer(line)
        line = due.lines[count] if fails > 1 else None
        runs.settle(self.checks, f"{name}: what is left", self.path, cache, line)
        rest = due.lines[count:]
        wanted = runs.answers(cache.reopened(), rest)
        told = harness.run(self.program, ["apply", self.path, "--workers", "2"], rest)
        self.checks.check(f"{name}: the remaining lines", told == (*wanted, ""), f"{told!s:.200}")
        runs.settle(self.checks, f"{name}: the file after it", self.path, cache, None)


def is_answered_at_once(program):
    """Whether each line has its reply before the next is written."""
    process = subprocess.Popen([program, "apply", "--memory", "--workers", "2"],
                               stdin=subprocess.PIPE, stdout=subprocess.PIPE)
    replies = []
    for line in ROWS["row 1"]:
        process.stdin.write(line + b"\n")
        process.stdin.flush()
        replies.append(process.stdout.readline())
    process.stdin.close()
    process.stdout.close()
    _, wanted = oracle.answers(ROWS["row 1"])
    return process.wait() == 0 and replies == [reply + b"\n" for reply in wanted]


def main(program, scripts, seed):
    rng = random.Random(seed)
    with harness.new_folder() as folder:
        bench = Bench(program, folder)
        for name, lines in ROWS.items():
            bench.run_all(name, Script(lines))
        for number in range(scripts):
            script = Script(some_lines(rng))
            name = f"seed {seed}, script {number}"
            if number % FAILING:
                bench.run_all(name, script)
            else:
                bench.fail_one(rng, name, script)
    bench.checks.check("a line has its reply before the next comes", is_answered_at_once(program))
    return bench.checks.finish()


if __name__ == "__main__":
    sys.exit(main(sys.argv[1], int(sys.argv[2]), int(sys.argv[3])))
