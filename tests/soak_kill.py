#!/usr/bin/env python3
"""Kills a program at random moments while its threads define, find, move and unload classes in one
file, and checks what the file holds then.

    tests/soak_kill.py PROGRAM BENCH THREADS KILLS SEED

Each call is printed before it is made, and again as it returns. So a thread has at most one call
under way at the kill. The file, read by region.py, checked and listed by the program, has to hold
all that was acknowledged, and of each thread's call under way all or nothing: as many commands as
its last number says. One that moves records under way counts or doesn't, as nothing shows it.
"""
import os
import random
import sys

import harness
import oracle
import region
import runs
import soak

SECONDS = 60
LONGEST = 0.5


class Killed:
    """The calls of one thread: those that returned, and the one that didn't."""

    def __init__(self):
        self.lines = []
        self.under_way = None

    def add(self, line):
        if b": " in line:
            self.lines.append(line)
            self.under_way = None
        else:
            self.under_way = line


def parse(lines):
    threads = {}
    for line in lines:
        thread, rest = line.split(b" ", 1)
        threads.setdefault(int(thread), Killed()).add(rest)
    return threads


def with_call(cache, asked):
    """What the thread's loaders hold once its call under way is stored, too; `None` if it changes
    nothing."""
    if asked is None or not runs.is_change(asked):
        return None
    after = cache.copy()
    reply = after.answer(soak.line_of(asked))
    return region.state_of(after.loaders) if reply.startswith(b"ok ") else None


def check_thread(checks, name, at, calls, state):
    """How many commands of the thread the file holds, how many more it may hold that nothing shows,
    and their numbers as far as they are known; `None` if it holds something else."""
    told = soak.Told(calls.lines)
    cache = oracle.Cache(soak.GEOMETRY)
    wrong = told.wrong(cache)
    checks.check(f"{name}, thread {at}: its answers", wrong is None, f"{wrong}")
    own = [b"t%d" % (2 * at), b"t%d" % (2 * at + 1)]
    there = {loader: state[loader] for loader in own if loader in state}
    if there == region.state_of(cache.loaders):
        moves = calls.under_way is not None and soak.may_move(cache, calls.under_way)
        return len(told.numbers), int(moves), told.numbers
    if there == with_call(cache, calls.under_way):
        return len(told.numbers) + 1, 0, told.numbers
    checks.check(f"{name}, thread {at}: its loaders", False,
                 f"{calls.under_way} was under way: {there!s:.200}")
    return None


def check_file(checks, name, path, threads):
    """How many calls were acknowledged, and how many more the file holds."""
    state, number = runs.state_in(path)
    if not checks.check(f"{name}: the file is a cache", number is not None, f"{state}"):
        return 0, 0
    stored, unseen, numbers = 0, 0, []
    for at, calls in sorted(threads.items()):
        found = check_thread(checks, name, at, calls, state)
        if found is None:
            return 0, 0
        stored += found[0]
        unseen += found[1]
        numbers += found[2]
    checks.check(f"{name}: the file's number", stored <= number <= stored + unseen,
                 f"{stored} and at most {unseen} more of {number}")
    checks.check(f"{name}: each number is returned once", len(set(numbers)) == len(numbers))
    checks.check(f"{name}: no later one", max(numbers, default=0) <= number)
    return len(numbers), number - len(numbers)


def killed(bench, path, count, delay, env=None):
    """Has threads define classes in the file, and kills them after this many seconds."""
    words = [bench, "soak", path, "--live", "--threads", str(count), "--seconds", str(SECONDS)]
    return harness.killed(words, harness.stream_of(soak.CLASSES), delay, env, at_first_line=True)


def kill_once(checks, program, bench, folder, count, rng):
    path, delay = f"{folder}/cache", rng.uniform(0, LONGEST)
    soak.new_file(checks, program, path)
    lines, was_hit = killed(bench, path, count, delay)
    name = f"killed after {delay:.3f} s"
    checks.check(f"{name}: it was running", was_hit)
    told = check_file(checks, name, path, parse(lines))
    runs.tell(checks, f"{name}: the file", program, path)
    os.remove(path)
    return told


def main(program, bench, count, kills, seed):
    checks, rng = harness.Checks(), random.Random(seed)
    acknowledged = more = 0
    with harness.new_folder() as folder:
        for _ in range(kills):
            told = kill_once(checks, program, bench, folder, count, rng)
            acknowledged += told[0]
            more += told[1]
    print(f"{kills} kills, seed {seed}: {acknowledged} commands were acknowledged, {more} more "
          "were stored")
    return checks.finish()


if __name__ == "__main__":
    sys.exit(main(sys.argv[1], sys.argv[2], int(sys.argv[3]), int(sys.argv[4]), int(sys.argv[5])))
