#!/usr/bin/env python3
"""Kills a C program that submits commands without waiting for each, at random moments, and checks
what the file holds then.

    tests/submit_kill.py CMCACHE PROGRAM KILLS SEED

The program, tests/c/submit.c, prints each number that it learns as stored. The file has to hold the
commands 1 to some number, all that was printed among them.
"""
import random
import sys
import time

import harness
import region

COUNT = 1900


def main():
    cmcache, program = sys.argv[1:3]
    kills, rng = int(sys.argv[3]), random.Random(int(sys.argv[4]))
    checks = harness.Checks()
    # The shortest time that a run took, so that a slow moment of the machine makes none miss.
    hits, shortest = 0, harness.TIME_LIMIT
    with harness.new_folder() as folder:
        path = f"{folder}/cache"
        for number in range(kills + 1):
            harness.remove(path)
            harness.run(cmcache, ["format", path])
            # The first run isn't killed: it says how long one takes.
            delay = rng.uniform(0, shortest) if number else harness.TIME_LIMIT
            start = time.monotonic()
            lines, was_hit = harness.killed([program, path, str(COUNT)], b"", delay)
            if not was_hit:
                shortest = min(shortest, time.monotonic() - start)
            hits += was_hit
            told = max(map(int, lines), default=0)
            listed, status, errors = harness.run(cmcache, ["list", path])
            loaders = {line.split()[1] for line in listed if line.startswith(b"loader ")}
            last = region.read(path).number
            name = f"kill {number} after {told} of {last}"
            checks.check(f"{name}: the file is whole", status == 0, errors)
            checks.check(f"{name}: what is said to be stored is there", told <= last)
            checks.check(f"{name}: and nothing but the commands up to a number",
                         loaders == {b"l%d" % at for at in range(1, last + 1)})
            if number == 0:
                checks.check("a run that isn't killed ends", last == told == COUNT, f"{last}")
        checks.check("kills hit", hits * 4 > kills, f"{hits} of {kills}")
    return checks.finish()


if __name__ == "__main__":
    sys.exit(main())
