#!/usr/bin/env python3
"""Stops the machine at random moments while threads define, find and unload classes in one file,
and checks what the file holds then.

    tests/soak_stop.py PROGRAM BENCH THREADS MOMENTS SEED

The threads' calls are printed as in soak_kill.py, and logged together with the calls on the file,
in one order. So it is known for each moment what was acknowledged, and what each thread had under
way. Whatever becomes of the unsynced bytes, the file has to hold what soak_kill.py requires.
"""
import random
import sys

import device_calls
import harness
import runs
import soak
import soak_kill

LONGEST = 0.2


def logged(checks, program, bench, folder, count, rng):
    """The file before the run, and all calls and output of a run that ends by a kill."""
    path, watched = f"{folder}/cache", device_calls.Watched(bench, folder)
    soak.new_file(checks, program, path)
    data = harness.read(path)
    _, was_hit = soak_kill.killed(bench, path, count, rng.uniform(LONGEST / 2, LONGEST),
                                  watched.env())
    checks.check("it was running", was_hit)
    return data, watched.calls()


def changes(threads):
    """How many calls that change something are under way."""
    return sum(calls.under_way is not None and runs.is_change(calls.under_way)
               for calls in threads.values())


def stop_at(checks, program, path, data, calls, moments, rng):
    """For each moment: how many changes were under way, were acknowledged, and were stored though
    they weren't."""
    disk, out, told = device_calls.Stopped(data), bytearray(), []
    for at, call in enumerate(calls):
        if call[0] == "r":
            out += call[2]
        else:
            disk.note(call)
        if at not in moments:
            continue
        fate, of = rng.choice([*device_calls.fates(rng).items()])
        harness.write(path, disk.left(of))
        threads = soak_kill.parse(harness.lines_in(bytes(out)))
        name = f"the machine stops after call {at}, unsynced bytes: {fate}"
        told.append((changes(threads), *soak_kill.check_file(checks, name, path, threads)))
        runs.tell(checks, f"{name}: the file", program, path)
    return told


def main(program, bench, count, moments, seed):
    checks, rng = harness.Checks(), random.Random(seed)
    with harness.new_folder() as folder:
        data, calls = logged(checks, program, bench, folder, count, rng)
        places = set(rng.sample(range(len(calls)), min(moments, len(calls))))
        told = stop_at(checks, program, f"{folder}/stopped", data, calls, places, rng)
    several = sum(under_way > 1 for under_way, _, _ in told)
    checks.check("several changes are under way", several > 0)
    print(f"{len(told)} moments, seed {seed}: at {several} several changes were under way; "
          f"{sum(more for _, _, more in told)} of these were stored")
    return checks.finish()


if __name__ == "__main__":
    sys.exit(main(*sys.argv[1:3], *map(int, sys.argv[3:6])))
