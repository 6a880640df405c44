#!/usr/bin/env python3
"""Kills the program at random moments while it runs scripts on a file, and checks what the file
holds then.

    tests/kill.py PROGRAM KILLS SEED [WORD..]

Each reply that came before the kill has to be the right one; the file, read by region.py, checked,
listed and looked up by the program, has to hold all commands that were acknowledged and, of the
others, at most the one that was being run. A kill of `trim` comes after each, and leaves the same;
then the file is turned into one of version 1, and a kill comes while it is upgraded. The next run
continues with the file as it is. Some kills hit `format`: its file is no cache then, or the empty
one, or there is none. The words are further arguments of `apply`.
"""
import os
import random
import sys
import time

import harness
import oracle
import region
import runs

# The last makes a checkpoint every hundred commands or so.
GEOMETRIES = [oracle.Geometry(), oracle.Geometry(top=3, roots=3, slots=2048),
              oracle.Geometry(top=3, roots=3, slots=256)]
LINES = 400
KILLS_A_FILE = 7


def kill_apply(checks, program, words, cache, loaders, rng, longest):
    """Whether the run was killed, and whether all that it left is right."""
    path = words[1]
    lines = [runs.some_line(rng, loaders) for _ in range(LINES)]
    replies, was_hit = harness.killed([program, *words], harness.text_of(lines),
                                      rng.uniform(0, longest))
    cache.reopened()
    wanted = [cache.answer(line) for line in lines[:len(replies)]]
    name = f"kill after {cache.number} commands and {len(replies)} replies"
    good = checks.check(f"{name}: the replies", replies == wanted)
    under_way = lines[len(replies)] if len(replies) < len(lines) else None
    good = runs.settle(checks, f"{name}: the file", path, cache, under_way) and good
    good = good and runs.tell(checks, f"{name}: the file", program, path)
    good = runs.look_up(checks, f"{name}: the classes", program, path, cache) and good
    return was_hit, good


def kill_trim(checks, program, path, cache, rng, longest):
    """A trim that is killed, and one that isn't, leave the same cache; after that one the file
    ends with the last root that is in use."""
    harness.killed([program, "trim", path], b"", rng.uniform(0, longest))
    name = f"trim killed after {cache.number} commands"
    good = runs.settle(checks, f"{name}: the file", path, cache, None)
    told = harness.run(program, ["trim", path])
    file = region.read(path)
    used = file.roots_used()
    good = checks.check(f"{name}, and then not: what it says",
                        told == ([b"roots %d" % used], 0, ""), f"{told}") and good
    good = runs.settle(checks, f"{name}, and then not: the file", path, cache, None) and good
    return checks.check(f"{name}, and then not: its roots", file.roots == used,
                        f"{file.roots} roots, {used} in use") and good


def made_older(path):
    """Turns the file into one of version 1, whose entries have the same encoding, unless a half's
    epoch, or a name that takes two slots, exists only in version 2. Whether it is one now."""
    file = region.read(path)
    first = file.slots * file.half
    if any(file.slot(first + place)[1] == region.REST for place in range(1, file.end)):
        return False
    data = bytearray(file.data)
    for half in (0, 1):
        at = region.SUPERBLOCK + region.SLOT * file.slots * half
        if data[at] == region.OPEN:
            if region.number(data, at + 8, 8) > region.number(data, at + 16, 8) + 1:
                return False
            data[at + 2] = 1
    harness.write(path, data)
    return True


def kill_moving_over(checks, program, path, cache, rng, longest):
    """A file of version 1 is listed, and so upgraded: by a run that is killed, and by one that
    isn't."""
    if not made_older(path):
        return True
    harness.killed([program, "list", path], b"", rng.uniform(0, longest))
    name = f"moving over killed after {cache.number} commands"
    good = runs.settle(checks, f"{name}: the file", path, cache, None)
    good = runs.tell(checks, f"{name}, and then not", program, path) and good
    good = runs.settle(checks, f"{name}, and then not: the file", path, cache, None) and good
    return checks.check(f"{name}, and then not: its version",
                        region.read(path).version == region.VERSION) and good


def kill_format(checks, program, path, rng, longest):
    harness.killed([program, "format", path], b"", rng.uniform(0, longest))
    if os.path.exists(path):
        state, number = runs.state_in(path)
        checks.check("format killed: the file", (state, number) in [("not a cache", None), ({}, 0)],
                     f"{state} {number}")
        os.remove(path)


def time_of(run):
    begin = time.monotonic()
    run()
    return time.monotonic() - begin


def main(program, kills, seed, further):
    rng, checks = random.Random(seed), harness.Checks()
    with harness.new_folder() as folder:
        path, other = f"{folder}/cache", f"{folder}/other"
        # How long a run takes that only opens, and one of all lines: kills come at any moment
        # of it.
        harness.run(program, ["format", path])
        lines = [runs.some_line(rng, runs.LOADERS) for _ in range(LINES)]
        words = ["apply", path, *further]
        longest = 1.1 * time_of(lambda: harness.run(program, words, lines))
        making = 1.1 * time_of(lambda: harness.run(program, ["format", other]))
        os.remove(other)
        hits = done = 0
        delay = longest
        cache = loaders = None
        while hits < kills and done < 3 * kills:
            if cache is None or done % KILLS_A_FILE == 0:
                files = done // KILLS_A_FILE
                geometry = GEOMETRIES[files % len(GEOMETRIES)]
                # Only a file without long names can be turned into one of version 1.
                loaders = runs.LONG_LOADERS if files % 2 else runs.LOADERS
                cache = oracle.Cache(geometry)
                os.remove(path)
                made = harness.run(program, runs.format_words(path, geometry))
                if not checks.check("format", made == ([b"ok"], 0, ""), f"{made}"):
                    break
            was_hit, good = kill_apply(checks, program, words, cache, loaders, rng, delay)
            hits += was_hit
            done += 1
            good = good and kill_trim(checks, program, path, cache, rng, making)
            good = good and kill_moving_over(checks, program, path, cache, rng, making)
            # A run that ended by itself was shorter than expected.
            delay = min(longest, 1.05 * delay) if was_hit else 0.8 * delay
            if not good:
                cache = None
            if done % 5 == 0:
                kill_format(checks, program, other, rng, making)
        checks.check(f"{kills} kills", hits == kills, f"{hits} of {done} runs were killed")
        print(f"seed {seed}: {hits} of {done} runs were killed; "
              f"a whole run of {LINES} lines takes {longest / 1.1:.2f} s")
    return checks.finish()


if __name__ == "__main__":
    sys.exit(main(sys.argv[1], int(sys.argv[2]), int(sys.argv[3]), sys.argv[4:]))
