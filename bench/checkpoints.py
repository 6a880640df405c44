#!/usr/bin/env python3
"""Measures what checkpoints cost a command. It isn't part of CI.

    bench/checkpoints.py PROGRAM [COMMANDS] [ROUNDS] [FOLDER]

In a cache with some live loaders, a loader is made and unloaded again, one command a group,
COMMANDS times (20,000). With 4,096 slots in a half a checkpoint comes whenever a half is full; with
65,536 slots there is none in 20,000 commands. Each row has the least of ROUNDS rounds (3), the two
in turn, on files in FOLDER (the program's, by default), which are removed afterwards.
The checkpoints and the device calls are counted from docs/REGION.md: a group of one command takes
two slots and four calls, a checkpoint six calls.
"""
import os
import sys
import tempfile
import time

sys.path.insert(0, os.path.join(os.path.dirname(os.path.abspath(__file__)), "..", "tests"))
import harness
import oracle
import region

SLOTS = [4_096, 65_536]
LIVE = [0, 100, 1_000, 2_000]


def run(program, words, lines=()):
    """How many replies are `ok`."""
    out, _, _ = harness.run(program, words, lines, seconds=None)
    return sum(reply.startswith(b"ok") for reply in out)


def seconds(program, path, slots, live, commands):
    """How long the commands take, in a file with this many live loaders."""
    run(program, ["format", path, "--slots", str(slots)])
    kept = [b"loader kept%d" % i for i in range(live)]
    if run(program, ["apply", path], kept) != live:
        sys.exit("a loader was refused")
    lines = [b"loader other", b"unload other"] * (commands // 2)
    begin = time.monotonic()
    stored = run(program, ["apply", path], lines)
    took = time.monotonic() - begin
    if stored != len(lines):
        sys.exit("a command was refused")
    os.remove(path)
    return took


def checkpoints(slots, live, commands):
    """How many there are, and their device calls' share of all."""
    count, end, rows, sizes = 0, 1, 0, oracle.Geometry(slots=slots)
    for number in range(live + commands):
        if not region.has_room(sizes, end, 1):
            end = 1 + rows
            count += number >= live
        end += 2
        rows += 1 if number < live else (-1 if (number - live) % 2 else 1)
    return count, 6 * count / (6 * count + 4 * commands)


def main(program, commands=20_000, rounds=3, folder=None):
    commands, rounds = int(commands), int(rounds)
    print("live loaders | checkpoints | share of calls | us a command, 4,096 slots | 65,536 slots")
    with tempfile.TemporaryDirectory(dir=folder or os.path.dirname(program)) as work:
        for live in LIVE:
            took = [[], []]
            for _ in range(rounds):
                for times, slots in zip(took, SLOTS):
                    times.append(seconds(program, f"{work}/cache", slots, live, commands))
            count, share = checkpoints(SLOTS[0], live, commands)
            best = [min(times) / commands * 1e6 for times in took]
            print(f"{live} | {count} | {100 * share:.2f} % | {best[0]:.1f} | {best[1]:.1f}")


if __name__ == "__main__":
    main(*sys.argv[1:])
