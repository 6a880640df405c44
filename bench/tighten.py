#!/usr/bin/env python3
"""Measures how much room tighten and trim give back. It isn't part of CI.

    bench/tighten.py PROGRAM [CLASSES] [LOADERS] [FOLDER]

A new file in FOLDER (the program's, by default) gets CLASSES (20,000) classes in LOADERS (200)
loaders, a class to each loader in turn; the sizes of their records are drawn (a fixed seed). Then
each loader is tightened until the reply is `refused 8 no move`, over and over until no loader
moves, and the file is trimmed. Printed are the bytes of the records, the bytes of the file before
and after, and how many moves there were and how long a tighten took.
"""
import os
import random
import sys
import tempfile
import time

sys.path.insert(0, os.path.join(os.path.dirname(os.path.abspath(__file__)), "..", "tests"))
import harness

FULL = (b"--top", b"8", b"--roots", b"256", b"--slots", b"65536")


def run(program, words, lines=()):
    """The lines of output, and the seconds that the run took."""
    begin = time.monotonic()
    out, _, _ = harness.run(program, words, lines, seconds=None)
    return out, time.monotonic() - begin


def moved(program, path, loaders):
    """Tightens each loader once: those that moved, and the seconds that it took."""
    replies, took = run(program, ["apply", path], [b"tighten l%d" % one for one in loaders])
    return [one for one, reply in zip(loaders, replies) if reply.startswith(b"ok")], took


def main(program, classes=20_000, loaders=200, folder=None):
    classes, loaders = int(classes), int(loaders)
    draw = random.Random(7)
    with tempfile.TemporaryDirectory(dir=folder or os.path.dirname(program)) as work:
        path = os.path.join(work, "cache")
        run(program, ["format", path, *FULL])
        lines = [b"loader l%d" % one for one in range(loaders)]
        for one in range(classes):
            zeros = min(40_000, int(draw.expovariate(1 / 2500)))
            lines.append(harness.define(b"l%d" % (one % loaders),
                                        harness.padded(b"C%d" % one, zeros)))
        replies, _ = run(program, ["apply", path], lines)
        stored = sum(reply.startswith(b"ok") for reply in replies)
        listed, _ = run(program, ["list", path])
        records = 8 * sum(int(line.split()[3]) for line in listed if line.startswith(b"class"))
        before = os.path.getsize(path)
        left, moves, took, asked = list(range(loaders)), 0, 0.0, 0
        while left:
            asked += len(left)
            left, seconds = moved(program, path, left)
            moves += len(left)
            took += seconds
        trimmed, _ = run(program, ["trim", path])
        after = os.path.getsize(path)
        print(f"{stored} commands stored, records of {records} bytes")
        print(f"file before {before} bytes ({before / records:.3f} of the records), "
              f"after {after} ({after / records:.3f}), {trimmed[0].decode()}")
        print(f"{moves} moves among {asked} tightens, {1e6 * took / asked:.0f} us each "
              "with opening the file")


if __name__ == "__main__":
    if len(sys.argv) < 2:
        sys.exit(__doc__)
    main(*sys.argv[1:])
