#!/usr/bin/env python3
"""Runs the program while a file can't grow: under a limit on the size of files, and on a small
tmpfs.

    tests/full.py PROGRAM FOLDER [tmpfs]

The run ends with the right `unsure` (`format` with `device`, and no file stays); once there is
room, all that was acknowledged is there, and the remaining lines run. With `tmpfs` it mounts some
below FOLDER.
"""
import contextlib
import os
import subprocess
import sys

import harness
import oracle
import region
import runs

TOO_LARGE = "File too large (os error 27)"
NO_SPACE = "No space left on device (os error 28)"
SMALL = oracle.Geometry(top=3, roots=8, slots=256)
SCRIPT = [
    b"loader app",
    b"loader " + runs.LONG_LOADERS[-1],
    runs.define(b"app", b"A", 0),
    runs.define(b"app", b"B", 3000),
    runs.define(b"app", b"C", 8000),
    b"unload app",
    b"loader app",
    runs.define(b"app", b"C", 8000),
    b"find app C",
]


def run_out(checks, name, program, path, cache, cause, limit=None):
    """Runs the script until there is no more room, and returns the remaining lines. At least one
    command is stored."""
    replies, status, told = harness.run(program, ["apply", path], SCRIPT, limit=limit)
    wanted = [cache.answer(line) for line in SCRIPT[:len(replies) - 1]]
    wanted.append(b"unsure %d" % (cache.number + 1))
    good = ((replies, status, told) == (wanted, 3, f"cmcache: {path}: {cause}\n")
            and cache.number > 0)
    checks.check(f"{name}: the replies", good, f"{replies} {status} {told}, wanted {wanted}")
    return SCRIPT[len(wanted) - 1:]


def go_on(checks, name, program, path, cache, rest):
    runs.settle(checks, f"{name}: the file", path, cache, rest[0])
    runs.look_up(checks, f"{name}: the classes", program, path, cache)
    ran, wanted = harness.run(program, ["apply", path], rest), runs.answers(cache, rest)
    checks.check(f"{name}: what is left, with room", ran == (*wanted, ""),
                 f"{ran}, wanted {wanted}")
    runs.settle(checks, f"{name}: the file after it", path, cache, None)


def under_limits(checks, program, folder):
    # The limit in KiB, with 36 before the roots, which have 8 each: no room for a root, for a part
    # of the first, and so on.
    for geometry, limit in [(SMALL, 36), (SMALL, 37), (SMALL, 44), (SMALL, 45), (SMALL, 51),
                            (oracle.Geometry(), 600)]:
        path, cache = f"{folder}/limited", oracle.Cache(geometry)
        harness.write(path, region.Region(geometry).bytes)
        name = f"files of {limit} KiB"
        rest = run_out(checks, name, program, path, cache, TOO_LARGE, limit)
        go_on(checks, name, program, path, cache, rest)
    path = f"{folder}/new"
    for limit in [0, 1, 300, 515]:
        ran = harness.run(program, ["format", path], limit=limit)
        good = (ran == ([b"device"], 3, f"cmcache: {path}: {TOO_LARGE}\n")
                and not os.path.exists(path))
        checks.check(f"format where files have {limit} KiB", good, f"{ran}")
    ran = harness.run(program, ["format", path], limit=516)
    checks.check("format where files have 516 KiB", ran == ([b"ok"], 0, ""), f"{ran}")


@contextlib.contextmanager
def mounted(folder, size):
    os.mkdir(folder)
    subprocess.run(["mount", "-t", "tmpfs", "-o", f"size={size}k", "tmpfs", folder], check=True)
    try:
        yield folder
    finally:
        subprocess.run(["umount", folder], check=True)
        os.rmdir(folder)


def on_full_disks(checks, program, folder):
    for geometry, size in [(SMALL, 36), (SMALL, 40), (SMALL, 44), (SMALL, 48),
                           (oracle.Geometry(), 600)]:
        with mounted(f"{folder}/full", size) as small:
            path, cache = f"{small}/cache", oracle.Cache(geometry)
            harness.write(path, region.Region(geometry).bytes)
            name = f"a disk of {size} KiB"
            rest = run_out(checks, name, program, path, cache, NO_SPACE)
            subprocess.run(["mount", "-o", f"remount,size={4 * size}k", small], check=True)
            go_on(checks, name, program, path, cache, rest)
    with mounted(f"{folder}/full", 300) as small:
        path = f"{small}/cache"
        ran = harness.run(program, ["format", path])
        good = (ran == ([b"device"], 3, f"cmcache: {path}: {NO_SPACE}\n")
                and not os.path.exists(path))
        checks.check("format on a full disk", good, f"{ran}")
        subprocess.run(["mount", "-o", "remount,size=600k", small], check=True)
        ran = harness.run(program, ["format", path])
        checks.check("format, with room", ran == ([b"ok"], 0, ""), f"{ran}")


def main(program, folder, *how):
    checks = harness.Checks()
    under_limits(checks, program, folder)
    if how:
        on_full_disks(checks, program, folder)
    return checks.finish()


if __name__ == "__main__":
    sys.exit(main(*sys.argv[1:]))
