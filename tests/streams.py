#!/usr/bin/env python3
"""Runs scripts whose input fails, or that are longer than what is read at once.

    tests/streams.py PROGRAM

The input is a connection that is reset once all replies so far were read. The run then ends with
status 3 and says that the input failed; the lines that came before have had their replies, and the
file holds what they acknowledged. With workers, many short lines are taken apart at once: each has
its own reply, in order.
"""
import socket
import struct
import subprocess
import sys

import harness
import oracle
import runs

A = harness.class_a()
LINES = [b"loader app", harness.define(b"app", A), b"find app A"]
GEOMETRY = oracle.Geometry(top=3, roots=3, slots=256)
# Lines of 10 bytes each: more than 256 KiB of them.
MANY = 30_000


def connected():
    """Two ends of a connection."""
    with socket.create_server(("127.0.0.1", 0)) as server:
        near = socket.create_connection(server.getsockname())
        far, _ = server.accept()
    return near, far


def reset(end):
    """Ends a connection so that the next read at its other end fails."""
    end.setsockopt(socket.SOL_SOCKET, socket.SO_LINGER, struct.pack("ii", 1, 0))
    end.close()


def run_until_reset(words, lines):
    """Runs a program on lines from a connection, and resets that after the last reply: the replies,
    whatever follows them, the status and the standard error."""
    near, far = connected()
    with far, subprocess.Popen(words, stdin=far, stdout=subprocess.PIPE,
                               stderr=subprocess.PIPE) as process:
        near.sendall(harness.text_of(lines))
        replies = [process.stdout.readline().rstrip(b"\n") for _ in lines]
        reset(near)
        rest, errors = process.communicate(timeout=harness.TIME_LIMIT)
    return replies, rest, process.returncode, errors.decode()


def input_fails(checks, program, path, workers):
    """An input that fails after a few lines, some of them in the file."""
    harness.run(program, runs.format_words(path, GEOMETRY))
    cache = oracle.Cache(GEOMETRY)
    replies, _ = runs.answers(cache, LINES)
    for words in (["--memory"], [path]):
        told = run_until_reset([program, "apply", *words, "--workers", workers], LINES)
        wanted = (replies, b"", 3, "cmcache: the input failed\n")
        checks.check(f"an input that fails, {words[0]}, {workers} workers", told == wanted, told)
    runs.settle(checks, f"the file of an input that failed, {workers} workers", path, cache, None)


def many_lines(checks, program, workers):
    """Lines of which each asks for another class, in one piece."""
    lines = LINES + [b"find a %04x" % (number % 7_919) for number in range(MANY)]
    told = harness.run(program, ["apply", "--memory", "--workers", workers], lines)
    replies, status = runs.answers(oracle.Cache(oracle.Geometry()), lines)
    checks.check(f"{len(lines)} lines, {workers} workers", told == (replies, status, ""),
                 f"{told!s:.200}")


def main(program):
    checks = harness.Checks()
    with harness.new_folder() as folder:
        for workers in ("1", "2", "16"):
            input_fails(checks, program, f"{folder}/cache-{workers}", workers)
            many_lines(checks, program, workers)
    return checks.finish()


if __name__ == "__main__":
    sys.exit(main(sys.argv[1]))
