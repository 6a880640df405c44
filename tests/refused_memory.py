#!/usr/bin/env python3
"""Runs the program once for each allocation that it makes, with that one refused, and checks what
it prints and leaves.

    tests/refused_memory.py PROGRAM REFUSALS WORD.. <SCRIPT

The words are the program's; FILE among them is a file: for `format` one that doesn't exist, for a
script one with an empty cache, and for `check`, `list` and a script without lines, which only opens
it, one with classes. Each run has to end, and its replies have to be true: the reply to a line is
the usual one, or `refused 9 memory` if nothing else refuses it, or, for a cache in memory,
`unsure N` as the last reply (a disk in memory that can't grow is a device that failed); there are
fewer replies than lines only with status 3. A file holds what was acknowledged then, or that and
the next command; one that `format` didn't make doesn't exist, and one that is only read has its
bytes. `threads`, of cm_bench_files, makes a file and has one thread make a loader there and define
a class, on a cache that is started for threads: it ends with status 3 if that can't be started
(2 if its words can't be read), and the file, once it is made, holds a beginning of the two
commands, including all that it reports as stored.
REFUSALS is the expected number of runs with a refusal, or `any` if it depends on the C library; the
first without one ends the sweep.
"""
import os
import sys

import harness
import oracle
import region
import runs

MOST = 2000


def is_true(lines, replies, status, cache, has_file):
    """Whether these are replies to the lines, in order; the cache is left as they say."""
    worst = 0
    for at, reply in enumerate(replies):
        if at >= len(lines):
            return False
        tried = cache.copy()
        due = tried.answer(lines[at])
        if reply == due:
            cache.answer(lines[at])
            worst = max(worst, oracle.status_of([due]))
        elif tried.number == cache.number:
            return False
        elif reply == b"refused 9 memory":
            worst = 1
        elif reply == b"unsure %d" % tried.number and not has_file:
            return at == len(replies) - 1 and status == 3
        else:
            return False
    return status == (worst if len(replies) == len(lines) else 3)


def held_cache():
    """A cache with classes in two loaders, and one that was unloaded. What it left lies before the
    chunk of another, whose class moves there."""
    classes = (b"old", b"A"), (b"web", b"B"), (b"web", b"A"), (b"app", b"A")
    cache, _ = oracle.answers([b"loader web", b"loader app", b"loader old",
                               *(runs.define(loader, name, 8) for loader, name in classes),
                               b"unload old", b"tighten app"])
    return cache


def stream_of_threads():
    """The class that `threads` defines, as it is given."""
    return harness.stream_of([harness.padded(b"A", 0)])


def states_of_threads():
    """What a file holds after none, one and both commands of `threads`."""
    cache, _ = oracle.answers([b"loader t0", runs.define(b"t0", b"A", 0)])
    return [region.state_of(loaders) for loaders in cache.states]


class Sweep:
    def __init__(self, program, words, lines, folder):
        self.program = program
        self.library = harness.library("allocations")
        self.path = f"{folder}/cache" if "FILE" in words else None
        self.words = [self.path if word == "FILE" else word for word in words]
        self.lines = lines
        self.counts = f"{folder}/counts"
        self.states = states_of_threads()
        self.is_made = False
        self.checks = harness.Checks()
        # Whether the file is only read.
        self.makes = words[0] in ("format", "threads")
        self.looks = words[0] in ("check", "list") or not self.makes and not lines
        self.begins = bytes(region.file_of(held_cache() if self.looks else oracle.Cache()).bytes)

    def run(self, refuse):
        """The result of the run with that allocation refused, and whether there was one."""
        if self.path:
            harness.remove(self.path)
        if self.path and not self.makes:
            harness.write(self.path, self.begins)
        env = {"LD_PRELOAD": self.library, "ALLOCATIONS": self.counts, "REFUSE": str(refuse)}
        ran = harness.run(self.program, self.words, self.lines, env)
        return ran, harness.refusals(self.counts) > 0

    def check_script(self, name, ran):
        replies, status, _ = ran
        # A program that can't make or open its cache says so, and runs nothing.
        if replies in ([b"memory"], [b"device"]) and status == 3:
            replies = []
        cache = oracle.Cache()
        self.checks.check(f"{name}: the replies",
                          is_true(self.lines, replies, status, cache, self.path), f"{ran}")
        if self.path:
            line = self.lines[len(replies)] if len(replies) < len(self.lines) else None
            runs.settle(self.checks, f"{name}: the file", self.path, cache, line)

    def check_format(self, name, ran):
        if ran == ([b"ok"], 0, ""):
            good = runs.state_in(self.path) == ({}, 0)
        else:
            good = ran[0] in ([], [b"memory"]) and ran[1] == 3 and not os.path.exists(self.path)
        self.checks.check(name, good, f"{ran}")

    def check_threads(self, name, ran):
        replies, status, errors = ran
        stored = [b"stored %d handed %d committed %d of_passes %d missing 0" % (n, n, n, n)
                  for n in range(3)]
        ends = status == 0 and not errors and len(replies) == 1 and replies[0] in stored
        good = ends or (status in (2, 3) and errors and not replies)
        self.checks.check(name, good, f"{ran}")
        held = runs.state_in(self.path) if os.path.exists(self.path) else (None, None)
        if ends:
            count = stored.index(replies[0])
            good = held == (self.states[count], count)
        else:
            # A cache is made before it is opened, so those refused later find it.
            is_cache = held[1] is not None
            good = held == (self.states[held[1]], held[1]) if is_cache else not self.is_made
            self.is_made = self.is_made or is_cache
        self.checks.check(f"{name}: the file", good, f"{held!s:.200}")

    def check_look(self, name, ran):
        """Everything is printed, or its beginning with status 3; the file has its bytes."""
        file = region.File(self.begins)
        due = {"check": [file.report().encode()], "list": [*file.listed()]}.get(self.words[0], [])
        replies, status, errors = ran
        cut = (status == 3 and (errors or replies == [b"memory"])
               and (replies == [b"memory"] or replies == due[:len(replies)]))
        self.checks.check(name, ran == (due, 0, "") or cut, f"{ran}")
        self.checks.check(f"{name}: the file", harness.read(self.path) == self.begins)

    def sweep(self, wanted):
        for refuse in range(1, MOST):
            ran, has_met = self.run(refuse)
            name = f"{self.words[0]}, allocation {refuse} refused"
            # Neither input nor output failed.
            self.checks.check(f"{name}: its fault", "put failed" not in ran[2], f"{ran}")
            if self.words[0] == "format":
                self.check_format(name, ran)
            elif self.words[0] == "threads":
                self.check_threads(name, ran)
            elif self.looks:
                self.check_look(name, ran)
            else:
                self.check_script(name, ran)
            if not has_met:
                break
        met = refuse - 1
        self.checks.check("the number of refusals", met == int(wanted) if wanted != "any" else met,
                          f"{met} were met, and not {wanted}")
        return self.checks.finish()


def main(program, wanted, *words):
    with harness.new_folder() as folder:
        lines = (stream_of_threads() if words[0] == "threads"
                 else oracle.lines_of(sys.stdin.buffer.read()))
        return Sweep(program, words, lines, folder).sweep(wanted)


if __name__ == "__main__":
    sys.exit(main(*sys.argv[1:]))
