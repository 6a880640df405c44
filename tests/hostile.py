#!/usr/bin/env python3
"""Hostile use, with each expected word written by hand: devices that fail at each call, crashes
before and inside each call, files with one byte changed, and class files that are cut or refer to
nothing.

    tests/hostile.py CMCACHE CM_SIMULATE STEP

Every STEPth loader of the long script is stopped. What a crash may leave isn't computed here: an
opening has to give some beginning of the commands, no shorter than what was acknowledged, and the
classes that these commands make.
"""
import itertools
import os
import subprocess
import sys

import check
import harness
from harness import define, loader

A = harness.class_a()
USUAL = b"geometry 8 64 4096"
ONE_ROOT = b"geometry 3 1 256"


def simulate(program, lines):
    return harness.simulated(program, harness.text_of(lines))


# ---- a device that fails

# A loader and a class in it, each stored by itself: ten device calls. For each call the bytes that
# a failing write stores, and what is there when the file is opened again.
FAILS = [
    (1, (0, 1, 64, 1 << 40), 0), (2, (0, 1, 64, 1 << 40), 0),
    (3, (0,), 0), (3, (1,), 1),
    (4, (0, 1, 64, 1 << 40), 1),
    (5, (0, 1, 64, 1 << 40), 1), (6, (0, 1, 64, 1 << 40), 1), (7, (0, 1, 64, 1 << 40), 1),
    (8, (0, 1, 64, 1 << 40), 1),
    (9, (0,), 1), (9, (1,), 2),
    (10, (0, 1, 64, 1 << 40), 2),
]


def check_failing_device(checks, run):
    for call, stores, number in FAILS:
        for stored in stores:
            lines = [USUAL, loader(b"a"), b"seal"]
            want = ["number 1", "group 1 1"]
            for at in range(1, call + 1):
                if at == 5:
                    lines += [define(b"a", A), b"seal"]
                    want += ["number 2", "group 2 2"]
                if at == call:
                    lines.append(b"fault %d" % stored)
                    want.append("armed")
                lines.append(b"advance")
                want.append("device" if at == call else "done 1" if at == 4 else "working")
            acknowledged = 1 if call > 4 else 0
            found = "class 16" if call > 4 else "none"
            lines += [b"advance", b"advance", b"learn", loader(b"b"), b"look a A", b"reopen",
                      loader(b"a"), b"look a A"]
            want += ["broken", "broken", f"learnt {acknowledged}", "refused 10", found,
                     f"opened {number}", "number 1" if number == 0 else "refused 2",
                     "class 16" if number == 2 else "none"]
            got = run(lines)
            checks.check(f"call {call} fails after {stored} bytes", got == (want, 0, ""), got)


def check_lazy_worlds(checks, simulator):
    """A world that gives the same reply to each device call passes no row of that table."""
    for reply in "working", "idle":
        def lazy(lines, reply=reply):
            replies, status, told = simulate(simulator, lines)
            # The first line is the geometry, to which there is no reply.
            replies = [reply if line == b"advance" else due
                       for line, due in zip(lines[1:], replies)]
            return replies, status, told

        quiet = harness.Checks(shown=0)
        check_failing_device(quiet, lazy)
        checks.check(f"a world that only ever replies {reply}", quiet.passed == 0, quiet.passed)


# ---- crashes at each device call

class Script:
    """Commands that are handed out at once or one by one, each with the classes that are there
    after it; and how many device calls they take."""

    def __init__(self, name, geometry, events, states, calls, look):
        self.name = name
        self.geometry = geometry
        # Lines, with None for a device call.
        self.events = events
        self.states = states
        self.calls = calls
        self.look = look


def one_by_one(commands, calls):
    """Each command is stored by itself and learnt."""
    events = []
    for command, count in zip(commands, calls):
        events += [command, b"seal"] + [None] * count + [b"learn"]
    return events


P = harness.padded
FILL = 1 << 18  # no less than a root of the usual size and a group
FILLS = {
    "nothing": b"",
    "FF": b"\xff" * FILL,
    "A5": b"\xa5" * FILL,
    "A5 and 00": b"\xa5\x00" * (FILL // 2),
}


def scripts():
    whole = P(b"A", 8032)
    yield Script(
        "one root, a loader that goes and another's class", ONE_ROOT,
        [loader(b"a"), define(b"a", whole), loader(b"b"), b"unload a", define(b"b", P(b"B", 0)),
         b"seal"] + [None] * 6 + [b"learn", define(b"b", P(b"B", 0)), b"seal"] + [None] * 5
        + [b"learn"],
        [{}, {"a": {}}, {"a": {"A": 1024}}, {"a": {"A": 1024}, "b": {}}, {"b": {}},
         {"b": {"B": 20}}],
        11, [("a", "A"), ("b", "B")])
    yield Script(
        "a loader that is made again", USUAL,
        one_by_one([loader(b"a"), define(b"a", A), b"unload a", loader(b"a"),
                    define(b"a", P(b"A", 0))], [4, 6, 4, 4, 5]),
        [{}, {"a": {}}, {"a": {"A": 16}}, {}, {"a": {}}, {"a": {"A": 20}}],
        23, [("a", "A")])
    yield Script(
        "a loader's tail that moves", USUAL,
        one_by_one([loader(b"a"), define(b"a", P(b"A", 0)), define(b"a", P(b"B", 864)),
                    b"tighten a"], [4, 6, 5, 5]) + [b"tighten a"],
        [{}, {"a": {}}, {"a": {"A": 20}}, {"a": {"A": 20, "B": 128}},
         {"a": {"A": 20, "B": 128}}],
        20, [("a", "A"), ("a", "B")])
    yield Script(
        "two loaders that go at once", USUAL,
        one_by_one([loader(b"a"), loader(b"b"), define(b"a", A), define(b"b", A),
                    b"unloadall b a"], [4, 4, 6, 5, 4]),
        [{}, {"a": {}}, {"a": {}, "b": {}}, {"a": {"A": 16}, "b": {}},
         {"a": {"A": 16}, "b": {"A": 16}}, {}],
        23, [("a", "A"), ("b", "A")])
    long, longest = "m" * 49, "n" * 96
    yield Script(
        "names that take two slots", USUAL,
        one_by_one([loader(long.encode()), define(long.encode(), A), loader(longest.encode()),
                    b"unload " + long.encode()], [4, 6, 4, 4]),
        [{}, {long: {}}, {long: {"A": 16}}, {long: {"A": 16}, longest: {}}, {longest: {}}],
        18, [(long, "A"), (longest, "A")])
    yield Script(
        "a trim", USUAL,
        one_by_one([loader(b"a"), define(b"a", A), b"unload a"], [4, 6, 4]) + [b"trim", None, None]
        + one_by_one([loader(b"b"), define(b"b", A)], [4, 6]),
        [{}, {"a": {}}, {"a": {"A": 16}}, {}, {"b": {}}, {"b": {"A": 16}}],
        26, [("a", "A"), ("b", "A")])


def full_half():
    """128 loaders, one a group: the last one comes after a checkpoint."""
    names = [b"l%d" % number for number in range(128)]
    states = [{name.decode(): {} for name in names[:count]} for count in range(129)]
    return Script("a full half", b"geometry 3 2 256",
                  one_by_one([loader(name) for name in names], [4] * 127 + [10]),
                  states, 127 * 4 + 10, [])


def answer_of(state, name, class_name):
    words = state.get(name, {}).get(class_name)
    return "none" if words is None else f"class {words}"


def stopped(script, call, fails):
    """The events up to a device call, made or failing; and the numbers of the last command that
    is acknowledged and that is handed out by then."""
    lines, made = [script.geometry], 0
    for event in script.events:
        if made == call and fails is None:
            break
        if event is None:
            made += 1
            if made == call and fails is not None:
                lines += [b"fault %d" % fails, b"advance"]
                break
            lines.append(b"advance")
        else:
            lines.append(event)
    return lines


def check_crash(checks, simulator, script, call, fails, fill, length):
    lines = stopped(script, call, fails)
    before = len(lines) - 1
    lines.append(b"crash %d %s" % (length, fill.hex().encode() or b"-"))
    lines += [b"look %s %s" % (name.encode(), found.encode()) for name, found in script.look]
    names = sorted({name for state in script.states for name in state})[:4]
    lines += [b"loader " + name.encode() for name in names]
    got, status, errors = simulate(simulator, lines)
    what = f"{script.name}, call {call}, {fails} stored, {length}"
    if not checks.check(what, status == 0 and not errors and len(got) == len(lines) - 1,
                        f"status {status}, {errors}, {len(got)} replies"):
        return
    acknowledged = max([int(reply.split()[1]) for reply in got[:before]
                        if reply.startswith("done")], default=0)
    handed = max([int(reply.split()[2]) for reply in got[:before] if reply.startswith("group")],
                 default=0)
    word, number = got[before].split()
    number = int(number) if word == "opened" else -1
    if not checks.check(f"{what}: a beginning", acknowledged <= number <= handed, got[before]):
        return
    state = script.states[number]
    want = [answer_of(state, *look) for look in script.look]
    there = set(state)
    count = number
    for name in names:
        if name in there:
            want.append("refused 2")
        else:
            count += 1
            want.append(f"number {count}")
    checks.check(f"{what}: what is there", got[before + 1:] == want, f"{got[before:]}, not {want}")


def check_crashes(checks, simulator, step):
    lengths = 0, 1 << 40
    for script in scripts():
        for call in range(script.calls + 1):
            for fails in (None,) if call == 0 else (None, 0, 1, 70):
                for fill, length in itertools.product(FILLS.values(), lengths):
                    check_crash(checks, simulator, script, call, fails, fill, length)
    script = full_half()
    few = [fill[:20000] for fill in FILLS.values()]
    calls = [call for call in range(1, 127 * 4 + 1) if (call - 1) // 4 % step == 0]
    for call in calls + list(range(127 * 4 + 1, script.calls + 1)):
        for fails in (None, 1):
            for fill, length in itertools.product(few, lengths):
                check_crash(checks, simulator, script, call, fails, fill, length)


# ---- a file with one byte changed

SCRIPT = [loader(b"a"), define(b"a", A), define(b"a", P(b"B", 0))]
HALF = 4096


def at_slot(slot, byte):
    return HALF + 64 * slot + byte


# What is changed in the file of the script (or where it is cut), and the output of each command.
CHANGES = [
    ((0, b"\x00"), "not a cache"),
    ((4095, b"\x00"), "not a cache"),
    ((8, b"\x07"), "damaged 1 0"),
    ((30, b"\x01"), "damaged 1 0"),
    (4096, "damaged 2 0"),
    (528383, "damaged 2 0"),
    ((HALF, b"\x00"), "damaged 3 0"),
    ((at_slot(0, 1), b"\x02"), "damaged 4 0"),
    ((at_slot(1, 2), b"\x00\x00"), "damaged 4 1"),
    ((at_slot(2, 1), b"\x1f"), "damaged 5 2"),
    ((at_slot(4, 8), b"\x02"), "damaged 6 4"),
    (528384, "damaged 7 4"),
    (790527, "damaged 7 4"),
    ((at_slot(6, 28), b"\x0f"), "damaged 7 6"),
    ((528384 + 8 * 9, b"\x02"), "damaged 8 4"),
    (4095, "not a cache"),
]


def new_file(program, path, lines):
    harness.run(program, ["format", path])
    got = harness.run(program, ["apply", path], lines)
    return got, harness.read(path)


def check_changed_files(checks, program, folder):
    path = os.path.join(folder, "whole")
    got, whole = new_file(program, path, SCRIPT)
    checks.check("the script", got == ([b"ok 1", b"ok 2 A", b"ok 3 B"], 0, ""), got)
    changed = os.path.join(folder, "changed")
    for change, line in CHANGES:
        data = bytearray(whole)
        if isinstance(change, int):
            del data[change:]
        else:
            at, new = change
            data[at:at + len(new)] = new
        for command in "check", "list", "apply", "trim":
            harness.write(changed, data)
            got = harness.run(program, [command, changed], [loader(b"x")] * (command == "apply"))
            checks.check(f"{command} of a file with {change!r:.60}",
                         got == ([line.encode()], 1, "") and harness.read(changed) == data, got)


# ---- files that no short script leaves

def check_whole_file(checks, program, folder):
    """Half 1 counts, half 0 counted before it; three live rows, two groups, an unload and a move;
    two of the loaders have names that take two slots."""
    path = os.path.join(folder, "halves")
    harness.write(path, check.whole_file())
    got = harness.run(program, ["list", path])
    checks.check("a list of half 1", got == (
        [b"loader a", b"class A words 16 root 0 at 256", b"class B words 16 root 0 at 272",
         b"loader b", b"class A words 16 root 0 at 128", loader(b"m" * 49), loader(b"n" * 96)], 0,
        ""), got)
    got = harness.run(program, ["apply", path],
                   [b"find a B", loader(b"c"), define(b"c", A), b"unload b", b"tighten a"])
    checks.check("half 1 is used further", got == (
        [b"class B flags 0021 super java/lang/Object words 16", b"ok 14", b"ok 15 A", b"ok 16",
         b"ok 17"], 0, ""), got)
    # Both records of `a` fit into one block, and what `b` left is free.
    got = harness.run(program, ["list", path])
    checks.check("what it holds then", got == (
        [b"loader a", b"class A words 16 root 0 at 128", b"class B words 16 root 0 at 144",
         b"loader c", b"class A words 16 root 0 at 0", loader(b"m" * 49), loader(b"n" * 96)], 0,
        ""), got)


def check_odd_files(checks, program, folder):
    path = os.path.join(folder, "odd")
    _, whole = new_file(program, path, SCRIPT)
    nameless = bytearray(whole)
    nameless[at_slot(2, 2)] = nameless[at_slot(2, 16)] = 0
    harness.write(path, nameless)
    got = harness.run(program, ["check", path])
    checks.check("a loader's name of no bytes", got == ([b"damaged 6 2"], 1, ""), got)

    # What stands after the last root that the sizes allow is ignored, whole roots too.
    harness.run(program, ["format", path + "1", "--top", "3", "--roots", "1", "--slots", "256"])
    harness.run(program, ["apply", path + "1"], [loader(b"a"), define(b"a", A)])
    with open(path + "1", "ab") as file:
        file.write(b"\xa5" * 20000)
    got = harness.run(program, ["check", path + "1"])
    checks.check("bytes after the last root",
                 got == ([b"ok loaders 1 classes 1 chunks 1 number 2"], 0, ""), got)
    got = harness.run(program, ["apply", path + "1"], [b"find a A", define(b"a", P(b"B", 8032))])
    checks.check("they are no root", got == (
        [b"class A flags 0021 super java/lang/Object words 16", b"refused 6 region full"], 1, ""),
                 got)


# ---- a file that can't be read whole

def check_failing_reads(checks, program, folder):
    """Each read of the file fails in turn: it is the device's fault, and nothing takes the place of
    what wasn't read."""
    path, library = os.path.join(folder, "unread"), harness.library("calls")
    _, whole = new_file(program, path, SCRIPT)
    for command, line in (("check", b"ok loaders 1 classes 2 chunks 1 number 3"),
                          ("list", b"loader a"), ("apply", b"none"), ("trim", b"roots 1")):
        for failing in itertools.count(1):
            got = harness.run(program, [command, path], [b"find a C"] * (command == "apply"),
                           env={"LD_PRELOAD": library, "READ": str(failing)})
            same = harness.read(path) == whole
            if got[:2] != ([b"device"], 3) or not same or failing > 1000:
                break
        checks.check(f"{command} with a read that fails",
                     got[0][:1] == [line] and got[1:] == (0, "") and same and failing > 2,
                     f"read {failing}: {got}")


# ---- class files that are cut, or refer to nothing

def with_index(at, number):
    return A[:at] + number.to_bytes(2, "big") + A[at + 2:]


BAD_CLASSES = (
    [(A[:length], "truncated") for length in range(1, 53)]
    + [(with_index(11, number), "V2 pool 1") for number in (0, 1, 0xffff)]
    + [(with_index(18, number), "V2 pool 3") for number in (0, 3, 0xffff)]
    + [(with_index(41, number), "V2 this") for number in (0, 0xffff)]
    + [(with_index(43, 0xffff), "V2 super")]
    + [(P(b"A", 0)[:-4] + b"\xff" * 4, "truncated")]
)


def check_bad_classes(checks, program):
    lines = [loader(b"app")] + [define(b"app", data) for data, _ in BAD_CLASSES]
    want = [b"ok 1"] + [b"refused 14 " + text.encode() for _, text in BAD_CLASSES]
    got = harness.run(program, ["apply", "--memory"], lines)
    checks.check("classes that are cut or lead nowhere", got == (want, 1, ""),
                 [pair for pair in zip(got[0], want) if pair[0] != pair[1]][:3])


# ---- worked examples, through the program

LONG_NAME = b"a" * 65535


def with_long_utf8():
    """Class A with one more Utf8, of 65,535 bytes."""
    return A[:8] + b"\x00\x06" + A[10:39] + b"\x01\xff\xff" + LONG_NAME + A[39:]


def check_examples(checks, program, folder):
    path = os.path.join(folder, "long")
    got, _ = new_file(program, path, [loader(b"a"), define(b"a", with_long_utf8()), loader(b"b"),
                                      define(b"b", A)])
    checks.check("a Utf8 of 65,535 bytes", got == ([b"ok 1", b"ok 2 A", b"ok 3", b"ok 4 A"], 0, ""),
                 got)
    got = harness.run(program, ["list", path])
    # 8,209 words need a chunk of order 7, which has 16,384.
    checks.check("its place", got == ([b"loader a", b"class A words 8209 root 0 at 0", b"loader b",
                                       b"class A words 16 root 0 at 16384"], 0, ""), got)

    path = os.path.join(folder, "two")
    got, _ = new_file(program, path, [loader(b"a"), loader(b"b"), define(b"a", A), define(b"b", A),
                                      define(b"a", A)])
    checks.check("two loaders", got == ([b"ok 1", b"ok 2", b"ok 3 A", b"ok 4 A",
                                         b"refused 4 class exists"], 1, ""), got)
    got = harness.run(program, ["list", path])
    checks.check("their list", got == ([b"loader a", b"class A words 16 root 0 at 0", b"loader b",
                                        b"class A words 16 root 0 at 128"], 0, ""), got)
    got = harness.run(program, ["check", path])
    checks.check("their check", got == ([b"ok loaders 2 classes 2 chunks 2 number 4"], 0, ""), got)

    got = harness.run(program, ["apply", "--memory"],
                   [loader(b"a"), define(b"a", A), b"unload a", loader(b"a"),
                    define(b"a", P(b"A", 0)), b"find a A"])
    checks.check("a loader made again",
                 got == ([b"ok 1", b"ok 2 A", b"ok 3", b"ok 4", b"ok 5 A",
                          b"class A flags 0021 super java/lang/Object words 20"], 0, ""), got)

    path = os.path.join(folder, "tight")
    got, _ = new_file(program, path, [loader(b"a"), define(b"a", P(b"A", 0)),
                                      define(b"a", P(b"B", 864)), b"tighten a", b"tighten a"])
    checks.check("a tail that moves", got == ([b"ok 1", b"ok 2 A", b"ok 3 B", b"ok 4",
                                               b"refused 8 no move"], 1, ""), got)
    got = harness.run(program, ["list", path])
    checks.check("where it lies", got == ([b"loader a", b"class A words 20 root 0 at 0",
                                           b"class B words 128 root 0 at 128"], 0, ""), got)

    path = os.path.join(folder, "several")
    lines = [loader(b"a"), loader(b"b"), define(b"a", A), define(b"b", A), b"unloadall a c",
             b"unloadall a a", b"unloadall b a", b"find a A"]
    wanted = [b"ok 1", b"ok 2", b"ok 3 A", b"ok 4 A", b"refused 3 no loader", b"refused 16 list",
              b"ok 5", b"none"]
    got, data = new_file(program, path, lines)
    checks.check("loaders that go at once", got == (wanted, 1, ""), got)
    # The fifth group's one entry is in slot 10 of half 0.
    entry = bytes.fromhex("0015020000000000" "0200000000000000" "0100000000000000").ljust(64, b"\0")
    checks.check("their entry", data[4096 + 640:4096 + 704] == entry, data[4096 + 640:4096 + 704])
    path = os.path.join(folder, "by_two")
    harness.run(program, ["format", path])
    got = harness.run(program, ["apply", path, "--workers", "2"], lines)
    checks.check("by two workers", got == (wanted, 1, "") and harness.read(path) == data, got)

    path = os.path.join(folder, "sizes")
    harness.run(program, ["format", path])
    sizes = [os.path.getsize(path)]
    harness.run(program, ["apply", path], [loader(b"a"), define(b"a", A)])
    sizes.append(os.path.getsize(path))
    harness.run(program, ["apply", path], [b"unload a"])
    got = harness.run(program, ["trim", path])
    sizes.append(os.path.getsize(path))
    checks.check("sizes of a file", sizes == [528384, 790528, 528384], sizes)
    checks.check("a trim", got == ([b"roots 0"], 0, ""), got)


# ---- many commands, and large records

def check_many(checks, program, simulator, folder):
    path = os.path.join(folder, "many")
    names = [b"l%d" % number for number in range(1, 1501)]
    got, _ = new_file(program, path, [loader(name) for name in names])
    checks.check("1,500 loaders", got == ([b"ok %d" % number for number in range(1, 1501)], 0, ""))
    got = harness.run(program, ["check", path])
    checks.check("their check",
                 got == ([b"ok loaders 1500 classes 0 chunks 0 number 1500"], 0, ""), got)
    got = harness.run(program, ["apply", path], [loader(b"l1"), loader(b"next")])
    checks.check("they are opened", got == ([b"refused 2 loader exists", b"ok 1501"], 1, ""), got)

    turns = [loader(b"a"), b"unload a"] * 1000
    got = simulate(simulator, [b"geometry 3 1 256", *turns])
    checks.check("2,000 events",
                 got == ([f"number {number}" for number in range(1, 2001)], 0, ""), got[0][-3:])


def check_large(checks, program, simulator, folder):
    path = os.path.join(folder, "large")
    harness.run(program, ["format", path, "--top", "12"])
    got = harness.run(program, ["apply", path],
                   [loader(b"a"), define(b"a", P(b"A", 8 * (70000 - 20))), b"find a A"])
    checks.check("a record of 70,000 words",
                 got == ([b"ok 1", b"ok 2 A",
                          b"class A flags 0021 super java/lang/Object words 70000"], 0, ""), got)
    got = harness.run(program, ["apply", path], [b"find a A"])
    checks.check("the same, opened again",
                 got == ([b"class A flags 0021 super java/lang/Object words 70000"], 0, ""), got)
    longest = 524288
    got = simulate(simulator, [b"geometry 12 2 65536", loader(b"a"),
                               define(b"a", P(b"A", 8 * (longest - 20))), b"seal"]
                   + [b"advance"] * 6 + [b"crash 0 -", b"look a A"])
    checks.check("the longest record",
                 got == (["number 1", "number 2", "group 1 2"] + ["working"] * 5
                         + ["done 2", "opened 2", f"class {longest}"], 0, ""), got)


# ---- standard streams that are closed

def check_closed_streams(checks, program, folder):
    """Messages never go into the file, whichever of the three streams is closed."""
    for closed in range(3):
        path = os.path.join(folder, f"closed{closed}")
        new_file(program, path, SCRIPT)
        subprocess.run(["bash", "-c", f'exec {closed}>&-; exec "$0" apply "$1"', program, path],
                       input=b"find a A\nloader\nunload x\n", stdout=subprocess.DEVNULL,
                       stderr=subprocess.DEVNULL, check=False)
        got = harness.run(program, ["check", path])
        checks.check(f"stream {closed} closed",
                     got == ([b"ok loaders 1 classes 2 chunks 1 number 3"], 0, ""), got)


def main(program, simulator, step):
    checks = harness.Checks()
    check_failing_device(checks, lambda lines: simulate(simulator, lines))
    check_lazy_worlds(checks, simulator)
    check_crashes(checks, simulator, step)
    check_bad_classes(checks, program)
    with harness.new_folder() as folder:
        check_changed_files(checks, program, folder)
        check_whole_file(checks, program, folder)
        check_odd_files(checks, program, folder)
        check_failing_reads(checks, program, folder)
        check_examples(checks, program, folder)
        check_many(checks, program, simulator, folder)
        check_large(checks, program, simulator, folder)
        check_closed_streams(checks, program, folder)
    return checks.finish()


if __name__ == "__main__":
    sys.exit(main(*sys.argv[1:3], int(sys.argv[3])))
