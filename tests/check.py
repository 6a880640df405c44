#!/usr/bin/env python3
"""Compares the files that `cmcache apply FILE` makes with those of region.py, and what
`check FILE` and `list FILE` say of many small files, sound and damaged, with what they have to say.

    check.py PROGRAM COUNT SEED

Each of a few scripts gets the replies of oracle.py and leaves the bytes of region.py: so each
record lies where the model has it. The files that are checked and listed are those of region.py; of
each damaged one some bytes were changed at places drawn by the seed, most of them in its slots, its
superblock and its records. Then comes a file that has an entry of each kind, and each byte of it
that is in use gets each of some other values in turn. The expected output is that of region.py,
which shares no code with the program.
"""
import multiprocessing
import os
import random
import struct
import sys

import harness
import oracle
import region
import runs

A, B = (harness.class_a(name).hex() for name in (b"A", b"B"))

def placed(loader, name, zeros):
    return f"define {loader} {harness.padded(name, zeros).hex()}\n"


SCRIPTS = [
    "",
    "loader a\n",
    f"loader a\nloader b\ndefine a {A}\ndefine b {A}\n",
    f"loader a\ndefine a {A}\ndefine a {B}\nunload a\nloader a\ndefine a {A}\n",
    f"loader a\nloader b\ndefine a {A}\ndefine b {A}\nloader c\nunloadall c a\ndefine b {B}\n",
    # The second class moves to a smaller chunk.
    f"loader a\ndefine a {A}\n{placed('a', b'B', 864)}tighten a\n",
    # Chunks of 1, 2 and 4 units; none of 2 is free for b, so a root is added. What a leaves is used
    # again, the first part first, and then b's last records move to the first 2 units.
    "".join([
        "loader a\n", placed("a", b"A", 0), placed("a", b"B", 864), placed("a", b"C", 1000),
        "loader b\n", placed("b", b"A", 0), placed("b", b"B", 864), "unload a\n",
        placed("b", b"C", 900), "loader c\n", placed("c", b"A", 0), "tighten b\n",
        # Both together fill a chunk.
        placed("c", b"B", 704)]),
    # Loaders of long names take two slots.
    f"loader {'m' * 49}\nloader {'n' * 48}\nloader {'n' * 96}\ndefine {'m' * 49} {A}\n",
]


SMALL = oracle.Geometry(3, 2, 256)


def new_file(script, geometry=SMALL):
    """The bytes of a file after a script."""
    lines = oracle.lines_of(script.encode())
    return region.file_of(oracle.answers(lines, geometry)[0]).bytes


def wanted(data):
    """What `check` and `list` have to say of a file, and the status of both."""
    try:
        file = region.File(bytes(data))
    except (region.NotACache, region.Damaged) as verdict:
        said = f"{verdict}\n".encode()
        return {"check": said, "list": said}, 1
    return {"check": f"{file.report()}\n".encode(),
            "list": b"".join(line + b"\n" for line in file.listed())}, 0


def damage(data, draw):
    """Changes a byte or a few, or cuts the file."""
    slots = region.SUPERBLOCK + region.SLOT * draw.choice([1, 2, 3, 4, 5, 6, 7, 8, 9])
    for _ in range(draw.choice([1, 1, 1, 2])):
        place = draw.choice([
            draw.randrange(24), 4095, region.SUPERBLOCK + draw.randrange(64),
            slots + draw.randrange(40), slots + draw.randrange(40),
            region.SUPERBLOCK + 2 * region.SLOT * 256 + draw.randrange(200),
        ])
        if place < len(data):
            data[place] = draw.choice(
                [0, 1, 2, 3, 5, 0x11, 0x12, 0x13, 0xA4, 0xA5, 0xFF, draw.randrange(256)])
    if draw.randrange(10) == 0:
        del data[draw.randrange(len(data)):]


def made(checks, program, path):
    """The program replies to the scripts and makes their files as the model does."""
    for number, script in enumerate(SCRIPTS):
        lines = oracle.lines_of(script.encode())
        cache, replies = oracle.answers(lines, SMALL)
        harness.remove(path)
        harness.run(program, runs.format_words(path, SMALL))
        ran = harness.run(program, ["apply", path], lines)
        checks.check(f"the replies to script {number}",
                     ran == (replies, oracle.status_of(replies), ""), f"{ran}, wanted {replies}")
        checks.check(f"the file after script {number}",
                     harness.read(path) == region.file_of(cache).bytes)


# ---- each byte in turn

HALVES = region.SUPERBLOCK, region.SUPERBLOCK + 256 * region.SLOT
ROOTS = region.SUPERBLOCK + 2 * 256 * region.SLOT
VALUES = 0x00, 0x01, 0x02, 0x11, 0x7F, 0x80, 0xA4, 0xA5, 0xFE, 0xFF


# Names that take two slots.
LONG, LONGEST = b"m" * 49, b"n" * 96


def whole_file():
    """A file with an entry of each kind. Half 1 counts, in which two loaders and a class are live;
    half 0 counted before it."""
    one, two = (oracle.prepare(bytes.fromhex(text)).words for text in (A, B))
    first, second, third = (0, 0, 0), (0, 0, 128), (0, 1, 256)
    slots = [
        region.head_slot(4, 2, 3, gate=region.OPEN),
        region.entry_slots(("loader", 1, b"a")),
        region.entry_slots(("loader", 3, LONG)),
        region.entry_slots(("define", 1, first, 0, one)),
        region.group_slot(10, 4, gate=region.OPEN),
        region.entry_slots(("loader", 4, b"b")),
        region.entry_slots(("define", 4, second, 0, one)),
        region.entry_slots(("loader", 6, b"c")),
        region.entry_slots(("unload", 6)),
        region.spelled(region.MOVE, "6xQIIIIII", 1, *first, *third),
        region.entry_slots(("loader", 9, b"d")),
        region.entry_slots(("loader", 10, b"e")),
        region.entry_slots(("unloadall", [10, 9])),
        region.entry_slots(("loader", 12, LONGEST)),
        region.group_slot(1, 13, gate=region.OPEN),
        region.entry_slots(("define", 1, third, len(one), two)),
    ]
    data = region.Region(oracle.Geometry(3, 1, 256)).bytes + bytes(8 * 1024)
    data[HALVES[1]:HALVES[1] + region.SLOT * len(slots)] = b"".join(slots)
    for at, words in ((128, one), (256, one), (256 + len(one), two)):
        data[ROOTS + 8 * at:ROOTS + 8 * (at + len(words))] = struct.pack(f"<{len(words)}Q", *words)
    return data


WHOLE = b"ok loaders 4 classes 3 chunks 2 number 13\n"

# The slots of half 1 with a loader's name that has more bytes than need each of the values.
NAME_SLOTS = 2, 3, 14, 15


def changes():
    """Places and the bytes that are to stand there: in the superblock, in both halves' heads with
    the slots after them, and in records. Of the zeros in the superblock each has one other
    value."""
    data = whole_file()
    zeros = range(32, region.SUPERBLOCK - 8)
    used = [*range(32), *range(zeros.stop, HALVES[0] + 2 * region.SLOT),
            *range(HALVES[1], HALVES[1] + 19 * region.SLOT)]
    used += [ROOTS + 8 * at + byte for begin, end in ((128, 145), (256, 289))
             for at in range(begin, end) for byte in range(8)]
    names = {HALVES[1] + region.SLOT * slot + byte for slot in NAME_SLOTS
             for byte in range(17, region.SLOT - 1)}
    for at in used:
        values = {0x00, 0x20, 0x7F} if at in names else {*VALUES, (data[at] + 1) % 256}
        for value in sorted(values - {data[at]}):
            yield at, value
    for at in zeros:
        yield at, 1


def check_changed(program, path, some):
    """Checks the file with each of some changes by itself."""
    data = whole_file()
    harness.write(path, data)
    checks = harness.Checks()
    with open(path, "r+b", buffering=0) as file:
        for at, value in some:
            was, data[at] = data[at], value
            os.pwrite(file.fileno(), bytes([value]), at)
            words, status = wanted(data)
            ran = harness.ran([program, "check", path])
            is_same = os.pread(file.fileno(), len(data) + 1, 0) == data
            checks.check(f"check with {value:#x} at {at}",
                         ran == (words["check"], status, "") and is_same,
                         f"{ran}; wanted {words['check']}")
            data[at] = was
            os.pwrite(file.fileno(), bytes([was]), at)
    os.remove(path)
    return checks


def each_byte(checks, program, folder):
    """As check_changed, for all changes, on all processors."""
    if wanted(whole_file())[0]["check"] != WHOLE:
        checks.check("the file of each kind of entry is sound", False)
        return
    count = 4 * os.cpu_count()
    every = list(changes())
    parts = [(program, os.path.join(folder, f"changed-{part}"), every[part::count])
             for part in range(count)]
    with multiprocessing.Pool() as pool:
        for part in pool.starmap(check_changed, parts, chunksize=1):
            checks.add(part)


def drawn(checks, program, path, count, seed):
    """Checks and lists this many files, most of them with some bytes changed."""
    draw = random.Random(seed)
    for number in range(count):
        data = new_file(SCRIPTS[number % len(SCRIPTS)])
        if number >= len(SCRIPTS):
            damage(data, draw)
        harness.write(path, data)
        words, status = wanted(data)
        for verb, said in words.items():
            ran = harness.ran([program, verb, path])
            checks.check(f"{verb} of file {number}, seed {seed}",
                         ran == (said, status, "") and harness.read(path) == data,
                         f"{ran}; wanted {said}, {status}")


def main(program, count, seed):
    checks = harness.Checks()
    with harness.new_folder() as folder:
        made(checks, program, os.path.join(folder, "made"))
        drawn(checks, program, os.path.join(folder, "checked"), count, seed)
        each_byte(checks, program, folder)
    return checks.finish()


if __name__ == "__main__":
    sys.exit(main(sys.argv[1], int(sys.argv[2]), int(sys.argv[3])))
