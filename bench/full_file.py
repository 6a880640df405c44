#!/usr/bin/env python3
"""Measures what `cmcache check` takes for files that are full of records, up to the longest
possible one. It isn't part of CI.

    bench/full_file.py PROGRAM [RUNS] [FOLDER] [ROOTS..]

A file has the greatest sizes: roots of 4 MiB, up to 256, and 65,536 slots in each half. In each
root lie the 127 classes of one loader, one after another in one chunk, so with 256 roots 32,768
rows are live, as many as possible. The files are written from docs/REGION.md, with the records of
tests/oracle.py, and use none of the program's code. Each row has the least of RUNS runs (3), with
the file in the page cache. The files lie in FOLDER (the program's, by default) and are removed
afterwards. There is one for each of ROOTS (32, 64, 128 and 256).
"""
import os
import struct
import subprocess
import sys
import tempfile
import time

sys.path.insert(0, os.path.join(os.path.dirname(os.path.abspath(__file__)), "..", "tests"))
import oracle
import region
from harness import VERSION_52, utf8

SIZES = oracle.Geometry(12, 256, 65_536)
CLASSES = 127
WORDS = SIZES.root_words // CLASSES
METHODS = 200


def reference(tag, *numbers):
    return struct.pack(">B" + "H" * len(numbers), tag, *numbers)


def class_file(name, filling):
    """A class with as many methods, each with code, a reference to each, and an attribute of so
    many bytes."""
    texts = ([b"java/lang/Object", name, b"()V", b"Code", b"Filling"]
             + [b"method%03d" % i for i in range(METHODS)])
    base, this, descriptor, code, own = range(1, 6)
    first = len(texts) + 1
    pool = [utf8(text) for text in texts]
    pool += [reference(oracle.CLASS, base), reference(oracle.CLASS, this)]
    for method in range(METHODS):
        pool.append(reference(oracle.NAME_AND_TYPE, 6 + method, descriptor))
        pool.append(reference(oracle.METHODREF, first + 1, first + 2 + 2 * method))
    body = b"\xb8\x00\x0a" * 20 + b"\xb1"
    code_content = struct.pack(">HHI", 2, 1, len(body)) + body + bytes(4)
    methods = b"".join(
        struct.pack(">HHHHHI", 9, 6 + method, descriptor, 1, code, len(code_content)) + code_content
        for method in range(METHODS))
    return b"".join([
        VERSION_52, struct.pack(">H", len(pool) + 1), *pool,
        struct.pack(">HHHHH", 0x21, first + 1, first, 0, 0), struct.pack(">H", METHODS), methods,
        struct.pack(">HHI", 1, own, filling), bytes(filling),
    ])


def record(name):
    """The words of a class of this name, as bytes: as many as each class gets."""
    words = len(oracle.prepare(class_file(name, 0)).words)
    words = oracle.prepare(class_file(name, 8 * (WORDS - words))).words
    assert len(words) == WORDS
    return struct.pack(f"<{WORDS}Q", *words)


def slots(roots):
    """The slots of half 0: its head, the loaders, and the classes of each after all of them."""
    rows = roots * (CLASSES + 1)
    yield region.head_slot(rows, 1, roots, gate=region.OPEN)
    for root in range(roots):
        yield region.entry_slots(("loader", root + 1, b"loader%03d" % root))
    for root in range(roots):
        for place in range(CLASSES):
            yield region.spelled(region.DEFINE, "2xIQIIII", WORDS, root + 1, root, SIZES.top, 0,
                                 WORDS * place)


def write_file(path, records, roots):
    """Writes the file, and returns its length."""
    front = region.Region(SIZES).bytes
    half = b"".join(slots(roots))
    front[region.SUPERBLOCK:region.SUPERBLOCK + len(half)] = half
    with open(path, "wb") as file:
        file.write(front)
        for _ in range(roots):
            file.write(records)
        return file.tell()


def measured(program, path, wanted):
    """The seconds that a check takes, those of them on a processor, and the KiB that it has at
    most."""
    begun = time.monotonic()
    child = subprocess.Popen([program, "check", path], stdout=subprocess.PIPE)
    said = child.stdout.read()
    _, status, used = os.wait4(child.pid, 0)
    took = time.monotonic() - begun
    child.returncode = os.waitstatus_to_exitcode(status)
    assert (said, child.returncode) == (wanted, 0), said
    return took, used.ru_utime + used.ru_stime, used.ru_maxrss


def main(program, runs=3, folder=None, *sizes):
    records = b"".join(record(b"Class%03d" % place)
                       for place in range(CLASSES)).ljust(8 * SIZES.root_words, b"\0")
    with tempfile.TemporaryDirectory(
            dir=folder or os.path.dirname(os.path.abspath(program))) as folder:
        path = os.path.join(folder, "full")
        for roots in sizes or (32, 64, 128, 256):
            long = write_file(path, records, roots)
            classes = CLASSES * roots
            wanted = b"ok loaders %d classes %d chunks %d number %d\n" % (
                roots, classes, roots, roots)
            times = [measured(program, path, wanted) for _ in range(runs)]
            took, used, most = (min(column) for column in zip(*times))
            print(f"{long:13,} bytes  {classes:6,} classes  {took:6.2f} s, "
                  f"{used:6.2f} s on a processor  {most:9,} KiB")
            os.remove(path)


if __name__ == "__main__":
    main(sys.argv[1], *map(int, sys.argv[2:3]), *sys.argv[3:4], *map(int, sys.argv[4:]))
