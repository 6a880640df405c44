#!/usr/bin/env python3
"""Writes scripts that define class files with single bytes changed.

    tests/changed_classes.py FOLDER OUT STEP

Of each class file in FOLDER, in the order of their paths, every STEP-th byte is changed in three
ways: its lowest bit flipped, set to 00, set to FF. The files OUT/0001.in and so on have at most 64
of them each, since a cache in memory has room for no more; each changed class gets a loader of its
own, and is looked up by the name of the file that it came from.
"""
import itertools
import pathlib
import sys

IN_A_SCRIPT = 64


def changed(data, step):
    """The file with one byte changed, for each change that changes something."""
    for at in range(0, len(data), step):
        for byte in sorted({data[at] ^ 1, 0x00, 0xff} - {data[at]}):
            yield data[:at] + bytes([byte]) + data[at + 1:]


def all_changed(folder, step):
    for path in sorted(folder.rglob("*.class")):
        name = path.relative_to(folder).with_suffix("").as_posix()
        for data in changed(path.read_bytes(), step):
            yield name, data


def script(classes):
    for number, (name, data) in enumerate(classes):
        yield f"loader l{number}\ndefine l{number} {data.hex()}\nfind l{number} {name}\n"


def main(folder, out, step):
    classes = all_changed(pathlib.Path(folder), int(step))
    for number in itertools.count(1):
        some = list(itertools.islice(classes, IN_A_SCRIPT))
        if not some:
            return
        (pathlib.Path(out) / f"{number:04}.in").write_text("".join(script(some)), encoding="ascii")


if len(sys.argv) != 4:
    sys.exit(__doc__)
main(*sys.argv[1:])
