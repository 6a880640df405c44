#!/usr/bin/env python3
"""Writes the records of a region file to standard output, in the order of their commands, each
preceded by its length in four bytes and its place in the file in eight, big-endian. docs/REGION.md
says how such a file is read; this reads only half 0 of its journal.

    bench/records.py FILE
"""
import os
import struct
import sys

sys.path.insert(0, os.path.join(os.path.dirname(os.path.abspath(__file__)), "..", "tests"))
import harness
import oracle
import region


def slots_of_classes(data, slots):
    """The slots of half 0 in which a class is defined."""
    at = region.SUPERBLOCK
    end = at + region.SLOT * slots
    assert data[at] == region.OPEN and data[at + 1] == region.HEAD, "half 0 doesn't count"
    at += region.SLOT
    while at < end and data[at] == region.OPEN and data[at + 1] == region.GROUP:
        group = range(at + region.SLOT, at + region.SLOT * (1 + region.number(data, at + 2, 2)),
                      region.SLOT)
        yield from (entry for entry in group if data[entry + 1] == region.DEFINE)
        at = group.stop


def main(path):
    data = harness.read(path)
    geometry = oracle.Geometry(*struct.unpack_from("<3I", data, 12))
    for slot in slots_of_classes(data, geometry.slots):
        words, _, root, _, place, offset = struct.unpack_from("<IQIIII", data, slot + 4)
        record = region.root_at(geometry, root) + 8 * (place + offset)
        sys.stdout.buffer.write(struct.pack(">IQ", 8 * words, record)
                                + data[record:record + 8 * words])


if __name__ == "__main__":
    if len(sys.argv) != 2:
        sys.exit(__doc__)
    main(sys.argv[1])
