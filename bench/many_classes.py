#!/usr/bin/env python3
"""Makes many classes of a few: reads a stream of class files from standard input, each preceded by
its length (four bytes, big-endian), and writes another one of COUNT classes. They are those of the
input, in turn, each with a number of its own after its name, so that all names differ.

    bench/many_classes.py COUNT
"""
import itertools
import os
import struct
import sys

sys.path.insert(0, os.path.join(os.path.dirname(os.path.abspath(__file__)), "..", "tests"))
import harness

UTF8, CLASS = 1, 7
LENGTHS = {3: 4, 4: 4, 5: 8, 6: 8, 7: 2, 8: 2, 9: 4, 10: 4, 11: 4, 12: 4, 15: 3, 16: 2, 17: 4,
           18: 4, 19: 2, 20: 2}
COUNT_AT, POOL_AT = 8, 10


def classes_in(data):
    at = 0
    while at < len(data):
        (length,) = struct.unpack_from(">I", data, at)
        yield data[at + 4 : at + 4 + length]
        at += 4 + length


def name_place(data):
    """Where the length of the class's own name stands."""
    (count,) = struct.unpack_from(">H", data, COUNT_AT)
    at, places, index = POOL_AT, {}, 1
    while index < count:
        places[index] = at
        tag = data[at]
        at += 3 + struct.unpack_from(">H", data, at + 1)[0] if tag == UTF8 else 1 + LENGTHS[tag]
        index += 2 if tag in (5, 6) else 1
    (this_class,) = struct.unpack_from(">H", data, at + 2)
    (name,) = struct.unpack_from(">H", data, places[this_class] + 1)
    return places[name] + 1


def renamed(data, place, number):
    (length,) = struct.unpack_from(">H", data, place)
    end = place + 2 + length
    suffix = b"$%d" % number
    return (data[:place] + struct.pack(">H", length + len(suffix)) + data[place + 2 : end] + suffix
            + data[end:])


def main(count):
    few = [(data, name_place(data)) for data in classes_in(sys.stdin.buffer.read())]
    for number, (data, place) in enumerate(itertools.islice(itertools.cycle(few), count)):
        sys.stdout.buffer.write(harness.stream_of([renamed(data, place, number)]))


if __name__ == "__main__":
    if len(sys.argv) != 2:
        sys.exit(__doc__)
    main(int(sys.argv[1]))
