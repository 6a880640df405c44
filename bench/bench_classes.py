#!/usr/bin/env python3
"""Writes class files for `cm_bench` and `cm_bench_files` to standard output, each preceded by its
length (four bytes, big-endian).

    bench/bench_classes.py [--only-52] PATH..
    bench/bench_classes.py --hostile KIND

A PATH is a .class file, a folder that is searched for them, or a jar, as for
examples/define_lines.py. With --only-52, files of other versions than 52.0 are left out.

A hostile stream is one that would make careless code slow. Each class keeps all of the rules,
except those of `length` and of streams whose names end in -twice or -bootstrap:

    fields         as many fields as the pool has room for (65,529), all named by one Utf8 of
                   65,535 bytes; their descriptors differ, each in a slot of its own. Slow for code
                   that compares fields pair by pair, or their names byte by byte
    fields-equal   the same, but the name stands in twenty slots, byte for byte the same in each,
                   and the fields use them in turn: different slots may have equal bytes
    fields-few     32 fields, so few that they are compared pair by pair, all named by one of two
                   Utf8s of 65,535 equal bytes. Slow for code that compares the bytes of one slot
                   with themselves
    fields-middle  65,535 fields, as many as there may be: pairs of 300 short names and 300 short
                   descriptors, and two names of 65,535 bytes that differ only in the middle.
                   Slow for code that distinguishes long names by their ends, and compares all
                   bytes if these are equal
    fields-middle-twice
                   the same, but the last field has the name and the descriptor of the first short
                   one again (refused)
    fields-middle-bootstrap
                   the same, with a BootstrapMethods that has a byte too many (refused by the last
                   rule, so code that looks for a fault rule by rule goes through all of them)
    fields-meeting
                   65,535 fields: pairs of 256 names and 256 descriptors, chosen so that all of
                   them have one fingerprint. Code that takes that for a duplicate is wrong, code
                   that compares pair by pair is slow
    fields-all-twice
                   32,767 fields, pairs of one name with descriptors in slots of their own, and all
                   of them again (refused). Slow for code that looks for all duplicates instead of
                   the first, or compares pair by pair
    methods, methods-equal, methods-middle, methods-middle-twice, methods-middle-bootstrap,
    methods-meeting, methods-all-twice
                   the same with methods (native, no code)
    references     a pool full of references (65,527), by turns Methodref and InterfaceMethodref, to
                   one NameAndType whose name and whose descriptor have 65,535 bytes each. Slow for
                   code that checks a Utf8 once for each reference
    dimensions     4,000 fields whose descriptors have 255 dimensions, and 30 methods with 255 such
                   parameters each. Slow for code that counts dimensions or parameters again for
                   each of them
    dynamic        a pool full of InvokeDynamic entries (65,523), and 65,535 bootstrap methods, the
                   last of which all of them name. Slow for code that goes through the bootstrap
                   methods for each of them
    length         1,000 small classes, each with an attribute whose length says FFFFFFFF: code that
                   asks for that much memory doesn't get it. The files are truncated
"""
import pathlib
import struct
import sys

for folder in "examples", "tests":
    sys.path.insert(0, str(pathlib.Path(__file__).resolve().parent.parent / folder))
from define_lines import class_files  # noqa: E402 (the examples stand beside)
from harness import VERSION_52, stream_of, u2, u4, utf8  # noqa: E402

LONG = 65_535
LAST_INDEX = 65_534
EQUAL_SLOTS = 20
MOST_MEMBERS = 65_535
FEW_MEMBERS = 32

PUBLIC, SUPER = 0x0001, 0x0020
STATIC, NATIVE = 0x0008, 0x0100


class ClassFile:
    """A class A that extends java/lang/Object, to which constants, members and attributes come."""

    def __init__(self):
        self.constants = []
        self.fields = []
        self.methods = []
        self.attributes = []
        self.this_class = self.class_named(b"A")
        self.super_class = self.class_named(b"java/lang/Object")

    def add(self, constant):
        """The index of a new constant."""
        self.constants.append(constant)
        return len(self.constants)

    def room(self):
        """How many constants more the pool takes."""
        return LAST_INDEX - len(self.constants)

    def utf8(self, text):
        return self.add(utf8(text))

    def class_named(self, name):
        return self.add(b"\x07" + u2(self.utf8(name)))

    def name_and_type(self, name, descriptor):
        return self.add(b"\x0c" + u2(self.utf8(name)) + u2(self.utf8(descriptor)))

    def bytes(self):
        def counted(items):
            return u2(len(items)) + b"".join(items)

        return b"".join([
            VERSION_52, u2(len(self.constants) + 1), *self.constants,
            u2(PUBLIC | SUPER), u2(self.this_class), u2(self.super_class), counted([]),
            counted(self.fields), counted(self.methods), counted(self.attributes),
        ])


def member(flags, name, descriptor):
    return u2(flags) + u2(name) + u2(descriptor) + u2(0)


def letters(number):
    """A short name, another one for each number."""
    text = b""
    while True:
        text += bytes([ord("a") + number % 26])
        number //= 26
        if number == 0:
            return text


def many_fields(name_slots):
    made = ClassFile()
    names = [made.utf8(b"a" * LONG) for _ in range(name_slots)]
    for i in range(made.room()):
        descriptor = made.utf8(b"L" + letters(i) + b";")
        made.fields.append(member(PUBLIC, names[i % name_slots], descriptor))
    return [made.bytes()]


def many_methods(name_slots):
    made = ClassFile()
    names = [made.utf8(b"a" * LONG) for _ in range(name_slots)]
    for i in range(made.room()):
        descriptor = made.utf8(b"(L" + letters(i) + b";)V")
        made.methods.append(member(PUBLIC | STATIC | NATIVE, names[i % name_slots], descriptor))
    return [made.bytes()]


def few_fields():
    made = ClassFile()
    names = [made.utf8(b"a" * LONG) for _ in range(2)]
    for i in range(FEW_MEMBERS):
        made.fields.append(member(PUBLIC, names[i % 2], made.utf8(b"L" + letters(i) + b";")))
    return [made.bytes()]


def indexes(made, texts):
    return [made.utf8(text) for text in texts]


def pairs(names, descriptors):
    """Pairs of indexes, the first name with each of the descriptors first."""
    return [(name, descriptor) for name in names for descriptor in descriptors]


def members_of(made, of_methods, names_and_descriptors):
    members = made.methods if of_methods else made.fields
    flags = PUBLIC | STATIC | NATIVE if of_methods else PUBLIC
    members += [member(flags, name, descriptor) for name, descriptor in names_and_descriptors]


def differ_in_the_middle(of_methods, twice=False, ill_formed=False):
    made = ClassFile()
    form = b"(L%s;)V" if of_methods else b"L%s;"
    names = indexes(made, [letters(i) for i in range(300)])
    descriptors = indexes(made, [form % letters(i) for i in range(300)])
    middle = LONG // 2
    long_names = indexes(
        made, [b"a" * middle + byte + b"a" * (LONG - middle - 1) for byte in (b"a", b"b")])
    short = pairs(names, descriptors)[: MOST_MEMBERS - 2]
    last = short[0] if twice else short[-1]
    members_of(made, of_methods, pairs(long_names, descriptors[:1]) + short[:-1] + [last])
    if ill_formed:
        made.attributes.append(u2(made.utf8(b"BootstrapMethods")) + u4(3) + u2(0) + b"\0")
    return [made.bytes()]


def all_twice(of_methods):
    made = ClassFile()
    form = b"(L%s;)V" if of_methods else b"L%s;"
    name = made.utf8(b"a")
    descriptors = indexes(made, [form % letters(i) for i in range(MOST_MEMBERS // 2)])
    members_of(made, of_methods, pairs([name], descriptors) * 2)
    return [made.bytes()]


# The hasher of Rattle's std, as far as names of 32 bytes need it: it multiplies sixteen bytes at a
# time, so that eight of them that are the state so far make the product zero, whatever the other
# eight are.
MASK = 2**64 - 1
MULTIPLIER = 0x9E3779B97F4A7C15
INITIAL = 0x243F6A8885A308D3
BLOCK = 16
NO_NAME = b"\0./;[<>"


def folded(a, b):
    product = a * b
    return product & MASK ^ product >> 64


def state_behind(block, length):
    """The hasher's state after the first sixteen bytes of this many."""
    low, high = struct.unpack("<QQ", block)
    return folded(low ^ (INITIAL + length & MASK), high ^ MULTIPLIER)


def is_plain(text):
    return all(byte < 0x80 and byte not in NO_NAME for byte in text)


def meeting(first, last, count):
    """Texts of 32 bytes that begin and end so, and all have the fingerprint 0."""
    for number in range(100_000):
        block = first + (b"%d" % number).rjust(BLOCK - len(first), b"a")
        state = struct.pack("<Q", state_behind(block, 2 * BLOCK))
        if is_plain(state):
            ends = [letters(i).rjust(8 - len(last), b"_") + last for i in range(count)]
            return [block + state + end for end in ends]
    raise ValueError("no block makes the state a name")


def one_fingerprint(of_methods):
    made = ClassFile()
    first, last = (b"(L", b";)V") if of_methods else (b"L", b";")
    names = indexes(made, meeting(b"", b"", 256))
    descriptors = indexes(made, meeting(first, last, 256))
    members_of(made, of_methods, pairs(names, descriptors)[:MOST_MEMBERS])
    return [made.bytes()]


def references():
    made = ClassFile()
    descriptor = b"(L" + b"a" * (LONG - 5) + b";)V"
    target = made.name_and_type(b"a" * LONG, descriptor)
    for i in range(made.room()):
        made.add(bytes([10 + i % 2]) + u2(made.this_class) + u2(target))
    return [made.bytes()]


def dimensions():
    made = ClassFile()
    name = made.utf8(b"a")
    for i in range(4_000):
        descriptor = made.utf8(b"[" * 255 + b"L" + letters(i) + b";")
        made.fields.append(member(PUBLIC, name, descriptor))
    for i in range(30):
        descriptor = made.utf8(b"(" + (b"[" * 255 + b"I") * 255 + b")L" + letters(i) + b";")
        made.methods.append(member(PUBLIC | STATIC | NATIVE, name, descriptor))
    return [made.bytes()]


def dynamic():
    made = ClassFile()
    attribute = made.utf8(b"BootstrapMethods")
    method = made.add(b"\x0a" + u2(made.this_class) + u2(made.name_and_type(b"b", b"()V")))
    handle = made.add(bytes([15, 6]) + u2(method))
    rows = 65_535
    content = u2(rows) + (u2(handle) + u2(0)) * rows
    made.attributes.append(u2(attribute) + u4(len(content)) + content)
    call = made.name_and_type(b"c", b"()V")
    for _ in range(made.room()):
        made.add(b"\x12" + u2(rows - 1) + u2(call))
    return [made.bytes()]


def false_length():
    made = ClassFile()
    name = made.utf8(b"X")
    made.attributes.append(u2(name) + b"\xff" * 4)
    return [made.bytes()] * 1_000


HOSTILE = {
    "fields": lambda: many_fields(1),
    "fields-equal": lambda: many_fields(EQUAL_SLOTS),
    "methods": lambda: many_methods(1),
    "methods-equal": lambda: many_methods(EQUAL_SLOTS),
    "fields-few": few_fields,
    "fields-middle": lambda: differ_in_the_middle(False),
    "fields-middle-twice": lambda: differ_in_the_middle(False, twice=True),
    "fields-middle-bootstrap": lambda: differ_in_the_middle(False, ill_formed=True),
    "fields-meeting": lambda: one_fingerprint(False),
    "fields-all-twice": lambda: all_twice(False),
    "methods-middle": lambda: differ_in_the_middle(True),
    "methods-middle-twice": lambda: differ_in_the_middle(True, twice=True),
    "methods-middle-bootstrap": lambda: differ_in_the_middle(True, ill_formed=True),
    "methods-meeting": lambda: one_fingerprint(True),
    "methods-all-twice": lambda: all_twice(True),
    "references": references,
    "dimensions": dimensions,
    "dynamic": dynamic,
    "length": false_length,
}


def found(only_52, paths):
    for path in paths:
        for _name, data in class_files(pathlib.Path(path)):
            if not only_52 or data.startswith(VERSION_52):
                yield data


def main(words):
    if len(words) == 2 and words[0] == "--hostile" and words[1] in HOSTILE:
        sys.stdout.buffer.write(stream_of(HOSTILE[words[1]]()))
    elif words and not words[-1].startswith("--"):
        only_52 = words[0] == "--only-52"
        sys.stdout.buffer.write(stream_of(found(only_52, words[1:] if only_52 else words)))
    else:
        sys.exit(__doc__)


if __name__ == "__main__":
    main(sys.argv[1:])
