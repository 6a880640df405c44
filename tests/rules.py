#!/usr/bin/env python3
"""Classes that keep each rule and classes that break it, by tables worked out by hand: the program
accepts the former, and for the latter reports the first broken rule, with its spot.

    tests/rules.py PROGRAM

A draft is a class as its parts: entries 1 to 4 of its pool are the class A with its name and the
class java/lang/Object with its name, and its own entries follow from index 5 on. A table's rows end
in the expected result: True, or the rule and the spot.
"""
import sys
from dataclasses import dataclass, field

import harness
from harness import u2, u4, utf8


# ---- drafts

def four(tag):
    """An Integer 3 or a Float 4, of zero bits."""
    return bytes([tag, 0, 0, 0, 0])


def eight(tag):
    """A Long 5 or a Double 6, of zero bits. It takes two indexes."""
    return bytes([tag, 0, 0, 0, 0, 0, 0, 0, 0])


def one(tag, index):
    """A tag with one index: Class 7, String 8 and MethodType 16."""
    return bytes([tag]) + u2(index)


def two(tag, first, second):
    """A tag with two: Fieldref 9, Methodref 10, InterfaceMethodref 11, NameAndType 12 and
    InvokeDynamic 18."""
    return bytes([tag]) + u2(first) + u2(second)


def handle(kind, reference):
    return bytes([15, kind]) + u2(reference)



def attributes(parts):
    """Attributes: of each the index of its name, the number of its bytes, and these."""
    count, spelled = 0, b""
    while parts:
        name, length, *rest = parts
        content, parts = rest[:length], rest[length:]
        spelled += u2(name) + u4(length) + bytes(content)
        count += 1
    return u2(count) + spelled


@dataclass
class Draft:
    """A public class A, with nothing else but what is named. A field or method is its flags,
    the indexes of its name and its descriptor; each of them has the same parts for attributes."""
    entries: list = field(default_factory=list)
    flags: int = 0x0021
    this_class: int = 1
    super_class: int = 3
    interfaces: list = field(default_factory=list)
    fields: list = field(default_factory=list)
    methods: list = field(default_factory=list)
    parts: list = field(default_factory=list)
    attributes: list = field(default_factory=list)

    def members(self, members):
        spelled = [u2(flags) + u2(name) + u2(descriptor) + attributes(self.parts)
                   for flags, name, descriptor in members]
        return u2(len(members)) + b"".join(spelled)

    def spelled(self):
        count = 5 + len(self.entries) + sum(entry[0] in (5, 6) for entry in self.entries)
        pool = u2(count) + harness.pool_of(b"A") + b"".join(self.entries)
        head = u2(self.flags) + u2(self.this_class) + u2(self.super_class)
        interfaces = u2(len(self.interfaces)) + b"".join(u2(index) for index in self.interfaces)
        return (harness.VERSION_52 + pool + head + interfaces + self.members(self.fields)
                + self.members(self.methods) + attributes(self.attributes))


def broken(right, rule, spot):
    """The expected result of a row: none if it is right, otherwise the rule and the spot."""
    return None if right else (rule, spot)


# ---- class A byte by byte

CLASS_A = harness.class_a()

# Where the indexes stand that class A has.
ENTRY_1, ENTRY_3, THIS_CLASS, SUPER_CLASS = 11, 18, 41, 43

CHANGED = [
    (ENTRY_1, 0, (2, "pool 1")), (ENTRY_1, 1, (2, "pool 1")), (ENTRY_1, 0xffff, (2, "pool 1")),
    (ENTRY_3, 0, (2, "pool 3")), (ENTRY_3, 3, (2, "pool 3")), (ENTRY_3, 0xffff, (2, "pool 3")),
    (THIS_CLASS, 0, (2, "this")), (THIS_CLASS, 0xffff, (2, "this")),
    (SUPER_CLASS, 0xffff, (2, "super")),
]


def of_class_a():
    for length in range(1, len(CLASS_A)):
        yield CLASS_A[:length], "truncated"
    yield CLASS_A, None
    yield b"x", "malformed 0"
    for at, number, expected in CHANGED:
        yield CLASS_A[:at] + u2(number) + CLASS_A[at + 2:], expected
    yield harness.padded(b"A", 0), None
    yield harness.padded(b"B", 5), None
    yield harness.padded(b"/", 0), (4, "pool 1")
    yield harness.padded(b"A", 0)[:-4] + u4(0xffff_ffff), "truncated"


# ---- the class itself

FLAGS = [
    (0x0001, True), (0x0011, True), (0x0401, True), (0x4031, True), (0x9021, True), (0x0431, False),
    (0x2021, False), (0x0601, True), (0x2601, True), (0x0201, False), (0x0221, False),
    (0x0611, False), (0x0621, False), (0x4601, False),
]

OWN_CLASS = [
    (b"B", None), (b"a/B", None), (b"[LA;", (11, "this")),
]

# The class's flags, its own class, its super class.
SUPER_CLASSES = [
    (0x0021, 1, 1, None), (0x0021, 1, 0, (12, "super")), (0x0021, 3, 0, None), (0x0021, 3, 1, None),
    (0x0601, 1, 3, None), (0x0601, 1, 1, (12, "super")), (0x0601, 1, 0, (12, "super")),
]

INTERFACES = [
    ([1, 3], None), ([2], (2, "interface 0")), ([1, 0], (2, "interface 1")),
    ([3, 1, 5], (2, "interface 2")),
]


def of_heads():
    for flags, right in FLAGS:
        yield Draft(flags=flags), broken(right, 10, "this")
    for name, expected in OWN_CLASS:
        yield Draft([utf8(name), one(7, 5)], this_class=6), expected
    for flags, this_class, super_class, expected in SUPER_CLASSES:
        yield Draft(flags=flags, this_class=this_class, super_class=super_class), expected
    for interfaces, expected in INTERFACES:
        yield Draft(interfaces=interfaces), expected


# ---- fields

FIELD_ENTRIES = [
    utf8(b"I"), utf8(b"J"), utf8(b"I"), utf8(b"A"),
]

FIELD_INDEXES = [
    ([(1, 2, 5), (1, 2, 6)], [2, 0], None), ([(1, 1, 5)], [], (2, "field 0")),
    ([(1, 2, 0)], [], (2, "field 0")), ([(1, 2, 9)], [], (2, "field 0")),
    ([(1, 2, 5), (1, 2, 3)], [], (2, "field 1")), ([(1, 2, 5)], [2, 0, 1, 0], (2, "field 0")),
]

FIELD_NAMES = [
    (b"a", b"B", True), (b"a", b"C", True), (b"a", b"S", True), (b"a", b"Z", True),
    (b"<init>", b"[F", True), (b"a<b>", b"La/b;", True), (b"", b"I", False), (b"a.b", b"I", False),
    (b"a/b", b"I", False), (b"[a", b"I", False), (b"a", b"", False), (b"a", b"V", False),
    (b"a", b"()V", False), (b"a", b"La//b;", False), (b"a", b"La", False),
]

# The class's flags, the field's.
FIELD_FLAGS = [
    (0x0021, 0x0000, True), (0x0021, 0x0001, True), (0x0021, 0x0002, True), (0x0021, 0x0004, True),
    (0x0021, 0x0010, True), (0x0021, 0x50c8, True), (0x0021, 0x8021, True), (0x0021, 0x0003, False),
    (0x0021, 0x0005, False), (0x0021, 0x0006, False), (0x0021, 0x0007, False),
    (0x0021, 0x0050, False), (0x0601, 0x0019, True), (0x0601, 0x1019, True),
    (0x0601, 0x0018, False), (0x0601, 0x0011, False), (0x0601, 0x0009, False),
    (0x0601, 0x001a, False), (0x0601, 0x001c, False), (0x0601, 0x0099, False),
    (0x0601, 0x4019, False),
]

# Texts are compared, and not their indexes: 5 and 7 are one, and 2 and 8.
FIELDS_TWICE = [
    ([(1, 2, 5), (1, 2, 6), (1, 5, 5)], None), ([(1, 2, 5), (2, 2, 5)], (15, "field 1")),
    ([(1, 2, 5), (1, 8, 7)], (15, "field 1")), ([(1, 2, 5), (1, 2, 6), (1, 8, 5)], (15, "field 2")),
    ([(1, 2, 5), (1, 2, 6), (1, 2, 6), (1, 2, 5)], (15, "field 2")),
    ([(1, 5, 6), (1, 7, 5), (1, 7, 6)], (15, "field 2")),
]

# Two names that differ in the middle alone.
NAME_A = b"the front of a name that is a long one, a, and the back of a name that is a long one"
NAME_B = b"the front of a name that is a long one, b, and the back of a name that is a long one"

# Five names with each base type, and others after them.
MANY = [
    utf8(b"a"), utf8(b"b"), utf8(b"c"), utf8(b"d"), utf8(b"e"), utf8(b"B"), utf8(b"C"), utf8(b"D"),
    utf8(b"F"), utf8(b"I"), utf8(b"J"), utf8(b"S"), utf8(b"Z"), utf8(b"a"), utf8(NAME_A),
    utf8(NAME_B),
]

CROSSED = [(1, name, descriptor) for name in range(5, 10) for descriptor in range(10, 18)]

BEHIND_MANY = [
    ([], None), ([(1, 9, 17)], (15, "field 40")), ([(1, 18, 10)], (15, "field 40")),
    ([(1, 19, 10), (1, 20, 10)], None), ([(1, 19, 10), (1, 20, 10), (1, 19, 10)], (15, "field 42")),
]


def of_fields():
    for fields, parts, expected in FIELD_INDEXES:
        yield Draft(FIELD_ENTRIES, fields=fields, parts=parts), expected
    for name, descriptor, right in FIELD_NAMES:
        yield (Draft([utf8(name), utf8(descriptor)], fields=[(1, 5, 6)]),
               broken(right, 13, "field 0"))
    for dimensions, right in (255, True), (256, False):
        yield (Draft([utf8(b"[" * dimensions + b"I")], fields=[(1, 2, 5)]),
               broken(right, 13, "field 0"))
    for class_flags, flags, right in FIELD_FLAGS:
        yield (Draft(FIELD_ENTRIES, flags=class_flags, fields=[(flags, 2, 5)]),
               broken(right, 14, "field 0"))
    for fields, expected in FIELDS_TWICE:
        yield Draft(FIELD_ENTRIES, fields=fields), expected
    for others, expected in BEHIND_MANY:
        yield Draft(MANY, fields=CROSSED + others), expected


# ---- methods and their code

METHOD_ENTRIES = [
    utf8(b"()V"), utf8(b"Code"), utf8(b"<init>"), utf8(b"<clinit>"), utf8(b"()I"), utf8(b"()V"),
]

# A code of one byte, `return`.
CODE = [6, 13, 0, 0, 0, 0, 0, 0, 0, 1, 0xb1, 0, 0, 0, 0]
TWO_CODES = CODE + CODE

METHOD_INDEXES = [
    ([(0x0401, 2, 5)], [2, 0], None), ([(0x0401, 3, 5)], [], (2, "method 0")),
    ([(0x0401, 2, 11)], [], (2, "method 0")),
    ([(0x0401, 2, 5), (0x0401, 0, 9)], [], (2, "method 1")),
    ([(0x0401, 2, 5)], [1, 0], (2, "method 0")),
]

METHOD_NAMES = [
    (b"a", b"()V", True), (b"a", b"(I)La;", True), (b"<clinit>", b"()V", True),
    (b"<clinit>", b"(I)I", True), (b"", b"()V", False), (b"a/b", b"()V", False),
    (b"<a>", b"()V", False), (b"a>", b"()V", False), (b"a", b"I", False), (b"a", b"()", False),
    (b"a", b"(V)V", False),
]

# With its receiver a method has at most 255 units: flags, name, a parameter, and how often it
# stands there.
METHOD_UNITS = [
    (0x0100, b"a", b'I', 254, True), (0x0100, b"a", b'J', 127, True),
    (0x0100, b"a", b'I', 255, False), (0x0401, b"a", b'I', 255, False),
    (0x0108, b"a", b'I', 255, True), (0x0000, b"<clinit>", b'I', 255, True),
    (0x0008, b"<clinit>", b'I', 255, True),
]

# The name's index, 2 is A, 7 `<init>`, 8 `<clinit>`; the flags; the attributes.
METHOD_FLAGS = [
    (2, 0x0001, CODE, True), (2, 0x0002, CODE, True), (2, 0x0004, CODE, True),
    (2, 0x18fa, CODE, True), (2, 0x0003, CODE, False), (2, 0x0005, CODE, False),
    (2, 0x0006, CODE, False), (2, 0x0401, [], True), (2, 0x1444, [], True), (2, 0x0402, [], False),
    (2, 0x0408, [], False), (2, 0x0410, [], False), (2, 0x0420, [], False), (2, 0x0500, [], False),
    (2, 0x0c00, [], False), (7, 0x0001, CODE, True), (7, 0x0882, CODE, True),
    (7, 0x0009, CODE, False), (7, 0x0011, CODE, False), (7, 0x0021, CODE, False),
    (7, 0x0041, CODE, False), (7, 0x0101, [], False), (7, 0x0401, [], False),
    (8, 0x0008, CODE, True), (8, 0x0007, CODE, True), (8, 0x0f7f, [], True), (8, 0x0000, [], True),
]

METHOD_FLAGS_IN_INTERFACES = [
    (0x0401, [], True), (0x0001, CODE, True), (0x0009, CODE, True), (0x0002, CODE, True),
    (0x0400, [], False), (0x0008, CODE, False), (0x0404, [], False), (0x0011, CODE, False),
    (0x0021, CODE, False), (0x0101, [], False),
]

# Entries 5 and 10 are one text.
METHODS_TWICE = [
    ([(0x0401, 2, 5), (0x0401, 2, 9)], None), ([(0x0401, 2, 5), (0x0100, 2, 5)], (19, "method 1")),
    ([(0x0401, 2, 5), (0x0401, 2, 9), (0x0401, 2, 10)], (19, "method 2")),
    ([(0, 8, 5), (0, 8, 9), (0, 8, 9), (0, 8, 5)], (19, "method 2")),
]

CODE_COUNTS = [
    (2, 0x0001, CODE, True),
    (2, 0x0001, [2, 0, 6, 13, 0, 0, 0, 0, 0, 0, 0, 1, 0xb1, 0, 0, 0, 0], True),
    (2, 0x0001, [], False), (2, 0x0001, TWO_CODES, False), (2, 0x0101, [], True),
    (2, 0x0101, CODE, False), (2, 0x0401, [], True), (2, 0x0401, CODE, False),
    (8, 0x0008, [], True), (8, 0x0008, CODE, True), (8, 0x0108, CODE, True),
    (8, 0x0008, TWO_CODES, False),
]

# The heads of codes: stack, locals, the number of bytes; then the bytes, and no handler or
# attribute.
CODES = [
    ([0xff, 0xff, 0xff, 0xff, 0, 0, 0, 1, 0, 0, 0, 0, 0], True),
    ([0, 0, 0, 0, 0, 0, 0, 2, 0, 0, 0, 0, 0, 0], True), ([], False), ([0, 0, 0, 0, 0, 0, 0], False),
    ([0, 0, 0, 0, 0, 0, 0, 0, 0, 0, 0, 0], False), ([0, 0, 0, 0, 0, 0, 0, 2, 0, 0, 0, 0, 0], False),
    ([0, 0, 0, 0, 0, 0, 0, 1, 0, 0, 0, 0], False),
    ([0, 0, 0, 0, 0, 0, 0, 1, 0, 0, 0, 0, 0, 0], False),
    ([0, 0, 0, 0, 0, 0, 0, 1, 0, 0, 1, 0, 0], False),
]

# Start, end, handler and the class that is caught, in a code of two bytes.
HANDLERS = [
    ([0, 1, 0, 0], True), ([0, 2, 1, 3], True), ([1, 2, 0, 1], True), ([0, 0, 0, 0], False),
    ([1, 1, 0, 0], False), ([2, 1, 0, 0], False), ([0, 3, 0, 0], False), ([0, 1, 2, 0], False),
    ([0, 1, 0, 2], False), ([0, 1, 0, 11], False),
]

# The attributes of a code have to have names and lengths, and nothing more.
CODE_ATTRIBUTES = [
    ([0, 1, 0, 2, 0, 0, 0, 0], True), ([0, 2, 0, 6, 0, 0, 0, 1, 0, 0, 4, 0, 0, 0, 0], True),
    ([0, 1, 0, 1, 0, 0, 0, 0], False), ([0, 1, 0, 0, 0, 0, 0, 0], False),
    ([0, 1, 0, 2, 0, 0, 0, 1], False), ([0, 2, 0, 2, 0, 0, 0, 0], False),
]


def of_methods():
    for methods, parts, expected in METHOD_INDEXES:
        yield Draft(METHOD_ENTRIES, methods=methods, parts=parts), expected
    for name, descriptor, right in METHOD_NAMES:
        yield (Draft([utf8(name), utf8(descriptor)], methods=[(0x0401, 5, 6)]),
               broken(right, 16, "method 0"))
    for flags, name, parameter, times, right in METHOD_UNITS:
        descriptor = b"(" + parameter * times + b")V"
        yield (Draft([utf8(name), utf8(descriptor)], methods=[(flags, 5, 6)]),
               broken(right, 17, "method 0"))
    for name, flags, parts, right in METHOD_FLAGS:
        yield (Draft(METHOD_ENTRIES, methods=[(flags, name, 5)], parts=parts),
               broken(right, 18, "method 0"))
    for flags, parts, right in METHOD_FLAGS_IN_INTERFACES:
        yield (Draft(METHOD_ENTRIES, flags=0x0601, methods=[(flags, 2, 5)], parts=parts),
               broken(right, 18, "method 0"))
    for methods, expected in METHODS_TWICE:
        yield Draft(METHOD_ENTRIES, methods=methods), expected


def with_code(content):
    """A class whose method has a code of these bytes."""
    spelled = Draft(METHOD_ENTRIES, methods=[(1, 2, 5)]).spelled()
    # The counts of the method's attributes and of the class's stand last.
    return spelled[:-4] + u2(1) + u2(6) + u4(len(content)) + bytes(content) + u2(0)


def of_codes():
    for name, flags, parts, right in CODE_COUNTS:
        yield (Draft(METHOD_ENTRIES, methods=[(flags, name, 5)], parts=parts),
               broken(right, 20, "method 0"))
    for content, right in CODES:
        yield with_code(content), broken(right, 21, "method 0")
    for length, right in (65535, True), (65536, False):
        yield with_code(bytes(4) + u4(length) + bytes(length + 4)), broken(right, 21, "method 0")
    for (start, end, handler, catch), right in HANDLERS:
        content = [0, 0, 0, 0, 0, 0, 0, 2, 0, 0, 0, 1, 0, start, 0, end, 0, handler, 0, catch, 0, 0]
        yield with_code(content), broken(right, 21, "method 0")
    for behind, right in CODE_ATTRIBUTES:
        yield with_code([0, 0, 0, 0, 0, 0, 0, 1, 0, 0, 0] + behind), broken(right, 21, "method 0")


# ---- attributes of fields and methods

# Entries 5 to 17: the names of attributes, then constants, the Long on 12 and 13, the Double on 15
# and 16.
MEMBER_ENTRIES = [
    utf8(b"ConstantValue"), utf8(b"Exceptions"), utf8(b"Signature"), utf8(b"Synthetic"),
    utf8(b"Deprecated"), four(3), four(4), eight(5), one(8, 2), eight(6), utf8(b"()V"),
]

# Index 10 is an Integer, 11 a Float, 12 a Long, 14 a String, 15 a Double.
STATIC_VALUES = [
    (b"I", 10, True), (b"S", 10, True), (b"C", 10, True), (b"B", 10, True), (b"Z", 10, True),
    (b"F", 11, True), (b"J", 12, True), (b"D", 15, True), (b"Ljava/lang/String;", 14, True),
    (b"I", 11, False), (b"I", 12, False), (b"Z", 14, False), (b"F", 10, False), (b"J", 10, False),
    (b"J", 13, False), (b"J", 15, False), (b"D", 12, False), (b"D", 16, False),
    (b"Ljava/lang/String;", 2, False), (b"Ljava/lang/Object;", 14, False), (b"[I", 10, False),
]

# The value of a field that isn't static may name anything, but has two bytes.
FIELD_ATTRIBUTES = [
    (0x0000, [5, 2, 0xff, 0xff], True), (0x0000, [5, 2, 0, 12], True), (0x0000, [5, 1, 0], False),
    (0x0000, [5, 3, 0, 10, 0], False), (0x0008, [5, 0], False),
    (0x0008, [5, 2, 0, 10, 5, 2, 0, 10], False),
    (0x0000, [5, 2, 0, 10, 7, 2, 0, 2, 5, 2, 0, 10], False),
    (0x0008, [7, 2, 0, 2, 8, 0, 9, 0], True), (0x0008, [7, 2, 0, 2, 7, 2, 0, 2], True),
    (0x0008, [7, 2, 0, 1], False), (0x0008, [7, 2, 0, 0], False), (0x0008, [7, 1, 0], False),
    (0x0008, [7, 3, 0, 2, 0], False), (0x0008, [8, 0, 8, 0], True), (0x0008, [8, 1, 0], False),
    (0x0008, [9, 1, 0], False), (0x0008, [6, 2, 0, 9], True), (0x0008, [2, 1, 0], True),
]

METHOD_ATTRIBUTES = [
    ([6, 2, 0, 0], True), ([6, 6, 0, 2, 0, 1, 0, 3], True), ([6, 4, 0, 1, 0, 2], False),
    ([6, 4, 0, 1, 0, 0], False), ([6, 4, 0, 2, 0, 1], False), ([6, 5, 0, 1, 0, 1, 0], False),
    ([6, 1, 0], False), ([6, 2, 0, 0, 6, 2, 0, 0], False), ([7, 2, 0, 17], True),
    ([7, 2, 0, 10], False), ([8, 0], True), ([8, 1, 1], False), ([9, 0], True), ([9, 1, 1], False),
    ([5, 1, 0, 5, 1, 0], True),
]


def of_members():
    for descriptor, index, right in STATIC_VALUES:
        entries = MEMBER_ENTRIES + [utf8(descriptor)]
        yield (Draft(entries, fields=[(0x0018, 2, 18)], parts=[5, 2, 0, index]),
               broken(right, 22, "field 0"))
    for flags, parts, right in FIELD_ATTRIBUTES:
        yield (Draft(MEMBER_ENTRIES + [utf8(b"I")], fields=[(flags, 2, 18)], parts=parts),
               broken(right, 22, "field 0"))
    for parts, right in METHOD_ATTRIBUTES:
        yield (Draft(MEMBER_ENTRIES, methods=[(0x0401, 2, 17)], parts=parts),
               broken(right, 22, "method 0"))


# ---- attributes of the class; a row ends in the place of the first bad one

CLASS_ENTRIES = [
    utf8(b"SourceFile"), utf8(b"Signature"), utf8(b"Synthetic"), utf8(b"Deprecated"),
    utf8(b"EnclosingMethod"), utf8(b"InnerClasses"), two(12, 2, 12), utf8(b"()V"),
    utf8(b"SourceFile"),
]

SOURCES_AND_OTHERS = [
    ([5, 2, 0, 2], None), ([5, 2, 0, 1], 0), ([5, 2, 0, 0], 0), ([5, 1, 0], 0),
    ([5, 3, 0, 2, 0], 0), ([5, 2, 0, 2, 5, 2, 0, 2], 1),
    ([2, 0, 5, 2, 0, 2, 6, 2, 0, 2, 13, 2, 0, 2], 3), ([6, 2, 0, 2, 6, 2, 0, 4], None),
    ([6, 2, 0, 3], 0), ([6, 0], 0), ([7, 0, 7, 0], None), ([7, 0, 7, 1, 0], 1), ([8, 0], None),
    ([8, 2, 0, 0], 0), ([2, 3, 1, 2, 3], None), ([8, 1, 0, 5, 1, 0], 0),
]

ENCLOSING_METHODS = [
    ([9, 4, 0, 3, 0, 0], None), ([9, 4, 0, 1, 0, 11], None), ([9, 4, 0, 0, 0, 0], 0),
    ([9, 4, 0, 2, 0, 0], 0), ([9, 4, 0, 1, 0, 2], 0), ([9, 2, 0, 1], 0), ([9, 3, 0, 1, 0], 0),
    ([9, 5, 0, 1, 0, 0, 0], 0), ([9, 4, 0, 3, 0, 0, 9, 4, 0, 3, 0, 0], 1),
]

INNER_CLASSES = [
    ([10, 2, 0, 0], None), ([10, 10, 0, 1, 0, 1, 0, 0, 0, 0, 0, 0], None),
    ([10, 10, 0, 1, 0, 1, 0, 3, 0, 2, 0xff, 0xff], None),
    ([10, 10, 0, 1, 0, 0, 0, 3, 0, 2, 0, 0], 0), ([10, 10, 0, 1, 0, 2, 0, 0, 0, 0, 0, 0], 0),
    ([10, 10, 0, 1, 0, 1, 0, 2, 0, 0, 0, 0], 0), ([10, 10, 0, 1, 0, 1, 0, 0, 0, 1, 0, 0], 0),
    ([10, 9, 0, 1, 0, 1, 0, 0, 0, 0, 0], 0), ([10, 3, 0, 0, 0], 0), ([10, 0], 0),
    ([10, 2, 0, 0, 10, 2, 0, 0], 1),
]

# Entries 5 to 17. Index 9 is a method handle, 10 to 17 are numbers, a String and a MethodType; 13
# and 15 are the second indexes of a Long and of a Double.
BOOTSTRAPS = [
    utf8(b"BootstrapMethods"), utf8(b"()V"), two(12, 2, 6), two(10, 1, 7), handle(6, 8), four(3),
    four(4), eight(5), eight(6), one(8, 2), one(16, 6),
]

OF_EACH_KIND = [5, 22, 0, 1, 0, 9, 0, 8, 0, 1, 0, 9, 0, 10, 0, 11, 0, 12, 0, 14, 0, 16, 0, 17]

BOOTSTRAP_METHODS = [
    ([5, 2, 0, 0], None), ([2, 0, 5, 10, 0, 2, 0, 9, 0, 0, 0, 9, 0, 0], None), (OF_EACH_KIND, None),
    ([5, 8, 0, 1, 0, 9, 0, 1, 0, 2], 0), ([5, 8, 0, 1, 0, 9, 0, 1, 0, 7], 0),
    ([5, 8, 0, 1, 0, 9, 0, 1, 0, 8], 0), ([5, 8, 0, 1, 0, 9, 0, 1, 0, 13], 0),
    ([5, 8, 0, 1, 0, 9, 0, 1, 0, 0], 0), ([5, 6, 0, 1, 0, 8, 0, 0], 0),
    ([5, 6, 0, 1, 0, 0, 0, 0], 0), ([5, 4, 0, 1, 0, 9], 0), ([5, 6, 0, 2, 0, 9, 0, 0], 0),
    ([5, 3, 0, 0, 0], 0), ([2, 0, 5, 0], 1), ([5, 2, 0, 0, 5, 2, 0, 0], 1),
]

TWO_BOOTSTRAPS = [5, 10, 0, 2, 0, 9, 0, 0, 0, 9, 0, 0]

# Entry 18 is a call of the bootstrap method at the row's place.
CALLS = [
    (0, [5, 6, 0, 1, 0, 9, 0, 0], None), (1, TWO_BOOTSTRAPS, None),
    (0, [2, 0, 5, 6, 0, 1, 0, 9, 0, 0], None), (1, [5, 6, 0, 1, 0, 9, 0, 0], (24, "pool 18")),
    (0xffff, TWO_BOOTSTRAPS, (24, "pool 18")), (0, [], (24, "pool 18")),
    (0, [5, 2, 0, 0], (24, "pool 18")), (0, [5, 4, 0, 1, 0, 9], (24, "pool 18")),
    (0, [5, 2, 0, 0, 5, 6, 0, 1, 0, 9, 0, 0], (24, "pool 18")),
    (0, [5, 6, 0, 1, 0, 9, 0, 0, 5, 2, 0, 0], (24, "attribute 1")),
]


def of_attributes():
    for table, entries, rule in (
            (SOURCES_AND_OTHERS, CLASS_ENTRIES, 23), (ENCLOSING_METHODS, CLASS_ENTRIES, 23),
            (INNER_CLASSES, CLASS_ENTRIES, 23), (BOOTSTRAP_METHODS, BOOTSTRAPS, 24)):
        for parts, place in table:
            yield (Draft(entries, attributes=parts),
                   broken(place is None, rule, f"attribute {place}"))
    for place, parts, expected in CALLS:
        yield Draft(BOOTSTRAPS + [two(18, place, 7)], attributes=parts), expected


# ---- the constant pool

TEXTS = [
    (b"", True), (b"\x01\x7f", True), (b"\xc0\x80", True), (b"\xdf\xbfa", True),
    (b"\xe0\x80\x80\xef\xbf\xbf", True), (b"\x00", False), (b"a\x80", False), (b"\xc0", False),
    (b"\xc0a", False), (b"\xc0\xc0", False), (b"\xe0\x80", False), (b"\xe0\x80a", False),
    (b"\xf0\x80\x80\x80", False),
]

# Entry 5 is a Long, 7 a name with a descriptor, 8 the entry of the row.
KINDS = [
    (one(7, 2), True), (one(7, 1), False), (one(7, 0), False), (one(8, 2), True),
    (one(8, 3), False), (one(8, 5), False), (one(16, 6), False), (one(16, 9), False),
    (one(16, 1), False), (two(9, 7, 1), False), (two(9, 1, 2), False), (two(10, 2, 7), False),
    (two(10, 1, 8), False), (two(11, 1, 6), False), (two(11, 0, 7), False), (two(12, 4, 2), True),
    (two(12, 1, 2), False), (two(12, 2, 3), False), (two(18, 0, 2), False), (two(18, 0, 8), False),
]

# Entry 7 is a Fieldref, 10 a Methodref, 11 an InterfaceMethodref, 12 the handle of the row. All
# members are named A.
REFERENCES_OF_HANDLES = [utf8(b"I"), two(12, 2, 5), two(9, 1, 6), utf8(b"()V"), two(12, 2, 8),
                         two(10, 1, 9), two(11, 1, 9)]

# The handle's kind, what it refers to, and the rule that it breaks.
HANDLES = [
    (0, 7, 3), (1, 7, None), (1, 10, 3), (2, 7, None), (3, 7, None), (3, 11, 3), (4, 7, None),
    (4, 10, 3), (4, 0, 3), (5, 10, None), (5, 7, 3), (5, 11, 3), (6, 10, None), (6, 11, None),
    (6, 7, 3), (7, 10, None), (7, 11, None), (7, 12, 3), (8, 10, 9), (8, 11, 3), (9, 11, None),
    (9, 10, 3), (10, 11, 3),
]

# Entry 8 is a reference to a member with the row's tag, name and descriptor, 9 a handle of it.
NAMES_OF_HANDLES = [
    (1, 9, b"<init>", b"I", True), (5, 10, b"run", b"()V", True), (5, 10, b"<init>", b"()V", False),
    (6, 10, b"<init>", b"()V", False), (6, 11, b"<clinit>", b"()V", False),
    (7, 10, b"<init>", b"()V", False), (7, 11, b"<init>", b"()V", False),
    (8, 10, b"<init>", b"()V", True), (8, 10, b"init", b"()V", False),
    (9, 11, b"run", b"()V", True), (9, 11, b"<clinit>", b"()V", False),
    (9, 11, b"<init>", b"()V", False),
]

CLASS_NAMES = [
    (b"a", True), (b"a/b/c", True), (b"<a>", True), (b"[I", True), (b"[[La/b;", True), (b"", False),
    (b"/a", False), (b"a/", False), (b"a//b", False), (b"a.b", False), (b"a;", False),
    (b"a[", False), (b"[", False), (b"[V", False), (b"[La", False), (b"[II", False),
]

# Entry 8 is the reference: its tag, a name, a descriptor, and the rule that it breaks.
REFERENCES = [
    (9, b"a", b"I", None), (9, b"<init>", b"[[J", None), (9, b"a", b"La/b;", None),
    (9, b"", b"I", 5), (9, b"a/b", b"I", 5), (9, b"a;", b"I", 5), (9, b"a", b"V", 5),
    (9, b"a", b"()V", 5), (9, b"a", b"L;", 5), (9, b"a", b"II", 5), (10, b"a", b"()V", None),
    (10, b"a", b"(I[JLa;)La;", None), (10, b"<init>", b"(I)V", None), (10, b"<init>", b"()I", 6),
    (10, b"<clinit>", b"()V", 6), (10, b"a<", b"()V", 6), (10, b"a", b"I", 6),
    (10, b"a", b"(V)V", 6), (10, b"a", b"()", 6), (11, b"a", b"()[I", None),
    (11, b"<clinit>", b"()V", None), (11, b"<init>", b"()I", None), (11, b"<a>", b"()V", 6),
    (11, b"a", b"(I", 6), (11, b"a", b"()VV", 6),
]

# A call without a bootstrap method breaks the last rule, once its name and descriptor are right.
DYNAMIC_CALLS = [
    (b"a", b"()V", 24), (b"<init>", b"()I", 24), (b"a>", b"()V", 7), (b"a/b", b"()V", 7),
    (b"a", b"I", 7),
]

METHOD_TYPES = [
    (b"()V", True), (b"(IJLa;[[Z)[La/b;", True), (b"", False), (b"I", False), (b"()", False),
    (b"(I)", False), (b"(L;)V", False), (b"(I)V)", False),
]

# Parameters of 255 units are the most. A long or a double has two.
UNITS = [
    (b"(", b'I', 255, True), (b"(", b'I', 256, False), (b"(I", b'J', 127, True),
    (b"(", b'J', 128, False), (b"(I", b'D', 127, True), (b"(", b'D', 128, False),
]


def of_pool():
    for content, right in TEXTS:
        yield Draft([utf8(content)]), broken(right, 1, "pool 5")
    for entry, right in KINDS:
        yield Draft([eight(5), two(12, 2, 2), entry]), broken(right, 2, "pool 8")
    for kind, reference, rule in HANDLES:
        yield (Draft(REFERENCES_OF_HANDLES + [handle(kind, reference)]),
               broken(rule is None, rule, "pool 12"))
    for kind, tag, name, descriptor, right in NAMES_OF_HANDLES:
        entries = [utf8(name), utf8(descriptor), two(12, 5, 6), two(tag, 1, 7), handle(kind, 8)]
        yield Draft(entries), broken(right, 9, "pool 9")
    for name, right in CLASS_NAMES:
        yield Draft([utf8(name), one(7, 5)]), broken(right, 4, "pool 6")


def of_references():
    for tag, name, descriptor, rule in REFERENCES:
        yield (Draft([utf8(name), utf8(descriptor), two(12, 5, 6), two(tag, 1, 7)]),
               broken(rule is None, rule, "pool 8"))
    for name, descriptor, rule in DYNAMIC_CALLS:
        yield Draft([utf8(name), utf8(descriptor), two(12, 5, 6), two(18, 0, 7)]), (rule, "pool 8")
    for descriptor, right in METHOD_TYPES:
        yield Draft([utf8(descriptor), one(16, 5)]), broken(right, 8, "pool 6")
    for front, parameter, times, right in UNITS:
        yield (Draft([utf8(front + parameter * times + b")V"), one(16, 5)]),
               broken(right, 8, "pool 6"))


# ---- the program

def spelled(case):
    return case.spelled() if isinstance(case, Draft) else case


def is_told(reply, expected):
    """Whether this is the reply to a class that is right, has this shape fault, or breaks this rule
    there."""
    if expected is None:
        return reply.startswith(b"ok ")
    if isinstance(expected, tuple):
        expected = "V%d %s" % expected
    return reply == b"refused 14 " + expected.encode()


def main(program):
    checks = harness.Checks()
    for theme in (of_class_a, of_heads, of_fields, of_methods, of_codes, of_members, of_attributes,
                  of_pool, of_references):
        cases = [*theme()]
        # Each class has a loader of its own, since many have one name.
        lines = [line for at, (case, _) in enumerate(cases)
                 for line in (b"loader l%d" % at,
                              harness.define(b"l%d" % at, spelled(case)))]
        replies, _, errors = harness.run(program, ["apply", "--memory"], lines)
        checks.check(f"{theme.__name__}: a reply to each line",
                     len(replies) == len(lines) and not errors, errors)
        for at, (_, expected) in enumerate(cases):
            reply = replies[2 * at + 1] if 2 * at + 1 < len(replies) else b""
            checks.check(f"{theme.__name__}, case {at}", is_told(reply, expected),
                         f"wanted {expected}, got {reply}")
    return checks.finish()


if __name__ == "__main__":
    sys.exit(main(sys.argv[1]))
