#!/usr/bin/env python3
"""The model of the cache: which classes and commands are accepted, why others are refused, and
where records lie. As a program, the replies to a script for `cmcache apply --memory`.

    tests/oracle.py < SCRIPT > REPLIES

It is written from the project's description of lines, faults, rules, records and chunks and from
JVMS SE 8, chapter 4, and shares no code with the program. It has no device, and as much memory as
it needs: no reply is `unsure`, and none is a refusal 9 or 10. region.py says what a file holds
after a script, and simulate.py what becomes of groups, device calls and crashes.
"""
import functools
import re
import sys
from typing import NamedTuple

LINE_LIMIT = 16_777_216  # bytes
RECORD_LIMIT = 524_288  # words
UNIT = 128  # words of the least chunk
NAME_LIMIT = 96  # bytes of a loader's name
NAME_ROOM = 48  # and how many of them a slot of the journal has room for
UNLOAD_LIMIT = 7  # loaders that one command unloads
GROUP_SLOTS = 64  # slots of the commands that are stored together
LAST_NUMBER = 2 ** 63


# ---- the shape of a class file

class Truncated(Exception):
    pass


class Malformed(Exception):
    pass


UTF8, INTEGER, FLOAT, LONG, DOUBLE, CLASS, STRING = 1, 3, 4, 5, 6, 7, 8
FIELDREF, METHODREF, INTERFACE_METHODREF, NAME_AND_TYPE = 9, 10, 11, 12
METHOD_HANDLE, METHOD_TYPE, INVOKE_DYNAMIC = 15, 16, 18

# The sizes of the numbers after each tag except that of a Utf8.
BODIES = {
    INTEGER: (4,), FLOAT: (4,), LONG: (8,), DOUBLE: (8,), CLASS: (2,), STRING: (2,),
    METHOD_TYPE: (2,), FIELDREF: (2, 2), METHODREF: (2, 2), INTERFACE_METHODREF: (2, 2),
    NAME_AND_TYPE: (2, 2), METHOD_HANDLE: (1, 2), INVOKE_DYNAMIC: (2, 2),
}


class Cursor:
    """Bytes that are read from their front."""

    def __init__(self, data):
        self.data = data
        self.at = 0

    def take(self, count):
        if len(self.data) - self.at < count:
            raise Truncated
        piece = self.data[self.at:self.at + count]
        self.at += count
        return piece

    def number(self, size):
        return int.from_bytes(self.take(size), "big")

    def fixed(self, expected):
        """Fixed bytes; at the first wrong one no class file continues."""
        for byte in expected:
            if self.take(1)[0] != byte:
                raise Malformed(self.at - 1)


class Member:
    def __init__(self, flags, name, descriptor, attributes):
        self.flags = flags
        self.name = name
        self.descriptor = descriptor
        self.attributes = attributes


def read_pool(cursor):
    """A dictionary from index to (tag, content); an index that can't be used isn't in it."""
    count = cursor.number(2)
    if count == 0:
        raise Malformed(cursor.at - 1)
    pool = {}
    index = 1
    while index < count:
        at = cursor.at
        tag = cursor.number(1)
        if tag != UTF8 and tag not in BODIES:
            raise Malformed(at)
        wide = tag in (LONG, DOUBLE)
        if wide and index == count - 1:
            raise Malformed(at)
        if tag == UTF8:
            pool[index] = (tag, cursor.take(cursor.number(2)))
        else:
            pool[index] = (tag, tuple(cursor.number(size) for size in BODIES[tag]))
        index += 2 if wide else 1
    return count, pool


def read_attributes(cursor):
    attributes = []
    for _ in range(cursor.number(2)):
        name = cursor.number(2)
        attributes.append((name, cursor.take(cursor.number(4))))
    return attributes


def read_members(cursor):
    members = []
    for _ in range(cursor.number(2)):
        flags, name, descriptor = cursor.number(2), cursor.number(2), cursor.number(2)
        members.append(Member(flags, name, descriptor, read_attributes(cursor)))
    return members


class ClassFile:
    def __init__(self, cursor):
        cursor.fixed(b"\xca\xfe\xba\xbe\x00\x00\x00\x34")
        self.count, self.pool = read_pool(cursor)
        self.flags = cursor.number(2)
        self.this_class = cursor.number(2)
        self.super_class = cursor.number(2)
        self.interfaces = [cursor.number(2) for _ in range(cursor.number(2))]
        self.fields = read_members(cursor)
        self.methods = read_members(cursor)
        self.attributes = read_attributes(cursor)

    def has(self, index, *tags):
        """Whether an index can be used and has an entry of one of these tags."""
        return index in self.pool and self.pool[index][0] in tags

    def text(self, index):
        return self.pool[index][1]

    def class_name(self, index):
        """The bytes that a Class leads to."""
        return self.text(self.pool[index][1][0])

    def name_and_type(self, index):
        name, descriptor = self.pool[index][1]
        return self.text(name), self.text(descriptor)

    def is_interface(self):
        return bool(self.flags & INTERFACE)

    def members(self):
        for index, field in enumerate(self.fields):
            yield "field", index, field
        for index, method in enumerate(self.methods):
            yield "method", index, method

    def record(self):
        """The words of the record: the head, the directory, interfaces, members, attributes, and
        the runs."""
        lists = [member.attributes for _, _, member in self.members()] + [self.attributes]
        attributes = [attribute for some in lists for attribute in some]
        interfaces = 8 + self.count
        members = interfaces + len(self.interfaces)
        rows = members + 2 * (len(self.fields) + len(self.methods))
        runs = rows + 2 * len(attributes)
        tail = []

        def run(content):
            """Where the run of these bytes begins."""
            at = runs + len(tail)
            tail.extend(int.from_bytes(content[i:i + 8], "little")
                        for i in range(0, len(content), 8))
            return at

        directory = [0] * self.count
        for index in sorted(self.pool):
            tag, content = self.pool[index]
            if tag == UTF8:
                directory[index] = packed(tag, len(content), low=run(content))
            elif tag in (LONG, DOUBLE):
                directory[index:index + 2] = [tag, content[0]]
            elif len(content) == 2:
                directory[index] = packed(tag, third=content[0], fourth=content[1])
            else:
                directory[index] = packed(tag, low=content[0])
        spelled, first = [], 0
        for _, _, member in self.members():
            spelled += [packed(member.flags, member.name, member.descriptor,
                               len(member.attributes)), rows + 2 * first]
            first += len(member.attributes)
        listed = [word for name, content in attributes
                  for word in (packed(name, low=len(content)), run(content))]
        head = [
            runs + len(tail),
            packed(self.flags, self.this_class, self.super_class, len(self.interfaces)),
            packed(self.count, len(self.fields), len(self.methods), len(self.attributes)),
            8, interfaces, members, rows, runs,
        ]
        return head + directory + self.interfaces + spelled + listed + tail


def packed(first, second=0, third=0, fourth=0, low=0):
    """A word of four numbers of 16 bits, or of two and one of 32 bits after them."""
    return first | second << 16 | (third | low) << 32 | fourth << 48


def read_shape(data):
    """The class and None, or None and the text of the shape's fault."""
    cursor = Cursor(data)
    try:
        found = ClassFile(cursor)
    except Truncated:
        return None, "truncated"
    except Malformed as fault:
        return None, f"malformed {fault}"
    if cursor.at < len(data):
        return None, f"trailing {cursor.at}"
    return found, None


# ---- names and descriptors

FORM = re.compile(rb"(?:[\x01-\x7f]|[\xc0-\xdf][\x80-\xbf]|[\xe0-\xef][\x80-\xbf]{2})*", re.DOTALL)
UNQUALIFIED = rb"[^.;\[/]+"
CLASS_NAME = UNQUALIFIED + rb"(?:/" + UNQUALIFIED + rb")*"
FIELD = rb"\[{0,255}(?:[BCDFIJSZ]|L" + CLASS_NAME + rb";)"
IS_UNQUALIFIED = re.compile(UNQUALIFIED)
IS_CLASS_NAME = re.compile(CLASS_NAME)
IS_FIELD = re.compile(FIELD)
IS_METHOD = re.compile(rb"\(((?:" + FIELD + rb")*)\)(?:" + FIELD + rb"|V)")
ONE_FIELD = re.compile(FIELD)


def is_unqualified(name):
    return bool(IS_UNQUALIFIED.fullmatch(name))


def is_method_name(name):
    if name in (b"<init>", b"<clinit>"):
        return True
    return is_unqualified(name) and b"<" not in name and b">" not in name


def is_field_descriptor(text):
    return bool(IS_FIELD.fullmatch(text))


def units(text):
    """How many units a method descriptor's parameters take; None if it is no method descriptor."""
    match = IS_METHOD.fullmatch(text)
    if not match:
        return None
    total = sum(2 if piece in (b"J", b"D") else 1 for piece in ONE_FIELD.findall(match.group(1)))
    return total if total <= 255 else None


def is_method_descriptor(text):
    return units(text) is not None


# ---- the rules; each yields the spots where it is broken, in their order

PUBLIC, PRIVATE, PROTECTED, STATIC, FINAL = 0x0001, 0x0002, 0x0004, 0x0008, 0x0010
SUPER = SYNCHRONIZED = 0x0020
VOLATILE = BRIDGE = 0x0040
TRANSIENT, NATIVE, INTERFACE, ABSTRACT, STRICT = 0x0080, 0x0100, 0x0200, 0x0400, 0x0800
ANNOTATION, ENUM = 0x2000, 0x4000


def constants(c, *tags):
    for index in sorted(c.pool):
        tag, content = c.pool[index]
        if tag in tags:
            yield index, tag, content


def v1(c):
    for index, _, text in constants(c, UTF8):
        if not FORM.fullmatch(text):
            yield f"pool {index}"


def entry_names_its_kinds(c, tag, content):
    if tag in (CLASS, STRING, METHOD_TYPE):
        return c.has(content[0], UTF8)
    if tag in (FIELDREF, METHODREF, INTERFACE_METHODREF):
        return c.has(content[0], CLASS) and c.has(content[1], NAME_AND_TYPE)
    if tag == NAME_AND_TYPE:
        return c.has(content[0], UTF8) and c.has(content[1], UTF8)
    if tag == INVOKE_DYNAMIC:
        return c.has(content[1], NAME_AND_TYPE)
    return True


def v2(c):
    for index in sorted(c.pool):
        if not entry_names_its_kinds(c, *c.pool[index]):
            yield f"pool {index}"
    if not c.has(c.this_class, CLASS):
        yield "this"
    if c.super_class != 0 and not c.has(c.super_class, CLASS):
        yield "super"
    for index, interface in enumerate(c.interfaces):
        if not c.has(interface, CLASS):
            yield f"interface {index}"
    for sort, index, member in c.members():
        named = [member.name, member.descriptor] + [name for name, _ in member.attributes]
        if not all(c.has(name, UTF8) for name in named):
            yield f"{sort} {index}"
    for index, (name, _) in enumerate(c.attributes):
        if not c.has(name, UTF8):
            yield f"attribute {index}"


HANDLE_TARGETS = {
    1: (FIELDREF,), 2: (FIELDREF,), 3: (FIELDREF,), 4: (FIELDREF,), 5: (METHODREF,),
    8: (METHODREF,), 6: (METHODREF, INTERFACE_METHODREF), 7: (METHODREF, INTERFACE_METHODREF),
    9: (INTERFACE_METHODREF,),
}


def v3(c):
    for index, _, (kind, reference) in constants(c, METHOD_HANDLE):
        if kind not in HANDLE_TARGETS or not c.has(reference, *HANDLE_TARGETS[kind]):
            yield f"pool {index}"


def v4(c):
    for index, _, (name,) in constants(c, CLASS):
        text = c.text(name)
        if (not IS_CLASS_NAME.fullmatch(text)
                and not (text.startswith(b"[") and is_field_descriptor(text))):
            yield f"pool {index}"


def v5(c):
    for index, _, (_, target) in constants(c, FIELDREF):
        name, descriptor = c.name_and_type(target)
        if not (is_unqualified(name) and is_field_descriptor(descriptor)):
            yield f"pool {index}"


def v6(c):
    for index, tag, (_, target) in constants(c, METHODREF, INTERFACE_METHODREF):
        name, descriptor = c.name_and_type(target)
        good = is_method_name(name) and is_method_descriptor(descriptor)
        if good and tag == METHODREF and name.startswith(b"<"):
            good = name == b"<init>" and descriptor.endswith(b"V")
        if not good:
            yield f"pool {index}"


def v7(c):
    for index, _, (_, target) in constants(c, INVOKE_DYNAMIC):
        name, descriptor = c.name_and_type(target)
        if not (is_method_name(name) and is_method_descriptor(descriptor)):
            yield f"pool {index}"


def v8(c):
    for index, _, (descriptor,) in constants(c, METHOD_TYPE):
        if not is_method_descriptor(c.text(descriptor)):
            yield f"pool {index}"


def v9(c):
    for index, _, (kind, reference) in constants(c, METHOD_HANDLE):
        if kind < 5:
            continue
        name, _ = c.name_and_type(c.pool[reference][1][1])
        if name != b"<init>" if kind == 8 else name in (b"<init>", b"<clinit>"):
            yield f"pool {index}"


def v10(c):
    flags = c.flags
    if flags & INTERFACE:
        good = flags & ABSTRACT and not flags & (FINAL | SUPER | ENUM)
    else:
        good = not flags & ANNOTATION and flags & (FINAL | ABSTRACT) != FINAL | ABSTRACT
    if not good:
        yield "this"


def v11(c):
    if c.class_name(c.this_class).startswith(b"["):
        yield "this"


def v12(c):
    object_name = b"java/lang/Object"
    if c.is_interface():
        good = c.super_class != 0 and c.class_name(c.super_class) == object_name
    else:
        good = c.super_class != 0 or c.class_name(c.this_class) == object_name
    if not good:
        yield "super"


def v13(c):
    for index, field in enumerate(c.fields):
        if not (is_unqualified(c.text(field.name))
                and is_field_descriptor(c.text(field.descriptor))):
            yield f"field {index}"


def at_most_one_access(flags):
    return [bool(flags & bit) for bit in (PUBLIC, PRIVATE, PROTECTED)].count(True) <= 1


def v14(c):
    needed = PUBLIC | STATIC | FINAL
    for index, field in enumerate(c.fields):
        flags = field.flags
        good = at_most_one_access(flags) and flags & (FINAL | VOLATILE) != FINAL | VOLATILE
        if c.is_interface():
            good = good and flags & needed == needed
            good = good and not flags & (PRIVATE | PROTECTED | VOLATILE | TRANSIENT | ENUM)
        if not good:
            yield f"field {index}"


def twice(c, sort, members):
    seen = set()
    for index, member in enumerate(members):
        key = c.text(member.name), c.text(member.descriptor)
        if key in seen:
            yield f"{sort} {index}"
        seen.add(key)


def v15(c):
    return twice(c, "field", c.fields)


def v16(c):
    for index, method in enumerate(c.methods):
        if not (is_method_name(c.text(method.name))
                and is_method_descriptor(c.text(method.descriptor))):
            yield f"method {index}"


def v17(c):
    for index, method in enumerate(c.methods):
        if not method.flags & STATIC and c.text(method.name) != b"<clinit>":
            if units(c.text(method.descriptor)) > 254:
                yield f"method {index}"


def method_flags_agree(c, name, flags):
    good = at_most_one_access(flags)
    if flags & ABSTRACT:
        good = good and not flags & (PRIVATE | STATIC | FINAL | SYNCHRONIZED | NATIVE | STRICT)
    if c.is_interface():
        good = good and bool(flags & PUBLIC) != bool(flags & PRIVATE)
        good = good and not flags & (PROTECTED | FINAL | SYNCHRONIZED | NATIVE)
    if name == b"<init>":
        good = good and not flags & (STATIC | FINAL | SYNCHRONIZED | BRIDGE | NATIVE | ABSTRACT)
    return good


def v18(c):
    for index, method in enumerate(c.methods):
        name = c.text(method.name)
        if name != b"<clinit>" and not method_flags_agree(c, name, method.flags):
            yield f"method {index}"


def v19(c):
    return twice(c, "method", c.methods)


def contents(c, attributes, wanted):
    """The contents of the attributes of a name."""
    return [content for name, content in attributes if c.text(name) == wanted]


def v20(c):
    for index, method in enumerate(c.methods):
        codes = len(contents(c, method.attributes, b"Code"))
        if c.text(method.name) == b"<clinit>":
            good = codes <= 1
        elif method.flags & (NATIVE | ABSTRACT):
            good = codes == 0
        else:
            good = codes == 1
        if not good:
            yield f"method {index}"


def whole(content, read):
    """Whether reading takes all of the bytes, and says that they are good."""
    cursor = Cursor(content)
    try:
        return read(cursor) and cursor.at == len(content)
    except Truncated:
        return False


def code_is_good(c, content):
    def read(cursor):
        cursor.take(4)
        length = cursor.number(4)
        if not 1 <= length <= 65_535:
            return False
        cursor.take(length)
        good = True
        for _ in range(cursor.number(2)):
            start, end, handler, catch = (cursor.number(2) for _ in range(4))
            good = good and start < end <= length and handler < length
            good = good and (catch == 0 or c.has(catch, CLASS))
        return good and all(c.has(name, UTF8) for name, _ in read_attributes(cursor))

    return whole(content, read)


def v21(c):
    for index, method in enumerate(c.methods):
        if not all(code_is_good(c, code) for code in contents(c, method.attributes, b"Code")):
            yield f"method {index}"


def names_one(c, content, *tags):
    return len(content) == 2 and c.has(int.from_bytes(content, "big"), *tags)


def common_is_good(c, name, content):
    """Signature, Synthetic and Deprecated, which may stand anywhere."""
    if name == b"Signature":
        return names_one(c, content, UTF8)
    if name in (b"Synthetic", b"Deprecated"):
        return len(content) == 0
    return True


VALUES = {
    b"J": LONG, b"F": FLOAT, b"D": DOUBLE, b"I": INTEGER, b"S": INTEGER, b"C": INTEGER,
    b"B": INTEGER, b"Z": INTEGER, b"Ljava/lang/String;": STRING,
}


def constant_value_is_good(c, field, content):
    if len(content) != 2:
        return False
    if not field.flags & STATIC:
        return True
    descriptor = c.text(field.descriptor)
    return descriptor in VALUES and names_one(c, content, VALUES[descriptor])


def exceptions_are_good(c, content):
    def read(cursor):
        return all([c.has(cursor.number(2), CLASS) for _ in range(cursor.number(2))])

    return whole(content, read)


def v22(c):
    for sort, index, member in c.members():
        good = all(common_is_good(c, c.text(name), content) for name, content in member.attributes)
        if sort == "field":
            values = contents(c, member.attributes, b"ConstantValue")
            good = (good and len(values) <= 1
                    and all(constant_value_is_good(c, member, each) for each in values))
        else:
            lists = contents(c, member.attributes, b"Exceptions")
            good = good and len(lists) <= 1 and all(exceptions_are_good(c, each) for each in lists)
        if not good:
            yield f"{sort} {index}"


def enclosing_is_good(c, content):
    if len(content) != 4:
        return False
    method = int.from_bytes(content[2:], "big")
    return names_one(c, content[:2], CLASS) and (method == 0 or c.has(method, NAME_AND_TYPE))


def inner_classes_are_good(c, content):
    def read(cursor):
        good = True
        for _ in range(cursor.number(2)):
            inner, outer, name, _ = (cursor.number(2) for _ in range(4))
            good = good and c.has(inner, CLASS) and (outer == 0 or c.has(outer, CLASS))
            good = good and (name == 0 or c.has(name, UTF8))
        return good

    return whole(content, read)


SINGLE = {
    b"SourceFile": lambda c, content: names_one(c, content, UTF8),
    b"EnclosingMethod": enclosing_is_good,
    b"InnerClasses": inner_classes_are_good,
}


def v23(c):
    seen = set()
    for index, (name_index, content) in enumerate(c.attributes):
        name = c.text(name_index)
        good = common_is_good(c, name, content)
        if name in SINGLE:
            good = good and name not in seen and SINGLE[name](c, content)
            seen.add(name)
        if not good:
            yield f"attribute {index}"


LOADABLE = (STRING, CLASS, INTEGER, LONG, FLOAT, DOUBLE, METHOD_HANDLE, METHOD_TYPE)


def bootstrap_rows(c, content):
    """How many rows there are; None if the content is ill formed."""
    rows = int.from_bytes(content[:2], "big")

    def read(cursor):
        good = True
        for _ in range(cursor.number(2)):
            good = c.has(cursor.number(2), METHOD_HANDLE) and good
            for _ in range(cursor.number(2)):
                good = c.has(cursor.number(2), *LOADABLE) and good
        return good

    return rows if whole(content, read) else None


def v24(c):
    lists = [(index, bootstrap_rows(c, content))
             for index, (name, content) in enumerate(c.attributes)
             if c.text(name) == b"BootstrapMethods"]
    rows = (lists[0][1] or 0) if lists else 0
    for index, _, (bootstrap_method, _) in constants(c, INVOKE_DYNAMIC):
        if bootstrap_method >= rows:
            yield f"pool {index}"
    for place, (index, count) in enumerate(lists):
        if place > 0 or count is None:
            yield f"attribute {index}"


RULES = [v1, v2, v3, v4, v5, v6, v7, v8, v9, v10, v11, v12, v13, v14, v15, v16, v17, v18, v19, v20,
         v21, v22, v23, v24]


def first_fault(c):
    """The first rule that is broken, with its first spot; None if all are kept."""
    for number, rule in enumerate(RULES, 1):
        for spot in rule(c):
            return f"V{number} {spot}"
    return None


# ---- refusals

REFUSALS = {
    1: "name", 2: "loader exists", 3: "no loader", 4: "class exists", 5: "record too long",
    6: "region full", 7: "journal full", 8: "no move", 15: "line", 16: "list",
}


class Refused(Exception):
    """Why a line is refused: the number K of docs/PROGRAM.md, and its text."""

    def __init__(self, cause, text=None):
        super().__init__(f"{cause} {text or REFUSALS[cause]}")
        self.cause = cause


# ---- classes that can be stored

class Prepared(NamedTuple):
    """A class that keeps all rules, and the words of its record."""
    name: bytes
    words: list
    flags: int
    super_name: bytes


@functools.lru_cache(maxsize=64)
def prepare(data):
    """The class with these bytes. Scripts define few classes, over and over."""
    found, fault = read_shape(data)
    fault = fault or first_fault(found)
    if fault:
        raise Refused(14, fault)
    words = found.record()
    if len(words) > RECORD_LIMIT:
        raise Refused(5)
    return Prepared(found.class_name(found.this_class), words, found.flags,
                    found.class_name(found.super_class) if found.super_class else None)


# ---- places

class Chunk(NamedTuple):
    """The words of a root from `at` on: 128 * 2^order of them."""
    root: int
    order: int
    at: int

    @property
    def words(self):
        return UNIT << self.order

    def meets(self, other):
        return (self.root == other.root and self.at < other.at + other.words
                and other.at < self.at + self.words)

    def is_better(self, other):
        """Whether records may move here from the other: it is smaller, or lies before."""
        return self.order < other.order or (self.root, self.at) < (other.root, other.at)


class Geometry:
    """A file's sizes: the order of a root, how many roots it may have, and the slots of a half."""

    def __init__(self, top=8, roots=64, slots=4096):
        self.top = top
        self.roots = roots
        self.slots = slots

    def is_within_limits(self):
        return (3 <= self.top <= 12 and 1 <= self.roots <= 256 and 256 <= self.slots <= 65_536)

    @property
    def root_words(self):
        return UNIT << self.top

    @property
    def row_slots(self):
        """How many slots live loaders and classes may take: half of those of a half."""
        return self.slots // 2

    def has(self, chunk):
        """Whether the region can have this chunk."""
        return (chunk.order <= self.top and chunk.root < self.roots and chunk.at % chunk.words == 0
                and chunk.at + chunk.words <= self.root_words)


def order_for(words):
    """The least order whose chunks hold this many words."""
    return next(order for order in range(64) if UNIT << order >= words)


def chain_of(places):
    """A loader's chunks in their order, each with its used words, from the chunk and the words of
    each of its records."""
    used = {}
    for chunk, words in places:
        used[chunk] = used.get(chunk, 0) + words
    return list(used.items())


def roots_used(chunks):
    """One more than the greatest root of these chunks."""
    return max((chunk.root + 1 for chunk in chunks), default=0)


# ---- loaders

def is_loader_name(name):
    return 1 <= len(name) <= NAME_LIMIT and all(0x21 <= byte <= 0x7e for byte in name)


def slots_of_name(name):
    """How many slots of the journal a loader of this name takes."""
    return 2 if len(name) > NAME_ROOM else 1


class Live(NamedTuple):
    """A live class: its command's number, and where its record lies."""
    number: int
    made: Prepared
    chunk: Chunk
    offset: int


class Loader(NamedTuple):
    """A live loader: its command's number, and its classes in the order of their commands."""
    number: int
    classes: dict

    def chain(self):
        return chain_of((live.chunk, len(live.made.words)) for live in self.classes.values())

    def chunks(self):
        return {live.chunk for live in self.classes.values()}


def chunks_of(loaders):
    """The chunks on which the classes of these loaders lie."""
    return {chunk for loader in loaders.values() for chunk in loader.chunks()}


def live_slots(loaders):
    """How many slots of the journal these loaders and their classes take."""
    return sum(slots_of_name(name) + len(loader.classes) for name, loader in loaders.items())


# ---- the cache

class Cache:
    """What is accepted. A command that isn't raises its refusal, and changes nothing; one that is
    returns its number.

    Of each command its entry in the journal is kept, and the loaders after it: states[N] are those
    after number N. A chunk that a command left waits until that command is known to be stored."""

    def __init__(self, geometry=None):
        self.geometry = geometry or Geometry()
        self.entries = []
        self.states = [{}]
        self.roots = 0  # those that are present
        self.waiting = []

    @property
    def number(self):
        return len(self.entries)

    @property
    def loaders(self):
        return self.states[-1]

    def copy(self):
        """The same cache once more, to try something."""
        other = Cache(self.geometry)
        other.entries, other.states = [*self.entries], [*self.states]
        other.roots, other.waiting = self.roots, [*self.waiting]
        return other

    def reopened(self, number=None):
        """Opened again from a file that holds the commands up to this number, or all of them: no
        chunk waits, and the roots after the last one in use are no longer present."""
        if number is not None:
            del self.entries[number:]
            del self.states[number + 1:]
        self.roots = roots_used(chunks_of(self.loaders))
        self.waiting = []
        return self

    def learn(self, number):
        """The commands up to this number are stored."""
        self.waiting = [wait for wait in self.waiting if wait[0] > number]

    # -- the rules, in the order of docs/PROGRAM.md

    def check_name(self, name):
        if not is_loader_name(name):
            raise Refused(1)

    def named(self, name):
        self.check_name(name)
        if name not in self.loaders:
            raise Refused(3)
        return self.loaders[name]

    def check_room(self, slots):
        if live_slots(self.loaders) + slots > self.geometry.row_slots:
            raise Refused(7)

    def first_free(self, order):
        """The first free block of an order, by root and then place; None if there is none."""
        taken = [0] * self.roots  # of each root a bit for each unit
        for chunk in [*chunks_of(self.loaders), *(chunk for _, chunk in self.waiting)]:
            taken[chunk.root] |= ((1 << (1 << chunk.order)) - 1) << chunk.at // UNIT
        block = (1 << (1 << order)) - 1
        for root, units in enumerate(taken):
            for at in range(0, self.geometry.root_words, UNIT << order):
                if not units >> at // UNIT & block:
                    return Chunk(root, order, at)
        return None

    def place(self, loader, words):
        """The chunk and the offset for a record of this many words. The chunk may be the first of a
        root that isn't present yet."""
        chain = loader.chain()
        if chain:
            chunk, used = chain[-1]
            if used + words <= chunk.words:
                return chunk, used
        need = order_for(words)
        wanted = max(need, min(len(chain), 4, self.geometry.top))
        chunk = self.first_free(wanted) or self.first_free(need)
        if not chunk and self.roots == self.geometry.roots:
            raise Refused(6)
        return chunk or Chunk(self.roots, wanted, 0), 0

    def better_place(self, loader):
        """The loader's last chunk, and the one to which its records may move: the first free one of
        the least order that holds them."""
        chain = loader.chain()
        if not chain:
            raise Refused(8)
        old, used = chain[-1]
        new = self.first_free(order_for(used))
        if not new or not new.is_better(old):
            raise Refused(8)
        return old, new

    # -- the commands

    def accept(self, entry, changed, left=()):
        """A command with this entry gives these names their loaders, or none, and leaves chunks."""
        after = {**self.loaders, **changed}
        self.entries.append(entry)
        self.states.append({name: loader for name, loader in after.items() if loader})
        self.roots = max(self.roots, roots_used(chunks_of(self.loaders)))
        self.waiting += [(self.number, chunk) for chunk in left]
        return self.number

    def loader(self, name):
        self.check_name(name)
        if name in self.loaders:
            raise Refused(2)
        self.check_room(slots_of_name(name))
        number = self.number + 1
        return self.accept(("loader", number, name), {name: Loader(number, {})})

    def unload(self, name):
        gone = self.named(name)
        return self.accept(("unload", gone.number), {name: None}, gone.chunks())

    def unload_all(self, names):
        if len(names) > UNLOAD_LIMIT or len(set(names)) < len(names):
            raise Refused(16)
        for name in names:
            self.check_name(name)
        gone = {name: self.named(name) for name in names}
        return self.accept(("unloadall", [loader.number for loader in gone.values()]),
                           dict.fromkeys(names), chunks_of(gone))

    def tighten(self, name):
        """The entry has both chunks, and each record that moves, with its offset."""
        loader = self.named(name)
        old, new = self.better_place(loader)
        classes = {class_name: live._replace(chunk=new) if live.chunk == old else live
                   for class_name, live in loader.classes.items()}
        records = [(live.offset, live.made.words) for live in classes.values() if live.chunk == new]
        return self.accept(("move", loader.number, old, new, records),
                           {name: Loader(loader.number, classes)}, [old])

    def define(self, name, made):
        loader = self.named(name)
        if made.name in loader.classes:
            raise Refused(4)
        if len(made.words) > self.geometry.root_words:
            raise Refused(5)
        self.check_room(1)
        chunk, offset = self.place(loader, len(made.words))
        classes = {**loader.classes, made.name: Live(self.number + 1, made, chunk, offset)}
        return self.accept(("define", loader.number, chunk, offset, made.words),
                           {name: Loader(loader.number, classes)})

    def find(self, name, class_name):
        """The class of that name in the loader, or None."""
        loader = self.loaders.get(name)
        live = loader.classes.get(class_name) if loader else None
        return live and live.made

    # -- scripts

    def reply(self, line):
        """The reply to a line that isn't refused."""
        verb, *words = line.split(b" ")
        if len(line) > LINE_LIMIT or b"" in (verb, *words):
            raise Refused(15)
        if verb == b"loader" and len(words) == 1:
            return b"ok %d" % self.loader(*words)
        if verb == b"unload" and len(words) == 1:
            return b"ok %d" % self.unload(*words)
        if verb == b"unloadall" and words:
            return b"ok %d" % self.unload_all(words)
        if verb == b"tighten" and len(words) == 1:
            return b"ok %d" % self.tighten(*words)
        if verb == b"define" and len(words) == 2:
            made = prepare(class_bytes(words[1]))
            return b"ok %d %s" % (self.define(words[0], made), escaped(made.name))
        if verb == b"find" and len(words) == 2:
            made = self.find(words[0], unescaped(words[1]))
            return told(made) if made else b"none"
        raise Refused(15)

    def answer(self, line):
        """The reply to a line, refusals too. It is stored before the next line is run."""
        try:
            reply = self.reply(line)
        except Refused as refusal:
            return b"refused %s" % str(refusal).encode("ascii")
        self.learn(self.number)
        return reply


# ---- the text of scripts

def escaped(name):
    return b"".join(bytes([b]) if 0x21 <= b <= 0x7e and b != 0x25 else b"%%%02X" % b for b in name)


ESCAPES = re.compile(rb"(?:[\x21-\x24\x26-\x7e]|%[0-9A-Fa-f]{2})+")


def unescaped(word):
    if not ESCAPES.fullmatch(word):
        raise Refused(15)
    name = re.sub(rb"%(..)", lambda match: bytes([int(match.group(1), 16)]), word)
    # An escape is accepted only if the byte couldn't stand for itself.
    if len(escaped(name)) != len(word):
        raise Refused(15)
    return name


def class_bytes(word):
    if len(word) % 2 or not re.fullmatch(rb"[0-9A-Fa-f]+", word):
        raise Refused(15)
    return bytes.fromhex(word.decode("ascii"))


def told(made):
    """What `find` replies of a class."""
    super_name = b"-" if made.super_name is None else escaped(made.super_name)
    return b"class %s flags %04x super %s words %d" % (escaped(made.name), made.flags, super_name,
                                                       len(made.words))


def lines_of(script):
    lines = script.split(b"\n")
    return lines[:-1] if lines[-1] == b"" else lines


def answers(lines, geometry=None):
    """A new cache after these lines, and their replies."""
    cache = Cache(geometry)
    return cache, [cache.answer(line) for line in lines]


def status_of(replies):
    """The status with which a script ends that got these replies."""
    return int(any(reply.startswith(b"refused") for reply in replies))


def main():
    _, replies = answers(lines_of(sys.stdin.buffer.read()))
    sys.stdout.buffer.write(b"".join(reply + b"\n" for reply in replies))
    return status_of(replies)


if __name__ == "__main__":
    sys.exit(main())
