#!/usr/bin/env python3
"""What a region file holds, computed independently of the program.

    tests/region.py check FILE             what `cmcache check FILE` has to say of it
    tests/region.py list FILE              what `cmcache list FILE` has to say of it
    tests/region.py opened FILE            writes the bytes that it has once it was opened: those
                                           that it had, or if it is of version 1, those of the
                                           upgraded file
    tests/region.py new TOP ROOTS SLOTS    writes the bytes of a new file
    tests/region.py after < SCRIPT         writes the bytes of a new file after the script, whose
                                           replies oracle.py gives

It is written from docs/REGION.md and docs/CRASH.md (the order of device calls), and shares no code
with the program.
"""
import struct
import sys

import oracle

MAGIC = b"CMCACHE1"
OPEN = 0xA5
SUPERBLOCK = 4096
SLOT = 64
HEAD, GROUP, LOADER, DEFINE, UNLOAD, MOVE = 0x01, 0x02, 0x11, 0x12, 0x13, 0x14
UNLOAD_ALL, REST = 0x15, 0x16
# The version of entries that is written; files of version 1 are read, and upgraded.
VERSION = 2


class NotACache(Exception):
    def __str__(self):
        return "not a cache"


class Damaged(Exception):
    def __init__(self, kind, slot):
        self.kind = kind
        self.slot = slot

    def __str__(self):
        return f"damaged {self.kind} {self.slot}"


# ---- writing

def spelled(kind, form, *numbers, gate=0):
    """A slot: numbers after its first two bytes, and zeros."""
    return (bytes([gate, kind]) + struct.pack("<" + form, *numbers)).ljust(SLOT, b"\0")


def head_slot(live, epoch, base, gate=0, version=VERSION):
    return spelled(HEAD, "HIQQ", version, live, epoch, base, gate=gate)


def group_slot(count, first, gate=0):
    return spelled(GROUP, "H4xQ", count, first, gate=gate)


def rest_slot(rest):
    """The slot with those bytes of a loader's name for which its own has no room."""
    return spelled(REST, "")[:16] + rest.ljust(48, b"\0")


def entry_slots(entry):
    """The slot of an entry, or the two of a loader with a long name."""
    kind, *what = entry
    if kind == "loader":
        number, name = what
        first, rest = name[:oracle.NAME_ROOM], name[oracle.NAME_ROOM:]
        slot = spelled(LOADER, "B5xQ", len(name), number)[:16] + first.ljust(48, b"\0")
        return slot + (rest_slot(rest) if rest else b"")
    if kind == "define":
        loader, (root, order, at), offset, words = what
        return spelled(DEFINE, "2xIQIIII", len(words), loader, root, order, at, offset)
    if kind == "move":
        loader, old, new, _ = what
        return spelled(MOVE, "6xQIIIIII", loader, *old, *new)
    if kind == "unloadall":
        return spelled(UNLOAD_ALL, f"B5x{len(what[0])}Q", len(what[0]), *what[0])
    return spelled(UNLOAD, "6xQ", what[0])


def slots_of(entry):
    return oracle.slots_of_name(entry[2]) if entry[0] == "loader" else 1


def records_of(entry):
    """What an entry writes: each record with its chunk and its offset there."""
    if entry[0] == "define":
        return [entry[2:]]
    if entry[0] == "move":
        _, _, _, new, records = entry
        return [(new, offset, words) for offset, words in records]
    return []


def root_at(geometry, root):
    """The place of a root in the file."""
    return SUPERBLOCK + 2 * SLOT * geometry.slots + 8 * geometry.root_words * root


def roots_in(geometry, length):
    """How many whole roots a file of this length has."""
    return (length - root_at(geometry, 0)) // (8 * geometry.root_words)


# The device calls of docs/CRASH.md by what they write, in their order: those of a checkpoint, which
# come before those of the group that has no room, and those of a trim.
CHECKPOINT = ["other half's gate", "sync", "rows", "sync", "new half's gate", "sync"]
TRIM = ["cut", "sync"]


def checkpoint_calls(is_other_open):
    """If the other half is shut, a sync takes the place of the first."""
    return [CHECKPOINT[0] if is_other_open else "sync", *CHECKPOINT[1:]]


def group_calls(roots, records):
    """Those of a group that adds roots to the file and writes records."""
    return ["root"] * roots + ["record"] * records + ["group", "sync", "gate", "sync"]


def has_room(geometry, end, slots):
    """Whether a group of commands that take this many slots has room in a half that ends there."""
    return end + 1 + slots <= geometry.slots


def end_of_rows(loaders):
    """The first slot after the rows of these loaders, once they are written into a half."""
    return 1 + oracle.live_slots(loaders)


def rows_of(loaders):
    """The entries of live loaders and classes, in the order of their numbers."""
    rows = {loader.number: ("loader", loader.number, name) for name, loader in loaders.items()}
    for loader in loaders.values():
        for live in loader.classes.values():
            rows[live.number] = ("define", loader.number, live.chunk, live.offset, live.made.words)
    return [rows[number] for number in sorted(rows)]


class Region:
    """The bytes of a file as the commands of a cache make them, one group a command."""

    def __init__(self, geometry):
        self.geometry = geometry
        # The half that counts, its epoch and the slot where it ends; whether the other is open.
        self.half, self.epoch, self.end = 0, 1, 1
        self.is_other_open = False
        numbers = struct.pack("<IIII", 1, geometry.top, geometry.roots, geometry.slots)
        superblock = (MAGIC + numbers).ljust(SUPERBLOCK - 1, b"\0") + bytes([OPEN])
        halves = head_slot(0, 1, 0, gate=OPEN).ljust(2 * SLOT * geometry.slots, b"\0")
        self.bytes = bytearray(superblock + halves)

    def half_at(self, half):
        return SUPERBLOCK + SLOT * self.geometry.slots * half

    def checkpoint_writes(self, loaders, base):
        """What a checkpoint writes: the rows of these loaders, after this last number."""
        half = self.half_at(1 - self.half)
        head = head_slot(oracle.live_slots(loaders), self.epoch + 1, base)
        slots = b"".join([head, *map(entry_slots, rows_of(loaders))])
        return {"other half's gate": [(half, b"\0")], "rows": [(half + 1, slots[1:] + bytes(SLOT))],
                "new half's gate": [(half, bytes([OPEN]))]}

    def root_writes(self, records):
        used = oracle.roots_used(chunk for chunk, _, _ in records)
        return [(root_at(self.geometry, root), bytes(8 * self.geometry.root_words))
                for root in range(roots_in(self.geometry, len(self.bytes)), used)]

    def record_write(self, chunk, offset, words):
        place = root_at(self.geometry, chunk.root) + 8 * (chunk.at + offset)
        return place, struct.pack(f"<{len(words)}Q", *words)

    def group_writes(self, number, entry, half, slot):
        at = self.half_at(half) + SLOT * slot
        slots = group_slot(slots_of(entry), number) + entry_slots(entry) + bytes(SLOT)
        room = SLOT * (self.geometry.slots - slot)
        return {"group": [(at + 1, slots[1:room])], "gate": [(at, bytes([OPEN]))]}

    def calls(self, cache, number):
        """The device calls that store this command of a cache: each a place and the bytes to write
        there, or None for a sync."""
        entry, before = cache.entries[number - 1], cache.states[number - 1]
        half, slot, names, writes = self.half, self.end, [], {}
        if not has_room(self.geometry, self.end, slots_of(entry)):
            half, slot = 1 - self.half, end_of_rows(before)
            names = checkpoint_calls(self.is_other_open)
            writes = self.checkpoint_writes(before, number - 1)
        records = records_of(entry)
        writes["root"] = self.root_writes(records)
        writes["record"] = [self.record_write(*record) for record in records]
        writes.update(self.group_writes(number, entry, half, slot))
        names += group_calls(len(writes["root"]), len(records))
        return [None if name == "sync" else writes[name].pop(0) for name in names]

    def store(self, cache, number):
        for call in self.calls(cache, number):
            if call:
                at, data = call
                self.bytes[at:at + len(data)] = data
        slots = slots_of(cache.entries[number - 1])
        if not has_room(self.geometry, self.end, slots):
            self.half, self.epoch = 1 - self.half, self.epoch + 1
            self.end, self.is_other_open = end_of_rows(cache.states[number - 1]), True
        self.end += 1 + slots


def file_of(cache):
    """The file that holds a cache, made new and by its commands one after another."""
    region = Region(cache.geometry)
    for number in range(1, cache.number + 1):
        region.store(cache, number)
    return region


# ---- reading

class Row:
    """A live loader, or a live class and where its record lies."""

    def __init__(self, slot, loader, name=None, chunk=None, offset=0, words=0):
        self.slot = slot
        self.loader = loader
        self.name = name
        self.slots = 1 if name is None else oracle.slots_of_name(name)
        self.chunk = chunk
        self.offset = offset
        self.words = words


def number(data, at, size):
    return int.from_bytes(data[at:at + size], "little")


class File:
    """A file that is read; making one raises its first damage."""

    def __init__(self, data):
        self.data = data
        self.rows = []
        self.read_superblock()
        self.choose_half()
        self.walk()
        for row in self.rows:
            if row.chunk:
                self.read_record(row)

    def read_superblock(self):
        data = self.data
        if len(data) < SUPERBLOCK or data[:8] != MAGIC or data[SUPERBLOCK - 1] != OPEN:
            raise NotACache
        version, *sizes = struct.unpack("<IIII", data[8:24])
        self.geometry = oracle.Geometry(*sizes)
        self.slots = self.geometry.slots
        if (version != 1 or not self.geometry.is_within_limits()
                or any(data[24:SUPERBLOCK - 1])):
            raise Damaged(1, 0)
        if len(data) < root_at(self.geometry, 0):
            raise Damaged(2, 0)
        self.roots = roots_in(self.geometry, len(data))

    def slot(self, index):
        return self.data[SUPERBLOCK + SLOT * index:SUPERBLOCK + SLOT * (index + 1)]

    def choose_half(self):
        halves = {}
        for half in (0, 1):
            index = self.slots * half
            slot = self.slot(index)
            if slot[0] != OPEN:
                continue
            version, live = number(slot, 2, 2), number(slot, 4, 4)
            epoch, base = number(slot, 8, 8), number(slot, 16, 8)
            good = slot == head_slot(live, epoch, base, gate=OPEN, version=version)
            if not (good and 1 <= version <= VERSION and live <= self.geometry.row_slots
                    and base <= oracle.LAST_NUMBER and 1 <= epoch <= base + version):
                raise Damaged(4, index)
            halves[half] = (epoch, live, base, version)
        if not halves or len(halves) == 2 and halves[0][0] == halves[1][0]:
            raise Damaged(3, 0)
        self.half = max(halves, key=lambda half: halves[half][0])
        self.epoch, self.live, self.number, self.version = halves[self.half]

    def walk(self):
        first = self.slots * self.half
        place, end = 1, 1 + self.live
        while place < end:
            place += self.read_entry(first + place, first + end, None)
        while place < self.slots and self.slot(first + place)[0] == OPEN:
            slot = self.slot(first + place)
            count, begins = number(slot, 2, 2), number(slot, 8, 8)
            good = slot == group_slot(count, begins, gate=OPEN)
            good = good and 1 <= count <= oracle.GROUP_SLOTS
            good = good and has_room(self.geometry, place, count) and begins == self.number + 1
            if not good or not self.has_numbers(first + place + 1, count):
                raise Damaged(4, first + place)
            place, end = place + 1, place + 1 + count
            while place < end:
                self.number += 1
                place += self.read_entry(first + place, first + end, self.number)
        self.end = place

    def has_numbers(self, index, count):
        """Whether there are numbers for the slots of a group: a continuation slot takes none."""
        kinds = [self.slot(index + place)[1] for place in range(count)]
        taken = count if self.version == 1 else count - kinds.count(REST)
        return self.number + taken <= oracle.LAST_NUMBER

    def read_loader(self, index, end):
        """A loader's number and name. A long name continues in the slot after its own, which
        belongs to the same group, or to the live rows too."""
        slot = self.slot(index)
        length, loader = slot[2], number(slot, 8, 8)
        name = slot[16:16 + min(length, oracle.NAME_ROOM)]
        if length > oracle.NAME_ROOM:
            if self.version == 1 or length > oracle.NAME_LIMIT or index + 1 == end:
                raise Damaged(5, index)
            rest = self.slot(index + 1)
            name += rest[16:16 + length - oracle.NAME_ROOM]
            slot += rest
        if slot != entry_slots(("loader", loader, name)):
            raise Damaged(5, index)
        return loader, name

    def read_entry(self, index, end, own):
        """An entry, of which no slot lies at this end or after it: how many slots it takes. One of
        a group has a number of its own; a live row has none."""
        slot = self.slot(index)
        kind = slot[1]
        if kind == LOADER and slot[0] == 0:
            loader, name = self.read_loader(index, end)
            self.add_loader(index, own, loader, name)
            return oracle.slots_of_name(name)
        if kind == DEFINE and slot[0] == 0:
            words, loader, *place, offset = struct.unpack("<IQIIII", slot[4:32])
            if slot != spelled(DEFINE, "2xIQIIII", words, loader, *place, offset):
                raise Damaged(5, index)
            self.add_class(index, loader, oracle.Chunk(*place), offset, words)
        elif kind == UNLOAD and slot[0] == 0 and own is not None:
            if slot != entry_slots(("unload", number(slot, 8, 8))):
                raise Damaged(5, index)
            self.unload(index, number(slot, 8, 8))
        elif kind == UNLOAD_ALL and slot[0] == 0 and own is not None:
            count = min(slot[2], oracle.UNLOAD_LIMIT)
            loaders = [number(slot, 8 * place, 8) for place in range(1, 1 + count)]
            if not 1 <= count == slot[2] or slot != entry_slots(("unloadall", loaders)):
                raise Damaged(5, index)
            self.unload_all(index, loaders)
        elif kind == MOVE and slot[0] == 0 and own is not None:
            loader, *places = struct.unpack("<QIIIIII", slot[8:40])
            if slot != spelled(MOVE, "6xQIIIIII", loader, *places):
                raise Damaged(5, index)
            self.move(index, loader, oracle.Chunk(*places[:3]), oracle.Chunk(*places[3:]))
        else:
            raise Damaged(5, index)
        return 1

    def loaders(self):
        return [row for row in self.rows if not row.chunk]

    def classes(self, loader):
        return [row for row in self.rows if row.chunk and row.loader == loader]

    def lives(self, loader):
        return any(row.loader == loader for row in self.loaders())

    def has_room(self, slots):
        return sum(row.slots for row in self.rows) + slots <= self.geometry.row_slots

    def add_loader(self, index, own, loader, name):
        good = oracle.is_loader_name(name) and self.has_room(oracle.slots_of_name(name))
        good = good and all(row.name != name for row in self.loaders())
        if own is None:
            good = (good and 1 <= loader <= self.number
                    and all(row.loader < loader for row in self.loaders()))
        else:
            good = good and loader == own
        if not good:
            raise Damaged(6, index)
        self.rows.append(Row(index, loader, name=name))

    def last_chunk(self, loader):
        """A loader's last chunk and its used words."""
        chain = oracle.chain_of((row.chunk, row.words) for row in self.classes(loader))
        return chain[-1] if chain else (None, 0)

    def is_apart(self, chunk):
        return not any(row.chunk and chunk.meets(row.chunk) for row in self.rows)

    def add_class(self, index, loader, chunk, offset, words):
        if not self.lives(loader) or not self.has_room(1):
            raise Damaged(6, index)
        good = self.geometry.has(chunk) and words >= 1 and offset + words <= chunk.words
        if not good or ((chunk, offset) != self.last_chunk(loader)
                        and not (offset == 0 and self.is_apart(chunk))):
            raise Damaged(7, index)
        self.rows.append(Row(index, loader, chunk=chunk, offset=offset, words=words))

    def unload(self, index, loader):
        if not self.lives(loader):
            raise Damaged(6, index)
        self.rows = [row for row in self.rows if row.loader != loader]

    def unload_all(self, index, loaders):
        if len(set(loaders)) < len(loaders) or not all(map(self.lives, loaders)):
            raise Damaged(6, index)
        self.rows = [row for row in self.rows if row.loader not in loaders]

    def move(self, index, loader, old, new):
        last, used = self.last_chunk(loader)
        if (last is None or last != old or not self.geometry.has(new) or not self.is_apart(new)
                or used > new.words):
            raise Damaged(7, index)
        for row in self.classes(loader):
            if row.chunk == old:
                row.chunk = new

    def read_record(self, row):
        if row.chunk.root >= self.roots:
            raise Damaged(7, row.slot)
        begin = root_at(self.geometry, row.chunk.root) + 8 * (row.chunk.at + row.offset)
        words = list(struct.unpack(f"<{row.words}Q", self.data[begin:begin + 8 * row.words]))
        row.made = class_of(words)
        if not row.made:
            raise Damaged(8, row.slot)
        row.name = row.made.name
        for earlier in self.classes(row.loader):
            if earlier is row:
                break
            if earlier.name == row.name:
                raise Damaged(9, row.slot)

    def row_slot(self, row):
        if not row.chunk:
            return entry_slots(("loader", row.loader, row.name))
        return spelled(DEFINE, "2xIQIIII", row.words, row.loader, *row.chunk, row.offset)

    def opened(self):
        """The bytes once the file was opened: one of version 1 has its live rows in its other half
        then, which counts."""
        data = bytearray(self.data)
        if self.version == VERSION:
            return data
        live = sum(row.slots for row in self.rows)
        head = head_slot(live, self.epoch + 1, self.number, gate=OPEN)
        slots = b"".join([head, *map(self.row_slot, self.rows), bytes(SLOT)])
        at = SUPERBLOCK + SLOT * self.slots * (1 - self.half)
        data[at:at + len(slots)] = slots
        return data

    def report(self):
        classes = [row for row in self.rows if row.chunk]
        chunks = self.chunks()
        return (f"ok loaders {len(self.loaders())} classes {len(classes)} "
                f"chunks {len(chunks)} number {self.number}")

    def listed(self):
        for loader in sorted(self.loaders(), key=lambda row: row.name):
            yield b"loader %s" % loader.name
            for row in sorted(self.classes(loader.loader), key=lambda row: row.name):
                place = row.chunk.at + row.offset
                yield b"class %s words %d root %d at %d" % (oracle.escaped(row.name), row.words,
                                                            row.chunk.root, place)

    def chunks(self):
        return {row.chunk for row in self.rows if row.chunk}

    def roots_used(self):
        return oracle.roots_used(self.chunks())

    def state(self):
        """Each loader's classes, by their records' words."""
        return {loader.name: {row.name: row.made.words for row in self.classes(loader.loader)}
                for loader in self.loaders()}

    def places(self):
        """Each loader's classes, by the chunk and the offset of their records."""
        return {loader.name: {row.name: (row.chunk, row.offset)
                              for row in self.classes(loader.loader)} for loader in self.loaders()}


def state_of(loaders):
    """The same of the loaders of a cache."""
    return {name: {class_name: live.made.words for class_name, live in loader.classes.items()}
            for name, loader in loaders.items()}


def places_of(loaders):
    return {name: {class_name: (live.chunk, live.offset)
                   for class_name, live in loader.classes.items()}
            for name, loader in loaders.items()}


def class_of(words):
    """The class that keeps the rules and has this record; None if there is none."""
    try:
        made = oracle.prepare(class_file_of(words))
    except (IndexError, struct.error, oracle.Refused):
        return None
    return made if made.words == words else None


def parts(word):
    return struct.unpack("<HHHH", struct.pack("<Q", word))


def class_file_of(words):
    """The class file that a record would be of, if it is one; if it is none, any bytes or an
    IndexError."""
    flags, this_class, super_class, interface_count = parts(words[1])
    count, field_count, method_count, attribute_count = parts(words[2])
    _, interfaces, members, rows, _ = words[3:8]

    def run(at, length):
        used = words[at:at + (length + 7) // 8]
        if len(used) * 8 < length:
            raise IndexError
        return struct.pack(f"<{len(used)}Q", *used)[:length]

    def constant(index):
        word = words[8 + index]
        tag = word & 0xFFFF
        if tag == oracle.UTF8:
            length = parts(word)[1]
            return struct.pack(">BH", tag, length) + run(word >> 32, length)
        if tag in (oracle.LONG, oracle.DOUBLE):
            return struct.pack(">BQ", tag, words[8 + index + 1])
        sizes = oracle.BODIES.get(tag)
        if not sizes:
            raise IndexError
        numbers = [word >> 32 & 0xFFFF, word >> 48] if len(sizes) == 2 else [word >> 32]
        return bytes([tag]) + b"".join((n & (1 << 8 * size) - 1).to_bytes(size, "big")
                                       for n, size in zip(numbers, sizes))

    def attributes(begin, how_many):
        out = struct.pack(">H", how_many)
        for at in range(begin, begin + 2 * how_many, 2):
            length = words[at] >> 32
            out += struct.pack(">HI", words[at] & 0xFFFF, length) + run(words[at + 1], length)
        return out

    pool, index = b"", 1
    while index < count:
        pool += constant(index)
        index += 2 if words[8 + index] & 0xFFFF in (oracle.LONG, oracle.DOUBLE) else 1
    spelled_members, at, taken = [], members, rows
    for _ in range(field_count + method_count):
        member = parts(words[at])
        spelled_members.append(struct.pack(">HHH", *member[:3]) + attributes(taken, member[3]))
        taken += 2 * member[3]
        at += 2
    own = words[interfaces:interfaces + interface_count]
    return b"".join([
        b"\xca\xfe\xba\xbe\0\0\0\x34", struct.pack(">H", count), pool,
        struct.pack(">HHHH", flags, this_class, super_class, interface_count),
        b"".join(struct.pack(">H", i & 0xFFFF) for i in own),
        struct.pack(">H", field_count), *spelled_members[:field_count],
        struct.pack(">H", method_count), *spelled_members[field_count:],
        attributes(taken, attribute_count),
    ])


def read(path):
    with open(path, "rb") as file:
        return File(file.read())


def main(words):
    out = sys.stdout.buffer
    if words[0] == "new":
        out.write(Region(oracle.Geometry(*map(int, words[1:]))).bytes)
        return 0
    if words[0] == "after":
        out.write(file_of(oracle.answers(oracle.lines_of(sys.stdin.buffer.read()))[0]).bytes)
        return 0
    try:
        file = read(words[1])
    except (NotACache, Damaged) as verdict:
        print(verdict)
        return 1
    if words[0] == "check":
        print(file.report())
    elif words[0] == "opened":
        out.write(file.opened())
    else:
        out.writelines(line + b"\n" for line in file.listed())
    return 0


if __name__ == "__main__":
    sys.exit(main(sys.argv[1:]))
