#!/usr/bin/env python3
"""Compares `cm_simulate` with a plain model of the world: random event lists, and walks stopped at
each device call.

    tests/simulate.py PROGRAM      event lists, walks, lines that are no event, the file of the disk
    tests/simulate.py PROGRAM N    a simulation once for each of its allocations, with that one
                                   refused; N are met

What is accepted, and where it lies, is oracle.py's; the device calls of a group are region.py's.
The world around them has what is handed out and what is acknowledged, and what the device call
under way may leave of the file. It is written from the project's description and shares no code
with the program. Its random numbers have fixed seeds.
"""
import functools
import os
import random
import re
import struct
import sys

import harness
import oracle
import region

LISTS = 1500
PLACES = 5  # the file of every fifth list is read
MOST_ALLOCATIONS = 2000


# ---- the world

# Whose gate a call writes, and the byte there before and after it.
GATES = {
    "other half's gate": ("other half", region.OPEN, 0),
    "new half's gate": ("new half", 0, region.OPEN),
    "gate": ("group", 0, region.OPEN),
}


class Group:
    """Commands that are stored together: the numbers of the first and the last, and how many slots
    all of them take."""

    def __init__(self, first):
        self.first = first
        self.last = first - 1
        self.slots = 0

    def has_room(self, slots):
        return self.slots + slots <= oracle.GROUP_SLOTS


class World:
    """A cache on a device: what it accepts is oracle.py's, and around it are the groups that are
    handed out, the device calls that store them, and what a crash may leave of the file."""

    def __init__(self, *sizes):
        self.geometry = oracle.Geometry(*sizes)
        self.cache = oracle.Cache(self.geometry)
        self.base = region.root_at(self.geometry, 0)
        self.root_bytes = region.root_at(self.geometry, 1) - self.base
        # Where crashes came, calls failed and records moved, for the test's own count.
        self.stops = []
        self.length = self.least = self.greatest = self.base
        # The slot where the half that counts ends, and whether the other half is open.
        self.end, self.is_other_open = 1, False
        self.open_again(0)

    # -- what is in the file

    def open_again(self, number):
        """The file is opened, whose last command is this one."""
        self.cache.reopened(number)
        self.acknowledged = self.sealed = number
        self.queue = []
        self.under_way = None
        self.calls = []
        self.broken = self.told = False
        self.armed = None
        self.settle()

    def settle(self):
        """No gate is being turned."""
        # Whose gate it would be, its byte, and whether a crash may leave any byte there.
        self.turned, self.gate, self.loose = None, 0, False

    def turn(self, gate):
        """The byte of the gate that is being turned is durable now: the number of the last command
        in the file then."""
        turned = self.turned
        self.settle()
        if turned == "other half":
            self.is_other_open = gate == region.OPEN
        elif turned == "new half" and gate == region.OPEN:
            self.end = region.end_of_rows(self.stored())
            self.is_other_open = True
        elif turned == "group" and gate == region.OPEN:
            self.end += 1 + self.under_way.slots
            return self.under_way.last
        return self.acknowledged

    def loaders(self):
        return self.cache.loaders

    def stored(self):
        """The loaders as they are acknowledged."""
        return self.cache.states[self.acknowledged]

    def used_end(self):
        """Where the last root ends that the stored classes use."""
        used = oracle.roots_used(oracle.chunks_of(self.stored()))
        return region.root_at(self.geometry, used)

    # -- commands

    def accept(self, command, *words):
        if self.told:
            return "refused 10"
        try:
            return f"number {command(*words)}"
        except oracle.Refused as refusal:
            return f"refused {refusal.cause}"

    def loader(self, name):
        return self.accept(self.cache.loader, name)

    def unload(self, name):
        return self.accept(self.cache.unload, name)

    def unloadall(self, *names):
        return self.accept(self.cache.unload_all, names)

    def tighten(self, name):
        reply = self.accept(self.cache.tighten, name)
        if reply.startswith("number"):
            self.stops.append("moved")
        return reply

    def define(self, name, data):
        """A class that can't be prepared is refused for that, whatever was learnt of the device."""
        try:
            made = oracle.prepare(data)
        except oracle.Refused as refusal:
            return f"refused {refusal.cause}"
        return self.accept(self.cache.define, name, made)

    def look(self, name, class_name):
        found = self.cache.find(name, class_name)
        return f"class {len(found.words)}" if found else "none"

    # -- groups

    def seal(self):
        """Commands that aren't sealed are in groups of as many as fit, except those in the
        newest."""
        if self.sealed == self.cache.number:
            return "none"
        group = Group(self.sealed + 1)
        for entry in self.cache.entries[self.sealed:]:
            slots = region.slots_of(entry)
            if not group.has_room(slots):
                break
            group.last += 1
            group.slots += slots
        self.sealed = group.last
        self.queue.append(group)
        return f"group {group.first} {group.last}"

    def take_group(self):
        group = self.queue.pop(0)
        while self.queue and group.has_room(self.queue[0].slots):
            other = self.queue.pop(0)
            group.last, group.slots = other.last, group.slots + other.slots
        self.under_way = group
        if not region.has_room(self.geometry, self.end, group.slots):
            self.calls = region.checkpoint_calls(self.is_other_open)
        records = [record for entry in self.cache.entries[group.first - 1:group.last]
                   for record in region.records_of(entry)]
        used = oracle.roots_used(chunk for chunk, _, _ in records)
        grows = max(0, used - region.roots_in(self.geometry, self.length))
        self.calls += region.group_calls(grows, len(records))

    def advance(self, may_fail=False):
        if self.broken:
            return "broken"
        if not self.calls:
            if not self.queue:
                return "idle"
            self.take_group()
        call = self.calls.pop(0)
        fails, self.armed = self.armed, None
        if may_fail:
            fails = 0
        self.make(call, fails)
        if fails is not None:
            self.broken = True
            return "device"
        if self.calls:
            return "working"
        if self.under_way is None:
            return f"trimmed {region.roots_in(self.geometry, self.length)}"
        group, self.under_way = self.under_way, None
        self.acknowledged = group.last
        return f"done {group.last}"

    def make(self, call, fails):
        """A device call; if it fails, a write stores its first bytes."""
        if fails is not None:
            self.stops.append(f"fault in {call}")
        if call == "root":
            stored = self.root_bytes if fails is None else min(fails, self.root_bytes)
            new = region.roots_in(self.geometry, self.length)
            self.length = max(self.length, region.root_at(self.geometry, new) + stored)
            self.greatest = max(self.greatest, region.root_at(self.geometry, new + 1))
        elif call in GATES:
            self.turned, before, after = GATES[call]
            self.loose = True
            self.gate = after if fails is None or fails > 0 else before
        elif call == "cut":
            self.least = self.used_end()
            if fails is None:
                self.length = self.least
        elif call == "sync" and fails is None:
            self.least = self.greatest = self.length
            self.turn(self.gate)

    def trim(self):
        if self.broken or self.calls:
            return "not idle"
        if self.length < self.used_end() + self.root_bytes:
            return "nothing"
        self.calls = list(region.TRIM)
        return "due"

    def learn(self):
        if self.broken:
            self.told = True
        self.cache.learn(self.acknowledged)
        return f"learnt {self.acknowledged}"

    # -- the end of a world, and the next

    def fault(self, stores):
        self.armed = stores
        return "armed"

    def reopen(self):
        self.least = self.greatest = self.length
        self.open_again(self.turn(self.gate))
        return f"opened {self.cache.number}"

    def crash(self, length, fill):
        """If a gate's byte is unsynced, nothing else is."""
        self.stops.append(f"crash, gate of the {self.turned} unsynced" if self.loose
                          else f"crash before {self.calls[0]}" if self.calls else "crash at rest")
        gate = fill[0] if self.loose and fill else self.gate
        self.length = self.least = self.greatest = max(self.least, min(length, self.greatest))
        self.open_again(self.turn(gate))
        return f"opened {self.cache.number}"


# ---- simulations as text

class Simulation:
    """Lines, and the replies that the model expects."""

    def __init__(self, top=5, roots=4, slots=256):
        self.world = World(top, roots, slots)
        self.lines = [b"geometry %d %d %d" % (top, roots, slots)]
        self.events = []
        self.replies = []

    def add(self, name, *words):
        """An event; the reply that the model expects."""
        shown = [w if isinstance(w, bytes) else b"%d" % w for w in words]
        if name in ("define", "crash"):
            shown[1] = shown[1].hex().encode() or b"-"
        self.lines.append(b" ".join([name.encode()] + shown))
        self.events.append((name, words))
        self.replies.append(getattr(self.world, name)(*words))
        return self.replies[-1]

    def text(self):
        return harness.text_of(self.lines)


# ---- event lists

NAMES = [b"a", b"b", b"c", b"app", b"~!%", b"m" * 49, b"n" * 96]
# Names on both sides of each limit, and bytes that no name has.
ODD_NAMES = [b"x" * length for length in (47, 48, 49, 95, 96, 97)] + [b"x" * 48 + b"\x7f", b"\x7f"]
A = harness.class_a()
CLASSES = [(harness.class_a(name), name) for name in (b"A", b"B", b"C")]
CLASSES += [(harness.padded(name, zeros), name) for name, zeros in (
    (b"A", 0), (b"D", 33), (b"E", 8), (b"F", 864), (b"G", 900), (b"H", 5000), (b"I", 24000))]
BAD = [A + b"\x00", A[:-1], b"\xca", A[:-2] + b"\x00\x01",
       A.replace(b"\x00\x21", b"\x02\x21")]
TOO_LONG = harness.padded(b"L", 8 * (4097 - 20))
FILLS = [b"", b"\xa5", b"\x00", b"\xa4", b"\xff" * 3]


def draw_name(draw, world):
    """A loader's name: mostly one that is live."""
    if world.loaders() and draw.random() < 0.7:
        return draw.choice(sorted(world.loaders()))
    return draw.choice(NAMES if draw.random() < 0.9 else ODD_NAMES + [b"\xc3\xa9"])


def draw_tail(draw, world):
    """A loader's name: mostly one of several chunks."""
    long = sorted(n for n, loader in world.loaders().items() if len(loader.chain()) > 1)
    return draw.choice(long) if long and draw.random() < 0.8 else draw_name(draw, world)


def draw_command(draw, add, world):
    kind = draw.random()
    name = (draw_name(draw, world) if kind >= 0.35
            else draw.choice(NAMES if draw.random() < 0.7 else ODD_NAMES + [b"\xff"]))
    if kind < 0.35:
        add("loader", name)
    elif kind < 0.78:
        add("define", name, draw.choice(BAD) if draw.random() < 0.05
            else TOO_LONG if draw.random() < 0.01 else draw.choice(CLASSES)[0])
    elif kind < 0.92:
        add("tighten", draw_tail(draw, world))
    elif kind < 0.96:
        add("unload", name)
    else:
        add("unloadall", *(draw_name(draw, world) for _ in range(draw.choice([1, 2, 2, 3, 8]))))


def draw_event(draw, simulation, busy, at_rest):
    add, world = simulation.add, simulation.world
    kind = draw.choices(range(9), busy if world.calls or world.queue else at_rest)[0]
    if kind == 0:
        draw_command(draw, add, world)
    elif kind == 1:
        add("seal")
    elif kind == 2:
        add("advance")
    elif kind == 3:
        add("learn")
    elif kind == 4:
        add("look", draw_name(draw, world), draw.choice(CLASSES)[1])
    elif kind == 5:
        add("fault", draw.choice([0, 1, 7, 64, 1000, 1 << 40]))
    elif kind == 6:
        add("reopen")
    elif kind == 7:
        add("trim")
    else:
        length = draw.choice([0, 1 << 40, world.base, world.base + world.root_bytes,
                              world.base + draw.randrange(world.geometry.roots * world.root_bytes)])
        add("crash", length,
            draw.choice(FILLS) if draw.random() < 0.7 else draw.randbytes(draw.randrange(1, 200)))


# How often there are commands, seals, advances, learns, look-ups, faults, openings, trims and
# crashes, if calls are left or a group waits, and if there is neither.
BUSY = [(4, 2, 30, 2, 2, 4, 1, 2, 3), (2, 1, 40, 1, 1, 1, 1, 2, 4), (8, 4, 20, 1, 1, 6, 2, 1, 2)]
BUSY += [(20, 3, 25, 4, 1, 1, 1, 1, 1)]
AT_REST = [(20, 8, 1, 3, 5, 1, 1, 6, 1), (30, 4, 1, 2, 2, 1, 0, 8, 1), (60, 4, 1, 4, 2, 1, 1, 2, 1)]


def fill_journal(draw, simulation):
    """Commands until as many loaders are live as possible."""
    simulation.add("reopen")
    for count in range(600):
        name = b"l%d" % count
        if draw.random() < 0.3:
            name = name.ljust(draw.choice([47, 48, 49, 95, 96]), b"l")
        if simulation.add("loader", name) == "refused 7":
            break
        if draw.random() < 0.5:
            simulation.add("unload", name)
        if draw.random() < 0.3:
            simulation.add("seal")
        for _ in range(draw.randrange(3)):
            simulation.add("advance")


def draw_list(seed):
    """An event list; of every 25, one is long enough that as many loaders are live as possible."""
    draw = random.Random(seed)
    simulation = Simulation(roots=draw.choice([1, 2, 4]))
    mixes = draw.choice(BUSY), draw.choice(AT_REST)
    for _ in range(draw.randrange(5, 90)):
        draw_event(draw, simulation, *mixes)
    if seed % 25 == 0:
        fill_journal(draw, simulation)
    for name in NAMES:
        simulation.add("look", name, b"A")
    return simulation


def compare(checks, program, simulation, what, *words):
    due = simulation.replies
    got, status, _ = harness.simulated(program, simulation.text(), *words)
    at = next((i for i, pair in enumerate(zip(due, got)) if pair[0] != pair[1]), None)
    line = ("" if at is None
            else f", line {at + 2} {simulation.lines[at + 1][:60]!r}: {got[at]} and not {due[at]}")
    checks.check(what, got == due and status == 0,
                 f"status {status}, {len(got)} of {len(due)} replies{line}")


def compare_file(checks, program, simulation, what, path):
    """The same, and where the classes lie in the file of the disk at the end."""
    compare(checks, program, simulation, what, "--disk", path)
    world = simulation.world
    stored = world.cache.states[world.turn(world.gate)]
    try:
        places = region.read(path).places()
    except region.Damaged as verdict:
        places = verdict
    checks.check(f"{what}: the places of classes", places == region.places_of(stored), places)


def check_lists(checks, program, folder):
    met = {}
    for seed in range(LISTS):
        simulation = draw_list(seed)
        if seed % PLACES:
            compare(checks, program, simulation, f"list {seed}")
        else:
            compare_file(checks, program, simulation, f"list {seed}", f"{folder}/disk")
        replies = [reply if reply.startswith("refused") or reply == "none" else reply.split()[0]
                   for reply in simulation.replies]
        for kind in replies + simulation.world.stops:
            met[kind] = met.get(kind, 0) + 1
    wanted = [f"refused {n}" for n in (1, 2, 3, 4, 5, 6, 7, 8, 10, 14)]
    wanted += ["number", "group", "none", "idle", "working", "done", "device", "broken", "learnt",
               "class", "armed", "opened", "due", "nothing", "not", "trimmed", "moved"]
    # A root is the first call of its group: before it the cache is at rest.
    calls = {*CALLS, *region.TRIM}
    wanted += ([f"fault in {call}" for call in calls]
               + [f"crash before {call}" for call in calls - {"root"}])
    wanted += ["crash, gate of the group unsynced", "crash at rest"]
    missed = [f"{kind} ({met.get(kind, 0)})" for kind in wanted if met.get(kind, 0) < 20]
    checks.check("the lists meet each reply and each stop at least 20 times", not missed, missed)
    return met


# ---- walks

CALLS = region.group_calls(1, 1)


def beginning():
    """A loader that is stored, and a class that is handed out."""
    simulation = Simulation(3, 2, 256)
    for event in (("loader", b"app"), ("seal",), ("advance",), ("advance",), ("advance",),
                  ("advance",), ("learn",)):
        simulation.add(*event)
    simulation.add("define", b"app", A)
    simulation.add("seal")
    return simulation


def store(simulation):
    """All that was accepted is handed out and stored."""
    simulation.add("seal")
    while simulation.add("advance") == "working":
        pass


def fill_half(simulation):
    """Groups are stored until the half that counts has no room for another."""
    world = simulation.world
    while region.has_room(world.geometry, world.end, 1):
        for _ in range(min(oracle.GROUP_SLOTS, world.geometry.slots - world.end - 1)):
            simulation.add("unload" if b"x" in world.loaders() else "loader", b"x")
        store(simulation)


def fill_halves(simulation, is_other_open):
    """The half that counts has no room for another group; the other is open if it was used
    before."""
    fill_half(simulation)
    if is_other_open:
        simulation.add("loader", b"y")
        store(simulation)
        fill_half(simulation)


def before_checkpoint(is_other_open):
    """A loader that is stored, and a class that is handed out and has no room in the half that
    counts."""
    simulation = Simulation(3, 2, 256)
    simulation.add("loader", b"app")
    store(simulation)
    fill_halves(simulation, is_other_open)
    simulation.add("define", b"app", A)
    simulation.add("seal")
    return simulation


def ends(lengths, fills):
    """The ways in which a walk continues: opened again, or after a crash."""
    yield ("reopen",)
    for length in lengths:
        for fill in fills:
            yield "crash", length, fill


def stop(simulation, device_calls, calls, stored, end):
    """The group is stopped after this many of its device calls, the last of which fails if the
    bytes that it stores are given; whether it is there then."""
    for call in range(calls):
        if stored is not None and call == calls - 1:
            simulation.add("fault", stored)
        simulation.add("advance")
    simulation.add(*end)
    # As docs/CRASH.md says: the group is there exactly if its gate is A5 in the file that is
    # opened.
    at_gate, at_end = len(device_calls) - 1, len(device_calls)
    gate = 0xa5 if calls >= at_gate and not (calls == at_gate and stored == 0) else 0
    if (end[0] == "crash" and end[2]
            and (calls == at_gate or calls == at_end and stored is not None)):
        gate = end[2][0]
    return gate == 0xa5


def check_walk(checks, program, simulation, device_calls, calls, stored, end):
    """A define is stopped."""
    number, at_end = simulation.world.cache.number, len(device_calls)
    there = stop(simulation, device_calls, calls, stored, end)
    simulation.add("look", b"app", b"A")
    what = (f"a define of {at_end} calls stopped after {calls}, {stored} bytes stored of the "
            f"last, {end[0]}")
    compare(checks, program, simulation, what)
    wanted = [f"opened {number}", "class 16"] if there else [f"opened {number - 1}", "none"]
    is_right = calls < at_end or stored is not None or there
    checks.check(f"{what}: the model", simulation.replies[-2:] == wanted and is_right)
    # What is opened can be used further.
    simulation.add("loader", b"next")
    store(simulation)
    simulation.add("crash", 0, b"\x00")
    simulation.add("look", b"app", b"A")
    compare(checks, program, simulation, what + ", and then more")


def check_walks(checks, program):
    base = 4096 + 128 * 256
    walks = list(ends((0, base + 100, base + 8192, 1 << 40),
                      (b"", b"\xa5", b"\x00", b"\xff", b"\xa5" * 9000)))
    check_each_stop(checks, program, check_walk, beginning, CALLS, walks)
    walks = list(ends((0, 1 << 40), (b"", b"\xa5", b"\x00", b"\xa5" * 9000)))
    for is_other_open in (False, True):
        check_each_stop(checks, program, check_walk, lambda: before_checkpoint(is_other_open),
                        [*region.checkpoint_calls(is_other_open), *CALLS], walks)


def check_each_stop(checks, program, check, begin, device_calls, walks):
    for end in walks:
        for calls in range(len(device_calls) + 1):
            check(checks, program, begin(), device_calls, calls, None, end)
        for calls, call in enumerate(device_calls, 1):
            for stored in (0, 1, 5) if call != "sync" else (0,):
                check(checks, program, begin(), device_calls, calls, stored, end)


# ---- moves

# Of a loader's classes the last one, or the last two, lie in a chunk of order 1 at word 256; their
# words are so few that they fit into one of order 0, of which the first free one is at 128.
ONE_MOVES = [harness.padded(b"A", 0), harness.padded(b"B", 864)]
TWO_MOVE = [harness.padded(b"A", 864), harness.padded(b"B", 0), harness.padded(b"C", 0)]


def before_move(classes):
    """A loader with these classes that is stored."""
    simulation = Simulation(3, 2, 256)
    simulation.add("loader", b"app")
    for data in classes:
        simulation.add("define", b"app", data)
    store(simulation)
    simulation.add("learn")
    return simulation


def handed_out(simulation):
    """The loader's last chunk is to move."""
    simulation.add("tighten", b"app")
    simulation.add("seal")
    return simulation


def after_halves(classes, is_other_open):
    """The same, with no room in the half that counts."""
    simulation = before_move(classes)
    fill_halves(simulation, is_other_open)
    return handed_out(simulation)


def check_found(checks, program, simulation, what, replies, found):
    """The model's last replies are these, and then each class is found with its words."""
    for name, _ in found:
        simulation.add("look", b"app", name)
    compare(checks, program, simulation, what)
    wanted = replies + [f"class {words}" for _, words in found]
    checks.check(f"{what}: the model", simulation.replies[-len(wanted):] == wanted)


def check_move(checks, program, simulation, device_calls, calls, stored, end, goes_on=False):
    """A move is stopped: each class is found with its words, whether or not it moved. The records
    can move then if it isn't there; or, if that is asked for, only if it is there."""
    number = simulation.world.cache.number
    found = [(name, len(live.made.words))
             for name, live in simulation.world.loaders()[b"app"].classes.items()]
    there = stop(simulation, device_calls, calls, stored, end)
    what = (f"a move of {len(device_calls)} calls stopped after {calls}, {stored} bytes stored of "
            f"the last, {end[0]}")
    check_found(checks, program, simulation, what, [f"opened {number - 1 + there}"], found)
    again = simulation.add("tighten", b"app")
    wanted = f"number {number + there}" if goes_on == there else "refused 8"
    checks.check(f"{what}: another move", again == wanted, again)
    simulation.add("loader", b"next")
    store(simulation)
    simulation.add("crash", 0, b"\x00")
    check_found(checks, program, simulation, what + ", at the end", [], found)


def check_moves(checks, program):
    walks = list(ends((0, 1 << 40), (b"", b"\xa5", b"\x00", b"\xa5" * 9000)))
    for classes, records in (ONE_MOVES, 1), (TWO_MOVE, 2):
        calls = region.group_calls(0, records)
        check_each_stop(checks, program, check_move, lambda: handed_out(before_move(classes)),
                        calls, walks)
        for is_other_open in (False, True):
            check_each_stop(checks, program, check_move,
                            lambda: after_halves(classes, is_other_open),
                            [*region.checkpoint_calls(is_other_open), *calls], walks)


def check_move_waits(checks, program):
    """The chunk that a move leaves waits for its receipt. Worked out by hand: a root of eight
    blocks, of which a's classes take 0, and 2 and 3, then 1; and b's first takes the upper half."""
    lines = [b"geometry 3 1 256", b"loader a"]
    lines += [harness.define(b"a", data) for data in ONE_MOVES]
    lines += [b"tighten a", b"loader b", b"define b " + harness.padded(b"A", 3936).hex().encode()]
    full = b"define b " + harness.padded(b"B", 0).hex().encode()
    lines += [full, b"seal"] + [b"advance"] * 9 + [full, b"learn", full]
    lines += [b"tighten b", b"tighten a", b"look a A", b"look a B", b"look b A", b"look b B"]
    # A root, four records, the group, a sync, the gate, a sync.
    wanted = [f"number {number}" for number in range(1, 7)]
    wanted += ["refused 6", "group 1 6"] + ["working"] * 8
    wanted += ["done 6", "refused 6", "learnt 6", "number 7", "refused 8", "refused 8"]
    wanted += ["class 20", "class 128", "class 512", "class 20"]
    got, status, _ = harness.simulated(program, b"\n".join(lines))
    checks.check("a chunk that a move leaves", got == wanted and status == 0, got)


def before_trim():
    """A class that was stored and is unloaded: the file has a root that no row uses."""
    simulation = Simulation(3, 2, 256)
    simulation.add("loader", b"app")
    simulation.add("define", b"app", A)
    store(simulation)
    simulation.add("unload", b"app")
    store(simulation)
    simulation.add("learn")
    simulation.add("trim")
    return simulation


def before_growth():
    """The first root is full, and a trim cut off the second, which the accepted cache still has.
    The last chunk of `app` has two blocks, of which it needs one."""
    simulation = before_move(ONE_MOVES)
    for event in (("loader", b"c"), ("define", b"c", harness.padded(b"A", 864)),
                  ("define", b"c", harness.padded(b"B", 3936)), ("loader", b"b"),
                  ("define", b"b", harness.padded(b"A", 0))):
        simulation.add(*event)
    store(simulation)
    simulation.add("unload", b"b")
    store(simulation)
    for event in ("learn",), ("trim",), ("advance",), ("advance",):
        simulation.add(*event)
    return simulation


def check_move_grows(checks, program):
    """A move into a root that was cut off writes that root again."""
    checks.check("a trim cuts off the second root", before_growth().replies[-1] == "trimmed 1")
    walks = list(ends((0, 1 << 40), (b"", b"\xa5", b"\xa5" * 9000)))
    # The chunk that it left lies before the one in the second root, which no opening knows without
    # the move.
    check_each_stop(checks, program, functools.partial(check_move, goes_on=True),
                    lambda: handed_out(before_growth()), region.group_calls(1, 1), walks)
    with harness.new_folder() as folder:
        path = os.path.join(folder, "disk")
        simulation = handed_out(before_growth())
        store(simulation)
        harness.simulated(program, simulation.text(), "--disk", path)
        checks.check("class B lies in the second root",
                     b"class B words 128 root 1 at 0" in region.read(path).listed())


def check_trims(checks, program):
    """A trim stopped after each of its calls leaves what is stored; it can be made again, and
    classes be stored after it."""
    base = 4096 + 128 * 256
    walks = list(ends((0, base, base + 100, base + 8191, 1 << 40), (b"", b"\xa5", b"\xa5" * 9000)))
    for end in walks:
        for calls, fails in (0, False), (1, False), (2, False), (1, True), (2, True):
            simulation = before_trim()
            checks.check("a trim is due", simulation.replies[-1] == "due")
            for call in range(calls):
                if fails and call == calls - 1:
                    simulation.add("fault", 0)
                simulation.add("advance")
            simulation.add(*end)
            what = f"a trim stopped after {calls} calls, the last failed: {fails}, {end[0]}"
            checks.check(f"{what}: the model", simulation.replies[-1] == "opened 3")
            simulation.add("trim")
            while simulation.add("advance") == "working":
                pass
            for event in (("loader", b"next"), ("define", b"next", A)):
                simulation.add(*event)
            store(simulation)
            simulation.add("crash", 0, b"")
            simulation.add("look", b"next", b"A")
            checks.check(f"{what}: the model continues", simulation.replies[-1] == "class 16")
            compare(checks, program, simulation, what)


def check_region(checks, program):
    """A left chunk waits for the receipt of what left it. Worked out by hand: one root, and classes
    as long as it."""
    data, other = harness.padded(b"A", 8032), harness.padded(b"B", 0)
    lines = [b"geometry 3 1 256", b"loader a", harness.define(b"a", data), b"loader b",
             b"unload a"]
    full = b"define b " + other.hex().encode()
    lines += [full, b"seal"] + [b"advance"] * 6 + [full, b"learn", full, b"look b B"]
    # A root, one record, the group, a sync, the gate, a sync.
    wanted = (["number 1", "number 2", "number 3", "number 4", "refused 6", "group 1 4"]
              + ["working"] * 5)
    wanted += ["done 4", "refused 6", "learnt 4", "number 5", "class 20"]
    got, status, _ = harness.simulated(program, b"\n".join(lines))
    checks.check("one root, two loaders", got == wanted and status == 0, got)
    for words, reply in (1024, "number 2"), (1025, "refused 5"):
        line = b"define a " + harness.padded(b"A", 8 * (words - 20)).hex().encode()
        got, _, _ = harness.simulated(program, b"geometry 3 1 256\nloader a\n" + line + b"\n")
        checks.check(f"a record of {words} words", got == ["number 1", reply], got)


# ---- names that take two slots

def check_long_names(checks, program):
    """Worked out by hand: live rows take at most 128 slots, and a group has at most 64."""
    names = [b"%d" % number for number in range(64)]
    lines = [b"geometry 3 1 256"]
    lines += [b"loader " + name.rjust(96, b"l") for name in names[:40]]
    lines += [b"seal"] * 3 + [b"advance"] * 9
    wanted = [f"number {number}" for number in range(1, 41)]
    wanted += ["group 1 32", "group 33 40", "none"]
    wanted += [*["working"] * 3, "done 32", *["working"] * 3, "done 40", "idle"]
    got, status, _ = harness.simulated(program, b"\n".join(lines))
    checks.check("40 long names at once", got == wanted and status == 0, got)
    lines, wanted = [b"geometry 3 1 256"], []
    for number, name in enumerate(names, 1):
        lines += [b"loader " + name.rjust(96, b"l"), b"seal"] + [b"advance"] * 4 + [b"learn"]
        wanted += [f"number {number}", f"group {number} {number}", *["working"] * 3,
                   f"done {number}", f"learnt {number}"]
    for line, reply in ((b"loader a", "refused 7"), (b"loader " + b"a" * 96, "refused 7"),
                        (b"loader " + b"a" * 97, "refused 1"),
                        (b"unload " + names[0].rjust(96, b"l"), "number 65"),
                        (b"loader a", "number 66"), (b"loader " + b"a" * 49, "refused 7"),
                        (b"loader " + b"a" * 48, "number 67"), (b"loader b", "refused 7")):
        lines.append(line)
        wanted.append(reply)
    got, status, _ = harness.simulated(program, b"\n".join(lines))
    checks.check("64 long names", got == wanted and status == 0, got[-12:])
    for count, other, groups in (63, 96, ["group 1 63", "group 64 64"]), \
            (63, 48, ["group 1 64", "none"]), (62, 96, ["group 1 63", "none"]):
        lines = [b"geometry 3 1 256"] + [b"loader l%d" % number for number in range(count)]
        lines += [b"loader " + b"a" * other, b"seal", b"seal"]
        got, _, _ = harness.simulated(program, b"\n".join(lines))
        checks.check(f"{count} names and one of {other} bytes", got[-2:] == groups, got[-2:])


# ---- lines that are no event

def check_forms(checks, program):
    first = b"geometry 3 1 256\n"
    bad = [b"", b" ", b"seal ", b" seal", b"Seal", b"seal 1", b"loader", b"loader ", b"loader a b",
           b"loader  a", b"define a", b"define a 0"]
    bad += [b"define a 0g", b"define a -", b"define a 00 00", b"unload", b"unload a b", b"look a",
            b"unloadall", b"unloadall ", b"unloadall a  b", b"unloadall a ",
            b"look a A B", b"fault", b"fault -1", b"fault +1"]
    bad += [b"fault 1x", b"fault 18446744073709551616", b"fault 0x1", b"reopen 1", b"crash",
            b"crash 0", b"crash 0 ", b"crash - 00", b"crash 0 0"]
    bad += [b"crash 0 00 00", b"crash 0 --", b"tighten", b"tighten a b", b"trim 0"]
    bad += [b"geometry 3 1 256", b"advance\r", b"learn\t", b"\xff"]
    for line in bad:
        for before in 0, 3:
            text = first + b"seal\n" * before + line + b"\nlearn\nnone of it\n"
            got, status, errors = harness.simulated(program, text)
            right = status == 2 and not got and re.search(rf"\b{before + 2}\b", errors)
            checks.check(f"line {line!r} as number {before + 2}", right,
                         f"status {status}, {errors!r}")
    for line in [b"", b"geometry", b"geometry 3 1", b"geometry 3 1 256 1", b"geometry 2 1 256",
                 b"geometry 13 1 256", b"geometry 3 0 256",
                 b"geometry 3 257 256", b"geometry 3 1 255", b"geometry 3 1 65537",
                 b"geometry 3 1 4294967552", b"geometry  3 1 256", b"seal"]:
        for rest in b"", b"\nseal\n":
            got, status, errors = harness.simulated(program, line + rest)
            checks.check(f"first line {line!r}",
                         status == 2 and not got and re.search(r"\b1\b", errors),
                         f"status {status}, {errors!r}")
    good = [b"geometry 12 256 65536", b"geometry 3 1 256\nloader a",
            b"geometry 003 1 256\nfault 18446744073709551615\ncrash 0 fF\n"]
    for text, wanted in zip(good, ([], ["number 1"], ["armed", "opened 0"])):
        got, status, _ = harness.simulated(program, text)
        checks.check(f"{text!r}", got == wanted and status == 0, f"status {status}, {got}")


# ---- the file of the disk

def slot(kind, **fields):
    """A slot of 64 bytes with these numbers, little-endian: at_OFFSET_SIZE."""
    data = bytearray(64)
    data[1] = kind
    for place, value in fields.items():
        _, at, size = place.split("_")
        data[int(at):int(at) + int(size)] = value.to_bytes(int(size), "little")
    return data


def check_disk(checks, program):
    """The file after one loader, by docs/REGION.md, and after a class a root longer."""
    superblock = b"CMCACHE1" + struct.pack("<4I", 1, 3, 2, 256)
    superblock += bytes(4095 - len(superblock)) + b"\xa5"
    head = slot(0x01, at_0_1=0xa5, at_2_2=2, at_8_8=1)
    group = slot(0x02, at_0_1=0xa5, at_2_2=1, at_8_8=1)
    loader = slot(0x11, at_2_1=3, at_8_8=1)
    loader[16:19] = b"app"
    slots = bytes(head + group + loader)
    file = superblock + slots + bytes(2 * 256 * 64 - len(slots))
    # A name of 49 bytes continues in slot 3, and the next group stands at slot 4.
    long = slot(0x11, at_2_1=49, at_8_8=1)
    long[16:] = b"m" * 48
    rest = slot(0x16, at_16_1=0x6d)
    slots = bytes(head + slot(0x02, at_0_1=0xa5, at_2_2=2, at_8_8=1) + long + rest
                  + slot(0x02, at_0_1=0xa5, at_2_2=1, at_8_8=2) + slot(0x13, at_8_8=1))
    long_file = superblock + slots + bytes(2 * 256 * 64 - len(slots))
    lines = b"geometry 3 2 256\nloader app\nseal\nadvance\nadvance\nadvance\nadvance\n"
    with harness.new_folder() as folder:
        path = os.path.join(folder, "disk")
        _, status, _ = harness.simulated(program, lines, "--disk", path)
        checks.check("the file after one loader", status == 0 and harness.read(path) == file)
        words = b"loader", b"unload"
        harness.simulated(program, b"geometry 3 2 256\n" + b"".join(
            word + b" " + b"m" * 49 + b"\nseal\n" + b"advance\n" * 4 for word in words),
                          "--disk", path)
        checks.check("the file after a loader of a long name", harness.read(path) == long_file)
        harness.simulated(program, lines + harness.text_of(
            [harness.define(b"app", A), b"seal", b"advance", b"fault 0"]), "--disk", path)
        checks.check("the file after one loader and a root",
                     harness.read(path) == file + bytes(8192))
        check_places(checks, program, path)
        check_first_root(checks, program, path)
        _, status, errors = harness.simulated(program, lines, "--disk", f"{folder}/no/disk")
        checks.check("a path in no folder", status == 3 and errors, f"status {status}")
    _, status, errors = harness.simulated(program, lines, "--disc", "x")
    checks.check("a word that isn't known", status == 2 and errors, f"status {status}")
    got, status, errors = harness.simulated(program, lines, "--help")
    checks.check("help", status == 0 and any("--disk" in line for line in got) and not errors,
                 f"status {status}")


def check_places(checks, program, path):
    """Where the classes of a loader lie before its last chunk moves, and after that."""
    simulation = before_move(ONE_MOVES)
    for at in 256, 128:
        harness.simulated(program, simulation.text(), "--disk", path)
        lines = [b"loader app", b"class A words 20 root 0 at 0",
                 b"class B words 128 root 0 at %d" % at]
        checks.check(f"class B lies at {at}", list(region.read(path).listed()) == lines)
        if at == 256:
            store(handed_out(simulation))


def check_first_root(checks, program, path):
    """Of two roots the first has the next chunk, which two classes fill. Worked out by hand: a's
    class takes all of root 0, and b's first one begins root 1."""
    simulation = Simulation(3, 2, 256)
    for event in (("loader", b"a"), ("define", b"a", harness.padded(b"A", 8032)), ("loader", b"b"),
                  ("define", b"b", harness.padded(b"B", 0)), ("unload", b"a")):
        simulation.add(*event)
    store(simulation)
    simulation.add("learn")
    for name in b"C", b"D":
        simulation.add("define", b"b", harness.padded(name, 864))
    store(simulation)
    compare_file(checks, program, simulation, "a chunk of the first root", path)
    lines = [b"loader b", b"class B words 20 root 1 at 0", b"class C words 128 root 0 at 0",
             b"class D words 128 root 0 at 128"]
    checks.check("two classes fill it", list(region.read(path).listed()) == lines)


# ---- refused allocations

def sweep_script():
    simulation = beginning()
    for _ in CALLS:
        simulation.add("advance")
    for event in (("learn",), ("look", b"app", b"A"), ("unload", b"none"),
                  ("define", b"app", BAD[0]), ("reopen",), ("look", b"app", b"A")):
        simulation.add(*event)
    simulation.add("loader", b"b")
    simulation.add("seal")
    simulation.add("advance")
    simulation.add("crash", 1 << 40, b"")
    simulation.add("look", b"app", b"A")
    return simulation


MAY_WANT_MEMORY = "loader", "define", "unload", "unloadall", "tighten", "seal", "look"


def is_true(simulation, replies):
    """Whether each reply is the usual one, except for one that reports the failed allocation."""
    world = World(3, 2, 256)
    left = 1
    for (name, words), reply in zip(simulation.events, replies):
        if left and name == "advance" and reply == "device":
            due, left = world.advance(may_fail=True), 0
        elif left and name in MAY_WANT_MEMORY and reply == "refused 9":
            due, left = reply, 0
        else:
            due = getattr(world, name)(*words)
        if reply != due:
            return False
    return len(replies) == len(simulation.events)


def sweep(checks, program, wanted, folder):
    simulation, told = sweep_script(), set()
    env = {"LD_PRELOAD": harness.library("allocations"), "ALLOCATIONS": f"{folder}/counts"}
    for refuse in range(1, MOST_ALLOCATIONS):
        got, status, errors = harness.simulated(program, simulation.text(),
                                                env={**env, "REFUSE": str(refuse)})
        right = is_true(simulation, got) if status == 0 else status == 3 and not got and errors
        checks.check(f"with allocation {refuse} refused", right,
                     f"status {status}, {errors!r}, {got}")
        told |= {"refused 9", "device"} & set(got) if status == 0 else {status}
        if not harness.refusals(env["ALLOCATIONS"]):
            break
    checks.check("how refused allocations are reported", told == {"refused 9", "device", 3}, told)
    checks.check(f"{wanted} refusals are met", refuse - 1 == wanted, f"{refuse - 1} are")


def main(words):
    checks = harness.Checks()
    with harness.new_folder() as folder:
        if len(words) == 2:
            sweep(checks, words[0], int(words[1]), folder)
            return checks.finish()
        met = check_lists(checks, words[0], folder)
        print(f"{LISTS} event lists:",
              ", ".join(f"{kind} {count}" for kind, count in sorted(met.items())))
        for check in (check_walks, check_moves, check_move_waits, check_move_grows, check_trims,
                      check_region, check_long_names, check_forms, check_disk):
            check(checks, words[0])
    return checks.finish()


if __name__ == "__main__":
    sys.exit(main(sys.argv[1:]))
