"""The calls that a program makes on its file: as tests/calls.c logs them, as they are due, and what
the file holds after them, also if the machine stops.

A call is a letter, a place and bytes, as in the log: `w` writes, `s` syncs, `c` cuts the file at
its place; `r` is no call on the file but output. A letter in upper case is a call that failed.
"""
import struct

import harness
import oracle
import region

PIECE = 65_536  # what one call writes at most
SYNC = ("s", 0, b"")
EIO = "Input/output error (os error 5)"


# ---- the log

class Watched:
    """A program under the library that logs its calls, and makes some of them fail."""

    def __init__(self, program, folder):
        self.program = program
        self.library = harness.library("calls")
        self.log = f"{folder}/log"

    def env(self, **names):
        return {"LD_PRELOAD": self.library, "CALLS": self.log,
                **{name: str(value) for name, value in names.items()}}

    def run(self, words, lines=(), **names):
        """The result of a run, and its calls."""
        harness.remove(self.log)
        ran = harness.run(self.program, words, lines, self.env(**names))
        return ran, self.calls()

    def calls(self):
        """Those that were logged."""
        return read_log(harness.read(self.log))


def read_log(data):
    calls, at = [], 0
    while at < len(data):
        letter = chr(data[at])
        place, length = struct.unpack_from("<QQ", data, at + 1)
        at += 17
        if letter.lower() == "c":
            calls.append((letter, length, b""))
            continue
        calls.append((letter, place, data[at:at + length]))
        at += length
    return calls


def on_file(calls):
    return [call for call in calls if call[0] != "r"]


def replies_in(calls):
    return [data[:-1] for letter, _, data in calls if letter == "r"]


# ---- the calls that are due

def pieces(call):
    """A call of region.py as calls on the file."""
    if call is None:
        return [SYNC]
    at, data = call
    return [("w", at + begin, data[begin:begin + PIECE]) for begin in range(0, len(data), PIECE)]


def due_calls(cache, file, lines):
    """The calls and replies of a script on this file, which opens it first."""
    calls = [SYNC]
    for line in lines:
        before = cache.number
        reply = cache.answer(line)
        if cache.number > before:
            for call in file.calls(cache, cache.number):
                calls += pieces(call)
            file.store(cache, cache.number)
        calls.append(("r", 0, reply + b"\n"))
    return calls


def begun(geometry, count=0):
    """A cache after this many commands, and its file. It is empty."""
    cache, _ = oracle.answers([b"unload x" if at % 2 else b"loader x" for at in range(count)],
                              geometry)
    return cache, region.file_of(cache)


# ---- what the file holds

def make(call, data):
    """Makes the call on the bytes of a file."""
    letter, at, written = call
    if letter == "w" and written:
        data.extend(bytes(max(0, at + len(written) - len(data))))
        data[at:at + len(written)] = written
    elif letter == "c":
        del data[at:]


def after(data, calls):
    """The bytes of a file after these calls."""
    left = bytearray(data)
    for call in calls:
        make(call, left)
    return bytes(left)


class Stopped:
    """What a disk may hold at a moment: the bytes as they were synced, and the calls since."""

    def __init__(self, data):
        self.synced = bytes(data)
        self.since = []

    def note(self, call):
        if call[0] == "s":
            self.synced = after(self.synced, self.since)
            self.since = []
        else:
            self.since.append(call)

    def left(self, fate):
        """The bytes, if what is unsynced of a write came out as its fate says; None leaves it
        unwritten."""
        fated = [(letter, at, fate(written)) for letter, at, written in self.since]
        return after(self.synced, [call for call in fated if call[2] is not None])


def fates(rng):
    return {
        "as written": lambda data: data,
        "not written": lambda data: None,
        "each by chance": lambda data: data if rng.random() < 0.5 else None,
        "beginnings": lambda data: data[:rng.randrange(len(data) + 1)],
        "zeros": lambda data: bytes(len(data)),
        "all A5": lambda data: b"\xa5" * len(data),
        "any bytes": lambda data: rng.randbytes(len(data)),
        "some bytes": lambda data: bytes(byte if rng.random() < 0.5 else rng.randrange(256)
                                         for byte in data),
    }
