#!/usr/bin/env python3
"""What the tests share: checks that are counted, programs that are run and killed, files, classes,
and the libraries that are loaded before a program.

    tests/harness.py NAME FOLDER    compiles tests/NAME.c into the folder, and prints the path
"""
import atexit
import contextlib
import functools
import os
import shutil
import struct
import subprocess
import sys
import tempfile
import threading
from pathlib import Path

TESTS = Path(__file__).resolve().parent
TIME_LIMIT = 900  # seconds
SHOWN = 30  # of the checks that failed


# ---- checks

class Checks:
    """Counts what passed, and prints the first of what didn't."""

    def __init__(self, shown=SHOWN):
        self.passed = 0
        self.failed = 0
        self.shown = shown

    def check(self, name, holds, why=""):
        if holds:
            self.passed += 1
        else:
            self.failed += 1
            if self.failed <= self.shown:
                print(f"FAILED: {name} {why}", flush=True)
        return holds

    def add(self, other):
        """Counts what another process checked, and printed."""
        self.passed += other.passed
        self.failed += other.failed

    def check_all(self, parts):
        """Functions without arguments, each of which yields at least one pair: whether something
        holds, and its name."""
        for part in parts:
            found = list(part())
            if not found:
                self.check(f"nothing to check: {part.__doc__}", False)
            for holds, name in found:
                self.check(name, holds)

    def finish(self):
        print(f"{self.passed} passed, {self.failed} failed")
        return 1 if self.failed else 0


# ---- programs

def text_of(lines):
    return b"".join(line + b"\n" for line in lines)


def lines_in(text):
    return text.split(b"\n")[:-1]


def ran(words, data=b"", env=None, seconds=TIME_LIMIT):
    """Runs a program on these bytes to its end: its output, its status and its standard error. One
    that takes too long is killed and has no status."""
    try:
        done = subprocess.run(words, input=data, capture_output=True, check=False, timeout=seconds,
                              env={**os.environ, **(env or {})})
    except subprocess.TimeoutExpired:
        return b"", None, f"{words} didn't end in {seconds} s"
    return done.stdout, done.returncode, done.stderr.decode(errors="replace")


def run(program, words, lines=(), env=None, limit=None, seconds=TIME_LIMIT):
    """The same on lines, or on bytes as they are: its lines of output, its status and its standard
    error. A limit is one on the size of files in KiB, whose signal is ignored."""
    words = [program, *words]
    if limit is not None:
        words = ["bash", "-c", f"trap '' XFSZ; ulimit -f {limit}; exec \"$@\"", "bash", *words]
    data = lines if isinstance(lines, bytes) else text_of(lines)
    out, status, errors = ran(words, data, env, seconds)
    return lines_in(out), status, errors


def simulated(program, text, *words, env=None):
    """Runs cm_simulate on this text: its replies, its status and its standard error."""
    out, status, errors = ran([program, *words], text, env)
    return out.decode().split("\n")[:-1], status, errors


def feed(stream, data):
    """Writes all of it to a program that may end before."""
    with contextlib.suppress(BrokenPipeError), stream:
        stream.write(data)


def killed(words, data, delay, env=None, at_first_line=False):
    """Runs a program on these bytes and kills it after this many seconds, which begin at its first
    line if that is asked for: its whole lines of output, and whether the kill hit it."""
    process = subprocess.Popen(words, stdin=subprocess.PIPE, stdout=subprocess.PIPE,
                               stderr=subprocess.DEVNULL, env={**os.environ, **(env or {})})
    feeder = threading.Thread(target=feed, args=(process.stdin, data))
    feeder.start()
    first = process.stdout.readline() if at_first_line else b""
    timer = threading.Timer(delay, process.kill)
    timer.start()
    out = first + process.stdout.read()
    status = process.wait()
    timer.cancel()
    feeder.join()
    process.stdout.close()
    return lines_in(out), status == -9


def compiled(name, folder):
    """The path of tests/NAME.c, compiled into a library that is loaded before a program."""
    made = f"{folder}/{name}.so"
    subprocess.run(["cc", "-O2", "-Wall", "-Werror", "-shared", "-fPIC", "-o", made,
                    str(TESTS / f"{name}.c")], check=True)
    return made


@functools.lru_cache(maxsize=None)
def library(name):
    """The same in a temporary folder, until this script ends. It isn't below WORK, which may be in
    a file system from which nothing is loaded."""
    folder = tempfile.mkdtemp()
    atexit.register(shutil.rmtree, folder)
    return compiled(name, folder)


def refusals(counts):
    """How many allocations were refused, by the counts that tests/allocations.c left."""
    return struct.unpack("3Q", read(counts)[:24])[2]


# ---- files

def new_folder():
    """A folder that is removed at the end of a `with`. WORK names the one in which it lies."""
    return tempfile.TemporaryDirectory(dir=os.environ.get("WORK"))


def write(path, data):
    with open(path, "wb") as file:
        file.write(data)


def read(path):
    with open(path, "rb") as file:
        return file.read()


def remove(path):
    """Removes the file, if it is there."""
    with contextlib.suppress(FileNotFoundError):
        os.remove(path)


# ---- classes

VERSION_52 = bytes.fromhex("cafebabe00000034")


def u2(number):
    return struct.pack(">H", number)


def u4(number):
    return struct.pack(">I", number)


def utf8(text):
    """A constant of this text."""
    return b"\x01" + u2(len(text)) + text


def pool_of(name):
    """Constants 1 to 4: the class of this name, and java/lang/Object."""
    return b"\x07" + u2(2) + utf8(name) + b"\x07" + u2(4) + utf8(b"java/lang/Object")


# Its flags, its own class and its super class; no interfaces, fields and methods.
PLAIN = u2(0x0021) + u2(1) + u2(3) + bytes(6)


def class_a(name=b"A"):
    """A public class with nothing in it. If its name has up to eight bytes, its record has 16
    words."""
    return VERSION_52 + u2(5) + pool_of(name) + PLAIN + u2(0)


def padded(name, zeros):
    """The same with an attribute X of this many zeros: its record has 20 words, and one more for
    each eight of them."""
    return (VERSION_52 + u2(6) + pool_of(name) + utf8(b"X") + PLAIN + u2(1) + u2(5) + u4(zeros)
            + bytes(zeros))


def stream_of(classes):
    """Classes as `cm_bench_files` reads them: each preceded by its length."""
    return b"".join(u4(len(data)) + data for data in classes)


def loader(name):
    return b"loader " + name


def define(name, data):
    """The line that defines a class in the loader of this name."""
    return b"define %s %s" % (name, data.hex().encode())


if __name__ == "__main__":
    print(compiled(*sys.argv[1:]))
