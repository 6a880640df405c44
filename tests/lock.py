#!/usr/bin/env python3
"""Programs that use one file at the same time.

    tests/lock.py CMCACHE CM_IMPORT CM_STAT C_PROGRAM RUNS SEED

Each program is stopped while it has the file open, by an output that nobody reads, and each other
one is run then: it says that the file is in use, ends with 3 and leaves the file as it is, unless
both only read. A killed program leaves no lock, and no program hands the file to a child. Then two
scripts, and two imports, run on one file: whatever was acknowledged is there, and no file is
damaged.
"""
import contextlib
import os
import random
import subprocess
import sys
import threading
import time
from pathlib import Path

import harness

JAR = str(Path(__file__).resolve().parent.parent / "examples/first.jar")
LINES = 30
ONE_LINE = harness.text_of([harness.loader(b"app")])
SECONDS = 60  # until a program has opened a file, or says what it has to say


class Users:
    """The programs, each as the words that make it use a file, and whether it may write."""

    def __init__(self, cmcache, importer, statistics, in_c):
        self.cmcache = cmcache
        self.importer = importer
        self.words = {
            "apply": ([cmcache, "apply"], True),
            "apply by workers": ([cmcache, "apply", "--workers", "2"], True),
            "list": ([cmcache, "list"], True),
            "trim": ([cmcache, "trim"], True),
            "check": ([cmcache, "check"], False),
            "cm_stat": ([statistics], False),
            "cm_import": ([importer], True),
            "a C program": ([in_c, "apply"], True),
        }

    def on(self, name, path):
        """The words of this program for the file."""
        words, _ = self.words[name]
        if name == "cm_import":
            return [*words, path, "app", JAR]
        return [*words[:2], path, *words[2:]]

    def writes(self, name):
        return self.words[name][1]


def holds(process, path):
    """Whether the process has the file open and locked, as the system lists it."""
    if not os.path.exists(path):
        return False
    inode = os.stat(path).st_ino
    locks = Path("/proc/locks").read_text().splitlines()
    return any(f":{inode} " in line and f" {process.pid} " in line and "FLOCK" in line
               for line in locks)


class Held:
    """A program that is stopped in a `with`, while it has the file open: its output goes to a pipe
    that is full."""

    def __init__(self, words, path):
        self.path = path
        self.reader, writer = os.pipe()
        os.set_blocking(writer, False)
        try:
            while True:
                os.write(writer, bytes(4096))
        except BlockingIOError:
            os.set_blocking(writer, True)
        self.process = subprocess.Popen(words, stdin=subprocess.PIPE, stdout=writer,
                                        stderr=subprocess.DEVNULL)
        os.close(writer)
        harness.feed(self.process.stdin, ONE_LINE)

    def __enter__(self):
        end = time.monotonic() + SECONDS
        while not holds(self.process, self.path):
            if self.process.poll() is not None or time.monotonic() > end:
                raise RuntimeError(f"{self.process.args} didn't open the file")
            time.sleep(0.002)
        return self

    def kill(self):
        self.process.kill()
        self.process.wait()

    def __exit__(self, *_):
        # What nobody read so far is read now, so that the program comes to its end.
        drain = threading.Thread(target=lambda: Path(f"/dev/fd/{self.reader}").read_bytes())
        drain.start()
        self.process.wait()
        drain.join()
        os.close(self.reader)


def make_cache(users, path):
    harness.remove(path)
    harness.run(users.cmcache, ["format", path, "--slots", "256"])
    harness.run(users.cmcache, ["apply", path],
                [harness.loader(b"old"), harness.define(b"old", harness.class_a())])


def says_in_use(path, told):
    out, status, errors = told
    return (out, status) == (b"device\n", 3) and f"{path}: in use by another process" in errors


def meet(checks, users, path):
    """Each program beside each other one. The file is then as the first one alone leaves it."""
    for first in users.words:
        make_cache(users, path)
        harness.ran(users.on(first, path), ONE_LINE)
        alone = harness.read(path)
        for second in users.words:
            make_cache(users, path)
            with Held(users.on(first, path), path):
                told = harness.ran(users.on(second, path), b"")
                name = f"{second} beside {first}"
                if users.writes(first) or users.writes(second):
                    checks.check(name, says_in_use(path, told), f"{told}")
                else:
                    checks.check(name, told[1] == 0 and told[0] != b"", f"{told}")
            checks.check(f"{name}: the file", harness.read(path) == alone)
        told = harness.ran(users.on("check", path), b"")
        checks.check(f"{first} ended: the file is free", told[1] == 0, f"{told}")


def end(checks, users, path):
    """A killed program leaves no lock, and what it opened doesn't survive an exec."""
    for name in users.words:
        make_cache(users, path)
        with Held(users.on(name, path), path) as held:
            # The C interface opens a file twice at most, the programs once.
            opened = [Path(f"/proc/{held.process.pid}/fdinfo/{fd.name}").read_text()
                      for fd in Path(f"/proc/{held.process.pid}/fd").iterdir()
                      if os.path.realpath(fd) == os.path.realpath(path)]
            flags = [int(text.split("flags:")[1].split()[0], 8) for text in opened]
            checks.check(f"{name}: no child inherits the file",
                         flags and all(each & os.O_CLOEXEC for each in flags), f"{flags}")
            held.kill()
            told = harness.ran(users.on("trim", path), b"")
            checks.check(f"{name} is killed: the file is free", told[1] == 0, f"{told}")


def format_beside(checks, users, path):
    """A file that is being made is in use."""
    harness.remove(path)
    with Held([users.cmcache, "format", path], path):
        told = harness.ran(users.on("apply", path), b"")
        checks.check("apply beside format", says_in_use(path, told), f"{told}")
        told = harness.ran([users.cmcache, "format", path], b"")
        checks.check("format beside format", told[:2] == (b"exists\n", 1), f"{told}")


def feed_slowly(process, lines, pauses, replies):
    """Gives a script its lines one by one, and collects the replies."""
    with contextlib.suppress(BrokenPipeError), process.stdin:
        for line, pause in zip(lines, pauses):
            time.sleep(pause)
            process.stdin.write(line + b"\n")
            process.stdin.flush()
    replies.extend(process.stdout.read().splitlines())


def run_two(users, path, rng):
    """Two scripts on one file: of each its status, and the loaders that it was told are stored."""
    started = []
    for letter in (b"a", b"b"):
        names = [letter + b"%d" % number for number in range(LINES)]
        process = subprocess.Popen(users.on("apply", path), stdin=subprocess.PIPE,
                                   stdout=subprocess.PIPE, stderr=subprocess.DEVNULL)
        pauses = [rng.uniform(0, 0.004) for _ in names]
        replies = []
        thread = threading.Thread(target=feed_slowly, args=(
            process, [harness.loader(name) for name in names], pauses, replies))
        thread.start()
        started.append((process, thread, names, replies))
    for process, thread, names, replies in started:
        thread.join()
        process.stdout.close()
        stored = [name for name, reply in zip(names, replies) if reply.startswith(b"ok ")]
        yield process.wait(), replies, stored


def scripts(checks, users, path, runs, rng):
    """Two scripts that meet: one of them is refused, and what the other stored is there."""
    for number in range(runs):
        make_cache(users, path)
        ran = list(run_two(users, path, rng))
        stored = [name for _, _, names in ran for name in names]
        listed, status, errors = harness.run(users.cmcache, ["list", path])
        there = {line.split()[1] for line in listed if line.startswith(b"loader ")}
        checks.check(f"run {number}: the file is whole", status == 0, errors)
        checks.check(f"run {number}: what was acknowledged is there",
                     there == {b"old", *stored}, f"{sorted(there)} {stored}")
        checks.check(f"run {number}: a script is run or refused", all(
            (status == 0 and len(names) == LINES) or (status == 3 and replies == [b"device"])
            for status, replies, names in ran), f"{ran}")


def imports(checks, users, path, runs):
    """Two imports that meet."""
    for number in range(runs):
        make_cache(users, path)
        both = [subprocess.Popen([users.importer, path, loader, JAR], stdout=subprocess.PIPE,
                                 stderr=subprocess.DEVNULL) for loader in ("one", "two")]
        ended = [(process.communicate()[0], process.returncode) for process in both]
        listed, status, errors = harness.run(users.cmcache, ["list", path])
        there = {line.split()[1] for line in listed if line.startswith(b"loader ")}
        wanted = {loader for loader, (_, code) in zip((b"one", b"two"), ended) if code != 3}
        checks.check(f"imports {number}: the file is whole", status == 0, errors)
        checks.check(f"imports {number}: what was imported is there", there == {b"old"} | wanted,
                     f"{ended} {there}")
        checks.check(f"imports {number}: one at least is made", wanted != set(), f"{ended}")


def main():
    users = Users(*sys.argv[1:5])
    runs, rng = int(sys.argv[5]), random.Random(int(sys.argv[6]))
    checks = harness.Checks()
    with harness.new_folder() as folder:
        path = f"{folder}/cache"
        meet(checks, users, path)
        end(checks, users, path)
        format_beside(checks, users, path)
        scripts(checks, users, path, runs, rng)
        imports(checks, users, path, 5)
    return checks.finish()


if __name__ == "__main__":
    sys.exit(main())
