#!/usr/bin/env python3
"""Files through views of them, which `tests/c/view.c` opens, beside what region.py says of them.

    tests/readonly.py VIEW CMCACHE CHANGED SEED

Of a file that stands for a cache, each loader and class is shown and found with its record, and no
other. Of a damaged one a view is refused where the journal's walk finds the damage, with what it
finds; otherwise whatever is found is a live class of that loader with a record that keeps the
rules, and none such is missed. All changes of check.py are tried, or CHANGED of them, drawn by
SEED.
"""
import multiprocessing
import os
import random
import struct
import subprocess
import sys
import threading
import time

import check
import harness
import oracle
import region
import runs

OK, NOT_A_CACHE, DAMAGED, NONE = 0, 21, 22, 24
READ_ONLY_BITS = 0o444
HEAD_WORDS = 8  # of a record (docs/RECORD.md)


# ---- what a view says

class View:
    """A program that opens views, one after another."""

    def __init__(self, program):
        self.process = subprocess.Popen([program], stdin=subprocess.PIPE, stdout=subprocess.PIPE)

    def of(self, path, loader=b"", names=()):
        """What it says of the file: the line that begins it, the loaders in order, the classes that
        are listed of each, and what looking up each class says."""
        words = [os.fsencode(path), *([loader, *names] if loader else [])]
        self.process.stdin.write(b"\t".join(words) + b"\n")
        self.process.stdin.flush()
        said = Said()
        for line in self.process.stdout:
            if line == b"end\n":
                return said
            said.add(line.decode().rstrip("\n"))
        raise RuntimeError(f"the view ended at {path}")

    def close(self):
        self.process.stdin.close()
        self.process.stdout.close()
        return self.process.wait()


class Said:
    def __init__(self):
        self.opened = None
        self.loaders = []
        self.classes = {}
        self.found = {}

    def add(self, line):
        kind, *words = line.split(" ")
        if kind == "loader":
            self.loaders.append(bytes.fromhex(words[0]))
            self.classes[self.loaders[-1]] = []
        elif kind == "class":
            self.classes[self.loaders[-1]].append(bytes.fromhex(words[0]))
        elif kind == "found":
            loader, name = bytes.fromhex(words[0]), bytes.fromhex(words[1])
            values = [int(word, 16) for word in words[3].split(",")[:-1]]
            self.found[loader, name] = int(words[2]), values
        else:
            self.opened = line


# ---- what region.py says of the same bytes

class Walked(region.File):
    """A file whose records aren't read: what the journal's walk finds."""

    def read_record(self, row):
        pass


def kept(file, row):
    """The class of a row, if its record is one of a class that keeps the rules."""
    if row.chunk.root >= file.roots or row.words < HEAD_WORDS:
        return None
    begin = region.root_at(file.geometry, row.chunk.root) + 8 * (row.chunk.at + row.offset)
    data = file.data[begin:begin + 8 * row.words]
    return region.class_of(list(struct.unpack(f"<{row.words}Q", data)))


def verdict(data, kind):
    try:
        return kind(bytes(data)), None
    except (region.NotACache, region.Damaged) as fault:
        return None, fault


def whole(said, file):
    """Whether the view says exactly what a file holds that stands for a cache."""
    state = file.state()
    pairs = {(loader, name): (OK, words) for loader, classes in state.items()
             for name, words in classes.items()}
    found = {pair: answer for pair, answer in said.found.items() if answer[0] != NONE}
    classes = sum(map(len, state.values()))
    return (said.opened == f"opened {classes} {len(state)} {file.number}"
            and said.loaders == sorted(state)
            and all(sorted(said.classes[name]) == sorted(state[name]) for name in state)
            and found == pairs)


def refused(said, fault):
    """Whether no view is opened, for what the walk finds."""
    if isinstance(fault, region.NotACache):
        return said.opened == f"not opened {NOT_A_CACHE} 0 0"
    return said.opened == f"not opened {DAMAGED} {fault.kind} {fault.slot}"


def sound(said, file):
    """Whether a view of a file whose journal is whole shows nothing but what its records are. It
    may be refused for a record that is no class's."""
    made = [(row, kept(file, row)) for row in file.rows if row.chunk]
    names = {row.loader: row.name for row in file.loaders()}
    if said.opened.startswith("not opened"):
        _, _, status, what, slot = said.opened.split(" ")
        twice = len({(row.loader, each.name) for row, each in made if each}) < sum(
            each is not None for _, each in made)
        bad = {row.slot for row, each in made if not each}
        return int(status) == DAMAGED and (int(what) in (7, 8) and int(slot) in bad
                                           or int(what) == 9 and (twice or bad))
    good = {(names[row.loader], each.name): each.words for row, each in made if each}
    found = {pair: words for pair, (status, words) in said.found.items() if status == OK}
    return (found == {pair: good[pair] for pair in said.found if pair in good}
            and set(good) <= set(said.found)
            and all(status in (OK, NONE, DAMAGED) for status, _ in said.found.values()))


def judged(view, path, data, names=()):
    """Whether the view of a file with these bytes says what region.py says of them."""
    walked, fault = verdict(data, Walked)
    said = view.of(path, *names)
    if fault:
        return refused(said, fault), f"{said.opened}, and the walk finds {fault}"
    file, fault = verdict(data, region.File)
    if fault:
        return sound(said, walked), f"{vars(said)}, and the file is {fault}"
    return whole(said, file), f"{vars(said)}"


# ---- files

def few(checks, view, folder):
    """Small files, with classes that nobody defined, and names that are odd."""
    path = os.path.join(folder, "small")
    asked = b"a", [b"A", b"B", b"no/such", b"x" * 60000]
    for number, script in enumerate(check.SCRIPTS):
        data = check.new_file(script)
        harness.write(path, data)
        checks.check(f"a view of file {number}", *judged(view, path, data, asked))
    for name in ("older_full", "older_moves", "older_second"):
        data = subprocess.run(["gzip", "-dc", f"tests/data/{name}.gz"], check=True,
                              stdout=subprocess.PIPE).stdout
        harness.write(path, data)
        os.chmod(path, READ_ONLY_BITS)
        checks.check(f"a view of {name}, of version 1", *judged(view, path, data, asked))
        checks.check("the file is as it was", harness.read(path) == data)
        os.remove(path)
    for length in (0, 1, 4095, 4096, 5000):
        data = bytes(check.new_file(check.SCRIPTS[3])[:length])
        harness.write(path, data)
        checks.check(f"a view of {length} bytes", *judged(view, path, data))


def changed(program, path, some):
    """The file that has an entry of each kind, with each of these changes."""
    view, checks = View(program), harness.Checks()
    data = check.whole_file()
    harness.write(path, data)
    with open(path, "r+b", buffering=0) as file:
        for at, value in some:
            was, data[at] = data[at], value
            os.pwrite(file.fileno(), bytes([value]), at)
            checks.check(f"a view with {value:#x} at {at}",
                         *judged(view, path, data, (b"a", [b"A", b"B"])))
            data[at] = was
            os.pwrite(file.fileno(), bytes([was]), at)
    checks.check("the views end", view.close() == 0)
    os.remove(path)
    return checks


def each_byte(checks, program, folder, count, seed):
    every = list(check.changes())
    if count < len(every):
        every = random.Random(seed).sample(every, count)
    parts = [(program, os.path.join(folder, f"changed-{part}"), every[part::os.cpu_count()])
             for part in range(os.cpu_count())]
    with multiprocessing.Pool() as pool:
        for part in pool.starmap(changed, parts, chunksize=1):
            checks.add(part)


def drawn(checks, view, path, count, seed):
    """Files with some bytes changed, or cut."""
    draw = random.Random(seed)
    for number in range(count):
        data = check.new_file(check.SCRIPTS[number % len(check.SCRIPTS)])
        check.damage(data, draw)
        harness.write(path, data)
        checks.check(f"a view of file {number}, seed {seed}",
                     *judged(view, path, data, (b"a", [b"A", b"B", b"C"])))


def past_the_end(checks, view, path):
    """Records that point outside: a name whose run passes the record's end, and the file's."""
    data = check.whole_file()
    one = check.ROOTS + 8 * 128
    for word, value in ((8 + 2, 1 | 0xFFFF << 16 | 0xFFFFFFFF << 32),
                        (8 + 2, 1 | 1 << 16 | 17 << 32),
                        (1, 0x21 | 0xFFFF << 16), (8 + 1, 7 | 0xFFFF << 32)):
        changed_data = bytearray(data)
        changed_data[one + 8 * word:one + 8 * word + 8] = struct.pack("<Q", value)
        harness.write(path, changed_data)
        checks.check(f"a view with {value:#x} in word {word}", *judged(view, path, changed_data))


# ---- processes

def many_processes(checks, program, path, seed):
    """Sixteen threads in each of four processes, which are killed and started anew."""
    draw, ends, held = random.Random(seed), [], threading.Lock()

    def run():
        for turn in range(6):
            process = subprocess.Popen([program, "many", path, "16", "40"], stdout=subprocess.PIPE)
            if turn % 2 == 0:
                time.sleep(draw.random() * 0.1)
                process.kill()
            said = process.communicate()[0]
            with held:
                ends.append((turn % 2, process.returncode, said))

    threads = [threading.Thread(target=run) for _ in range(4)]
    for thread in threads:
        thread.start()
    for thread in threads:
        thread.join()
    whole_runs = [end for end in ends if end[0] == 1]
    checks.check("sixteen threads in four processes find the same",
                 len(whole_runs) == 12 and all(end == (1, 0, b"same\n") for end in whole_runs),
                 f"{whole_runs}")


def locks(checks, program, cmcache, path):
    """A view and a writer exclude each other; two views, and programs that read, don't."""
    line = harness.text_of([harness.loader(b"later")])
    with subprocess.Popen([program, "hold", path], stdin=subprocess.PIPE,
                          stdout=subprocess.PIPE) as holder:
        checks.check("a file is held", holder.stdout.readline() == b"opened\n")
        checks.check("a writer is refused meanwhile",
                     harness.ran([cmcache, "apply", path], line)[1] == 3)
        checks.check("a second view isn't", harness.ran([program, "hold", path])[1] == 0)
        checks.check("nor is one who checks it", harness.ran([cmcache, "check", path])[1] == 0)
        holder.stdin.close()
    checks.check("later it isn't", harness.ran([cmcache, "apply", path], line)[1] == 0)
    with subprocess.Popen([cmcache, "apply", path], stdin=subprocess.PIPE,
                          stdout=subprocess.PIPE) as writer:
        writer.stdin.write(harness.text_of([harness.loader(b"last")]))
        writer.stdin.flush()
        writer.stdout.readline()
        checks.check("a file that is written isn't viewed",
                     harness.ran([program, "hold", path])[:2] == (b"not opened 42\n", 1))
        writer.stdin.close()
        writer.stdout.read()
    said, data = View(program), harness.read(path)
    checks.check("what was written is viewed", *judged(said, path, data, (b"last", [b"A"])))
    checks.check("the view ends", said.close() == 0)


def main(program, cmcache, count, seed):
    checks = harness.Checks()
    with harness.new_folder() as folder:
        view = View(program)
        few(checks, view, folder)
        drawn(checks, view, os.path.join(folder, "drawn"), count, seed)
        past_the_end(checks, view, os.path.join(folder, "past"))
        checks.check("the views end", view.close() == 0)
        each_byte(checks, program, folder, count, seed)
        path = os.path.join(folder, "held")
        harness.write(path, check.new_file(check.SCRIPTS[6], oracle.Geometry(3, 8, 256)))
        many_processes(checks, program, path, seed)
        locks(checks, program, cmcache, path)
    return checks.finish()


if __name__ == "__main__":
    sys.exit(main(sys.argv[1], sys.argv[2], int(sys.argv[3]), int(sys.argv[4])))
