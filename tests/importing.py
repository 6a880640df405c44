#!/usr/bin/env python3
"""Runs cm_import on classes, folders and jars, and looks at what the file holds.

    tests/importing.py IMPORTER PROGRAM KILLS SEED
"""
import os
import random
import re
import sys
import time
import zipfile

import device_calls
import harness
import oracle
import region

A_GROUP = oracle.GROUP_SLOTS
LINE = re.compile(rb"imported (\d+) there (\d+) changed (\d+) skipped (\d+) "
                  rb"refused (\d+) number (\d+)")


def class_bytes(name, zeros=0):
    """A class of this name, with an attribute of this many zeros."""
    return harness.padded(name.encode(), zeros)


def of_version(data, major):
    return data[:6] + harness.u2(major) + data[8:]


class Bench:
    """The programs, a folder, and what passed."""

    def __init__(self, importer, program, folder):
        self.importer, self.program, self.folder = importer, program, folder
        self.checks = harness.Checks()
        self.count = 0

    def path(self, name):
        return f"{self.folder}/{name}"

    def new_path(self):
        self.count += 1
        return self.path(f"cache{self.count}")

    def run(self, *words):
        return harness.run(self.importer, words)

    def says(self, name, got, line, status, errors=()):
        """The run wrote this line and these parts of lines on standard error, a part each."""
        lines = got[2].splitlines()
        good = got[0] == ([line] if line else []) and got[1] == status
        good = good and len(lines) == len(errors)
        good = good and all(part in text for part, text in zip(errors, lines))
        return self.checks.check(name, good, f"got {got}")

    def holds(self, name, path, loader, names):
        """The file is a cache with these classes, in this order of their numbers."""
        try:
            state = region.read(path).state()
        except (region.NotACache, region.Damaged) as verdict:
            return self.checks.check(name, False, str(verdict))
        found = sorted(state.get(loader, {}))
        checked = harness.run(self.program, ["check", path])
        return self.checks.check(
            name, found == sorted(n.encode() for n in names) and checked[1] == 0,
            f"{len(found)} classes, wanted {len(names)}; {checked}")


def line(imported, there=0, skipped=0, refused=0, number=0, changed=0):
    return (f"imported {imported} there {there} changed {changed} skipped {skipped} "
            f"refused {refused} number {number}").encode()


def names_of(count):
    return [f"p/C{at:04}" for at in range(count)]


def make_jar(path, contents, packed=zipfile.ZIP_DEFLATED):
    with zipfile.ZipFile(path, "w", packed) as jar:
        for name, data in contents:
            jar.writestr(name, data)


def make_folder(path, contents):
    for name, data in contents:
        place = f"{path}/{name}"
        os.makedirs(os.path.dirname(place), exist_ok=True)
        harness.write(place, data)


def usual(bench):
    """Files, folders and jars, with one worker and with several, and once more: the same classes
    make the same file, byte for byte."""
    names = names_of(300)
    contents = [(f"{name}.class", class_bytes(name, 7 * at)) for at, name in enumerate(names)]
    left_out = [("module-info.class", b"no class"), ("p/package-info.class", b"none"),
                ("p/notes.txt", b"text"), ("META-INF/MANIFEST.MF", b"")]
    jar, stored, folder = bench.path("a.jar"), bench.path("stored.jar"), bench.path("classes")
    make_jar(jar, contents + left_out)
    make_jar(stored, contents + left_out, zipfile.ZIP_STORED)
    make_folder(folder, contents + left_out)
    files = []
    for source in (jar, stored, folder):
        for workers in ("1", "2", "4", "4"):
            path = bench.new_path()
            files.append(path)
            got = bench.run(path, "app", source, "--new", "--workers", workers)
            bench.says(f"{source}, {workers} workers", got, line(300, number=301), 0)
            bench.holds(f"{source}, {workers} workers: the file", path, b"app", names)
    contents_of = {harness.read(path) for path in files}
    bench.checks.check("the same bytes each time", len(contents_of) == 1, f"{len(contents_of)}")
    bench.says("once more", bench.run(files[0], "app", jar), line(0, there=300, number=301), 0)
    bench.says("another loader", bench.run(files[0], "ext", jar), line(300, number=602), 0)
    path = bench.new_path()
    single = [f"{folder}/{names[2]}.class", f"{folder}/{names[1]}.class"]
    bench.says("two files", bench.run(path, "app", *single, "--new"), line(2, number=3), 0)
    bench.holds("two files: the file", path, b"app", [names[1], names[2]])
    jars = bench.path("jars")
    make_jar(bench.path("b.jar"), contents[:10])
    make_folder(jars, [("lib/b.jar", harness.read(bench.path("b.jar"))),
                       ("Z.class", class_bytes("Z"))])
    path = bench.new_path()
    bench.says("jars in a folder", bench.run(path, "app", jars, "--new"), line(11, number=12), 0)
    return jar, names


def never_stale(bench):
    """A class that changed in the jar since it was imported is reported, and stays as it was."""
    names = [f"p/C{at:02}" for at in range(30)]
    old, new = bench.path("old.jar"), bench.path("new.jar")
    make_jar(old, [(f"{name}.class", class_bytes(name, 8)) for name in names])
    path = bench.new_path()
    bench.says("as it was", bench.run(path, "app", old, "--new"), line(30, number=31), 0)
    held = harness.read(path)
    make_jar(new, [(f"{name}.class", class_bytes(name, 8 if at < 3 else 9))
                   for at, name in enumerate(names)])
    got = bench.run(path, "app", new)
    bench.says("changed since", got, line(0, there=3, changed=27, number=31), 1,
               [f"{name}.class: changed" for name in names[3:23]] +
               ["changed 7 more", "the loader keeps its classes"])
    bench.checks.check("changed since: the file", harness.read(path) == held)
    make_jar(new, [("p/C00.class", class_bytes("p/C00", 9)), ("New.class", class_bytes("New"))])
    got = bench.run(path, "app", new)
    bench.says("one changed, one new", got, line(1, changed=1, number=32), 1,
               ["p/C00.class: changed", "the loader keeps its classes"])
    # On a class path the first class of a name counts: the others aren't changed ones.
    path = bench.new_path()
    bench.says("a class of two jars", bench.run(path, "app", old, new, "--new"),
               line(31, there=1, number=32), 0)
    bench.says("a class of two jars, once more", bench.run(path, "app", old, new),
               line(0, there=32, number=32), 0)


def replaced(bench):
    """--replace and --dry-run: a class that changed, came, went, or has another name."""
    names = [f"p/C{at}" for at in range(5)]
    was = [(f"{name}.class", class_bytes(name, 8)) for name in names]
    jar, path = bench.path("replaced.jar"), bench.new_path()
    make_jar(jar, was)
    bench.run(path, "app", jar, "--new")
    bench.run(path, "ext", jar)
    number, held = 12, names
    steps = (("nothing changed", was, (0, 5, 0, 0)),
             ("a class changed", [*was[:4], (was[4][0], class_bytes(names[4], 9))], (0, 4, 1, 0)),
             ("one was added", [*was, ("New.class", class_bytes("New"))], (1, 4, 1, 0)),
             ("one was removed", was[1:], (0, 4, 0, 2)),
             ("one was renamed", [*was[1:4], ("q/D.class", class_bytes("q/D"))], (1, 3, 0, 1)),
             ("only added", [*was[1:4], ("q/D.class", class_bytes("q/D")),
                             ("E.class", class_bytes("E"))], (1, 4, 0, 0)))
    for name, contents, (new, there, changed, gone) in steps:
        make_jar(jar, contents)
        before = harness.read(path)
        told = f"new {new} there {there} changed {changed} gone {gone} skipped 0 refused 0"
        got = bench.run(path, "app", jar, "--dry-run")
        bench.checks.check(f"{name}: --dry-run", got[:2] == (
            [f"would import {told}".encode()], 1 if changed else 0), f"{got}")
        anew = changed + gone > 0
        verb = "replace" if anew else "import"
        got = bench.run(path, "app", jar, "--dry-run", "--replace")
        bench.checks.check(f"{name}: --dry-run --replace", got[:2] == (
            [f"would {verb} {told}".encode()], 0), f"{got}")
        bench.checks.check(f"{name}: nothing was done", harness.read(path) == before)
        unloaded = [f"unloaded number {number + 1}".encode()] if anew else []
        count = len(contents) if anew else new
        number += count + 2 * anew
        got = bench.run(path, "app", jar, "--replace")
        bench.checks.check(f"{name}: --replace", got == (
            [*unloaded, line(count, there=0 if anew else there, number=number)], 0, ""), f"{got}")
        held = [inner.removesuffix(".class") for inner, _ in contents]
        bench.holds(f"{name}: the file", path, b"app", held)
        bench.holds(f"{name}: another loader", path, b"ext", names)
        bench.checks.check(f"{name}: as the paths have them", same_records(path, contents))
        got = bench.run(path, "app", jar, "--replace")
        bench.says(f"{name}: once more", got, line(0, there=len(contents), number=number), 0)
    make_jar(jar, was)
    before = harness.read(path)
    got = bench.run(path, "app", jar, bench.path("missing"), "--replace")
    bench.checks.check("a path is missing", got[1] == 1 and "isn't made anew" in got[2] and
                       not any(b"unloaded" in text for text in got[0]), f"{got}")
    bench.holds("a path is missing: the file", path, b"app", set(held) | set(names))


def same_records(path, contents):
    """Whether the loader `app` has these very classes."""
    found = region.read(path).state().get(b"app", {})
    return all(found.get(name.removesuffix(".class").encode()) ==
               list(oracle.prepare(data).words) for name, data in contents)


def replaced_and_killed(bench, jar, names, count, rng):
    """A loader that is being made anew and is killed: it has what it had, or a beginning of the
    new classes, and the next run completes it."""
    old, new = bench.path("before.jar"), bench.path("after.jar")
    contents = [(f"{name}.class", class_bytes(name, 40)) for name in names]
    make_jar(old, [(f"{name}.class", class_bytes(name, 8)) for name in names])
    make_jar(new, contents)
    start_file = bench.new_path()
    bench.run(start_file, "app", old, "--new")
    data = harness.read(start_file)
    start = time.monotonic()
    bench.run(start_file, "app", new, "--replace", "--workers", "1")
    whole = time.monotonic() - start
    ends = set()
    for turn in range(count):
        path = bench.new_path()
        harness.write(path, data)
        harness.killed([bench.importer, path, "app", new, "--replace"], b"", rng.uniform(0, whole))
        found = region.read(path).state().get(b"app", {})
        right = {name.encode(): list(oracle.prepare(inner).words)
                 for name, (_, inner) in zip(names, contents)}
        is_new = sorted(found) == [name.encode() for name in names[:len(found)]] and all(
            found[name] == right[name] for name in found)
        is_old = harness.read(path) == data or (len(found) == len(names) and not any(
            found[name] == right[name] for name in found))
        ends.add("old" if is_old else "all" if len(found) == len(names) else "beginning")
        bench.checks.check(f"killed {turn}", is_new or is_old, f"{len(found)} classes")
        got = bench.run(path, "app", new, "--replace")
        bench.checks.check(f"killed {turn}: the next run", got[1:] == (0, "") and
                           same_records(path, contents), f"{got}")
        os.remove(path)
    bench.checks.check("some kills hit", count == 0 or ends != {"all"}, f"{ends}")


def readme(bench):
    """The command of README.md, which imports a jar of examples/."""
    with open("README.md", encoding="utf-8") as file:
        words = re.search(r"^ +bin/cm_import (.*?) +#", file.read(), re.MULTILINE)[1].split()
    path = bench.path(words[0])
    bench.says("README.md", bench.run(path, *words[1:]), line(2, number=3), 0)
    bench.holds("README.md: the file", path, b"app", ["A", "example/B"])


def not_imported(bench):
    """What isn't imported, and what is said of it."""
    good = class_bytes("Good")
    broken = good[:-8] + b"\x00\x01\x00\x05\x00\x00\x00\x09"
    jar, path = bench.path("mixed.jar"), bench.new_path()
    make_jar(jar, [("A.class", of_version(good, 61)), ("B.class", of_version(good, 61)),
                   ("C.class", of_version(good, 50)), ("Good.class", good),
                   ("Cut.class", broken), ("Again.class", good)])
    got = bench.run(path, "app", jar, "--new")
    bench.says("versions, and a class that is cut", got, line(1, 1, 3, 1, 2), 1,
               ["Cut.class: refused 14 truncated", "skipped 2 of version 61.0",
                "skipped 1 of version 50.0"])
    newer = bench.path("newer.jar")
    make_jar(newer, [("A.class", of_version(good, 61))])
    bench.says("newer classes alone", bench.run(bench.new_path(), "app", newer, "--new"),
               line(0, skipped=1, number=1), 0,
               ["skipped 1 of version 61.0", "no class of version 52.0 was found"])
    many = bench.path("many.jar")
    make_jar(many, [(f"{at:02}.class", broken) for at in range(25)])
    got = bench.run(path, "app", many)
    bench.says("25 refusals", got, line(0, refused=25, number=2), 1,
               [f"{at:02}.class: refused 14" for at in range(20)] + ["refused 5 more"])
    data = bytearray(harness.read(jar))
    at = data.rindex(b"Good.class") - 46  # its header in the directory
    data[at + 16] ^= 1
    spoilt = bench.path("spoilt.jar")
    harness.write(spoilt, data)
    make_jar(jar, [("A.class", class_bytes("A"))])
    missing, damaged = bench.path("missing"), bench.path("damaged.jar")
    harness.write(damaged, b"no jar")
    got = bench.run(path, "app", missing, damaged, spoilt, jar)
    good_lines = got[2].splitlines()
    bench.checks.check("paths that can't be read", got[1] == 1 and any(
        "missing" in text for text in good_lines) and any(
        "damaged.jar: no end of central directory record" in text for text in good_lines) and any(
        "Good.class: " in text and "CRC" in text.upper() for text in good_lines), f"{got}")
    bench.holds("the others are imported", path, b"app", ["A", "Good"])
    folder = bench.path("links")
    make_folder(folder, [("A.class", class_bytes("A")), ("p/B.class", class_bytes("B"))])
    os.symlink("nowhere", f"{folder}/Gone.class")
    os.symlink("p", f"{folder}/q")
    os.symlink("p/B.class", f"{folder}/Link.class")
    path = bench.new_path()
    bench.says("links", bench.run(path, "app", folder, "--new"), line(2, 1, 0, 0, 3), 1,
               ["Gone.class: "])
    bench.holds("links: the file", path, b"app", ["A", "B"])


def overlapping(data, count):
    """The jar of one entry with this many headers in its directory, all of that entry."""
    end = data.rindex(b"PK\x05\x06")
    at = int.from_bytes(data[end + 16:end + 20], "little")
    directory = data[at:end] * count
    return (data[:at] + directory + data[end:end + 8] + count.to_bytes(2, "little") * 2 +
            len(directory).to_bytes(4, "little") + data[end + 16:])


def hostile(bench):
    """Jars that would take long, names that a terminal obeys, files that are too large, jars in
    jars: each has its line, and the import goes on."""
    good, jar, many = bench.path("good.jar"), bench.path("zeros.jar"), bench.path("overlap.jar")
    make_jar(good, [("Good.class", class_bytes("Good"))])
    make_jar(jar, [("A.class", bytes(oracle.LINE_LIMIT))])
    harness.write(many, overlapping(harness.read(jar), 1000))
    start = time.monotonic()
    got = bench.run(bench.new_path(), "app", many, good, "--new")
    bench.says("overlapping entries", got, line(1, number=2), 1, [f"{many}: its entries overlap"])
    taken = time.monotonic() - start
    bench.checks.check("overlapping entries: the time", taken < 20, f"{taken}")
    harness.write(many, overlapping(harness.read(good), 3))
    got = bench.run(bench.new_path(), "app", many, "--new")
    bench.says("an entry that is listed three times", got, line(1, there=2, number=2), 0)
    folder, name = bench.path("odd"), "B\x1b[2J\nimported 9\x7f\u0085.class"
    cut = class_bytes("Cut")[:-1]
    make_folder(folder, [("Large.class", bytes(oracle.LINE_LIMIT + 1)), ("Good.class",
                         class_bytes("Good")), (name, cut)])
    make_jar(f"{folder}/odd.jar", [(name, cut), ("C.class", class_bytes("C"))])
    got = bench.run(bench.new_path(), "app", folder, "--new")
    shown = "B%1B[2J%0Aimported 9%7F%C2%85.class: refused 14"
    bench.says("odd names and a large file", got, line(2, refused=2, number=3), 1,
               ["Large.class: ", f"odd/{shown}", f"odd.jar: {shown}"])
    bench.checks.check("nothing that a terminal obeys", got[2].replace("\n", "").isprintable(),
                       f"{got[2]!r}")
    nested = bench.path("nested.jar")
    make_jar(nested, [("BOOT-INF/lib/a.jar", harness.read(good)), ("A.class", class_bytes("A")),
                      ("WEB-INF/lib/b.jar", harness.read(good))])
    got = bench.run(bench.new_path(), "app", nested, good, "--new")
    bench.says("jars in a jar", got, line(2, number=3), 1,
               [f"{nested}: jars in it aren't read: 2"])


def words(bench, jar):
    """Wrong words, and files that aren't there or are there already."""
    path = bench.new_path()
    bench.checks.check("no words", bench.run()[1] == 2)
    bench.checks.check("sizes without --new", bench.run(path, "app", jar, "--slots", "256")[1] == 2)
    bench.checks.check("no workers", bench.run(path, "app", jar, "--workers", "0")[1] == 2)
    bench.checks.check("help", bench.run("--help")[1] == 0)
    got = bench.run(path, "app", jar)
    bench.checks.check("no file", got[0] == [b"device"] and got[1] == 3, f"{got}")
    bench.run(path, "app", jar, "--new")
    got = bench.run(path, "app", jar, "--new")
    bench.checks.check("a file that is there", got[0] == [b"exists"] and got[1] == 1, f"{got}")
    got = bench.run(path, "bad name", jar)
    bench.checks.check("a bad name", got[:2] == ([b"refused 1 name"], 1), f"{got}")
    bench.checks.check("a bad name: what a name is", "1 to 96 bytes" in got[2], f"{got}")
    with open(path, "r+b") as file:
        file.write(b"spoilt")
    got = bench.run(path, "app", jar)
    bench.checks.check("no cache", got[:2] == ([b"not a cache"], 1), f"{got}")
    bench.checks.check("no cache: which file", f"{path}: not a cache" in got[2], f"{got}")


def full(bench, jar, names):
    """A journal and a region that are full: a file of the sizes that are named then holds all."""
    for name, sizes in (("journal", ["--slots", "256"]),
                        ("region", ["--top", "6", "--roots", "1"]),
                        ("root", ["--top", "3", "--roots", "1"])):
        path = bench.new_path()
        got = bench.run(path, "app", jar, "--new", *sizes)
        found = LINE.fullmatch(got[0][0]) if got[0] else None
        stored = int(found[1]) if found else 0
        bench.checks.check(f"a full {name}", 0 < stored < len(names) and got[1] == 1 and got[0] == [
            line(stored, refused=len(names) - stored, number=stored + 1)], f"{got[0]} {got[1]}")
        named = re.findall(r"(--\w+) (\d+)", got[2].splitlines()[-1])
        bench.checks.check(f"a full {name}: the sizes", named != [], got[2][-200:])
        wanted = [word for it in named for word in it]
        got = bench.run(bench.new_path(), "app", jar, "--new", *wanted)
        bench.says(f"a full {name}: a file of these sizes", got,
                   line(len(names), number=len(names) + 1), 0)
    path = bench.new_path()
    bench.run(path, "app", jar, "--new", "--slots", "256")
    bench.holds("a full journal: the file", path, b"app", names[:127])
    got = bench.run("--memory", jar)
    bench.checks.check("the sizes, without a file", got[1] == 0 and got[2] == "" and
                       len(got[0]) == 1, f"{got}")
    sizes = [word.decode() for word in b" ".join(got[0]).split()]
    bench.says("a file of these sizes", bench.run(bench.new_path(), "app", jar, "--new", *sizes),
               line(len(names), number=len(names) + 1), 0)
    bench.checks.check("sizes of no path", bench.run("--memory")[1] == 2)


def kills(bench, jar, names, count, rng):
    """Runs that are killed leave a beginning of the classes; the next run imports the others."""
    path, start = bench.new_path(), time.monotonic()
    bench.run(path, "app", jar, "--new", "--workers", "1")
    whole = time.monotonic() - start
    hit = 0
    for turn in range(count):
        path = bench.new_path()
        bench.run(path, "app", bench.path("none"), "--new")
        out, was_hit = harness.killed([bench.importer, path, "app", jar], b"",
                                      rng.uniform(0, whole))
        hit += was_hit
        found = sorted(region.read(path).state().get(b"app", {}))
        wanted = [name.encode() for name in names[:len(found)]]
        good = found == wanted and (not out or len(found) == len(names))
        bench.checks.check(f"kill {turn}: a beginning", good, f"{len(found)} classes")
        got = bench.run(path, "app", jar)
        bench.says(f"kill {turn}: the next run", got,
                   line(len(names) - len(found), there=len(found), number=len(names) + 1), 0)
        os.remove(path)
    bench.checks.check("some kills hit", hit > 0 or count == 0)


def kills_of_new(bench, jar, names, count, rng):
    """A run with --new that is killed leaves a cache under the file's name, or nothing: the next
    run makes it, or goes on without --new."""
    start = time.monotonic()
    bench.run(bench.new_path(), "app", jar, "--new", "--workers", "1")
    whole, made = time.monotonic() - start, 0
    for turn in range(count):
        path = bench.new_path()
        harness.killed([bench.importer, path, "app", jar, "--new"], b"",
                       rng.uniform(0, whole / 2 if turn % 2 else whole))
        words = [path, "app", jar] if os.path.exists(path) else [path, "app", jar, "--new"]
        made += os.path.exists(path)
        got = bench.run(*words)
        bench.checks.check(f"--new, killed {turn}", got[1] == 0 and
                           got[0][-1].endswith(f"number {len(names) + 1}".encode()), f"{got}")
        bench.holds(f"--new, killed {turn}: the file", path, b"app", names)
        os.remove(path)
    # What such a run leaves under the other name is no cache yet.
    path = bench.new_path()
    harness.write(f"{path}.new", b"\0" * 4096)
    bench.says("a file that isn't whole", bench.run(path, "app", jar, "--new"),
               line(len(names), number=len(names) + 1), 0)
    bench.checks.check("it is gone", not os.path.exists(f"{path}.new"))
    got = bench.run(path, "app", jar, "--new")
    bench.says("a whole file", got, b"exists", 1, ["leave --new out to continue"])
    path = bench.new_path()
    got = bench.run(path, "a name", jar, "--new")
    bench.checks.check("a refused name leaves no file", got[:2] == ([b"refused 1 name"], 1) and
                       not os.path.exists(path), f"{got}")


# A directory that asks for a later version of the format is read alike.
zipfile.MAX_EXTRACT_VERSION = 255


def listed(path):
    """How many class files a jar's directory lists; None if zipfile can't read it."""
    try:
        with zipfile.ZipFile(path) as jar:
            names = [info.orig_filename.rsplit("/", 1)[-1] for info in jar.infolist()]
    except zipfile.BadZipFile:
        return None
    return sum(name.endswith(".class") and name not in ("module-info.class", "package-info.class")
               for name in names)


def damaged_jars(bench, jar, names, count, rng):
    """Jars with changed bytes, or cut: what can be read of them is imported, and nothing else."""
    data = harness.read(jar)
    for turn in range(count):
        spoilt, path = bytearray(data), bench.new_path()
        if turn % 4 == 0:
            del spoilt[rng.randrange(len(spoilt)):]
        for _ in range(rng.choice([1, 3, 30])):
            if spoilt:
                spoilt[rng.randrange(len(spoilt))] = rng.randrange(256)
        damaged = bench.path("damaged.jar")
        harness.write(damaged, spoilt)
        got = bench.run(path, "app", damaged, "--new")
        found = region.read(path).state().get(b"app", {})
        told = LINE.fullmatch(got[0][0]) if len(got[0]) == 1 else None
        good = told is not None and int(told[1]) == len(found) and got[1] in (0, 1)
        good = good and set(found) <= {name.encode() for name in names}
        good = good and (len(found) == listed(damaged) if got[1] == 0 else got[2] != "")
        bench.checks.check(f"damaged jar {turn}", good, f"{len(found)} classes, {got}")
        os.remove(path)


def is_beginning(path, names):
    """How many classes the file holds, if they are the first of these; None if not."""
    try:
        found = sorted(region.read(path).state().get(b"app", {}))
    except (region.NotACache, region.Damaged):
        return None
    return len(found) if found == [name.encode() for name in names[:len(found)]] else None


def device(bench, count):
    """A run that ends after each call on the file, and each call fails in turn."""
    names, jar, path = names_of(count), bench.path("device.jar"), bench.path("faulty")
    make_jar(jar, [(f"{name}.class", class_bytes(name)) for name in names])
    empty = bench.new_path()
    bench.run(empty, "app", bench.path("none"), "--new")
    data, watched = harness.read(empty), device_calls.Watched(bench.importer, bench.folder)

    def run(**faults):
        harness.write(path, data)
        return watched.run([path, "app", jar, "--workers", "1"], **faults)

    got, calls = run()
    bench.says("no fault", got, line(len(names), number=len(names) + 1), 0)
    calls = device_calls.on_file(calls)
    syncs = calls.count(device_calls.SYNC)
    groups = -(-len(names) // A_GROUP)
    bench.checks.check("two syncs a group", syncs <= 2 * groups + 4, f"{syncs} for {groups} groups")
    least = 0
    contents = bytearray(data)
    for count, call in enumerate(calls, 1):
        device_calls.make(call, contents)
        harness.write(path, contents)
        found = is_beginning(path, names)
        good = found is not None and found >= least
        bench.checks.check(f"ended after call {count}", good, f"{found} classes, {least} before")
        least = found or least
    bench.checks.check("all are there after the last call", least == len(names), f"{least}")
    for fails in range(1, len(calls) + 1):
        got, _ = run(FAIL=fails)
        found = is_beginning(path, names)
        told = re.search(r"imported (\d+) before the failure", got[2])
        good = got[1] == 3 and found is not None and "Input/output error" in got[2]
        good = good and (told is None or int(told[1]) <= found)
        bench.checks.check(f"call {fails} fails", good, f"{found} classes, {got[1]} {got[2]}")


def main(arguments):
    importer, program, count, seed = arguments
    rng = random.Random(int(seed))
    with harness.new_folder() as folder:
        bench = Bench(importer, program, folder)
        readme(bench)
        jar, names = usual(bench)
        never_stale(bench)
        replaced(bench)
        not_imported(bench)
        hostile(bench)
        words(bench, jar)
        full(bench, jar, names)
        damaged_jars(bench, jar, names, 2 * int(count), rng)
        kills(bench, jar, names, int(count), rng)
        kills_of_new(bench, jar, names, int(count), rng)
        replaced_and_killed(bench, jar, names, int(count), rng)
        device(bench, 2 * A_GROUP + 2)
        return bench.checks.finish()


if __name__ == "__main__":
    sys.exit(main(sys.argv[1:]))
