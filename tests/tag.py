#!/usr/bin/env python3
"""The tag of class files, jars and folders: what docs/FRESH.md says it is, computed here, beside
what cm_import prints and what cmcache_tag gives; and imports into loaders with a tag.

    tests/tag.py IMPORTER PROGRAM FRESH

FRESH is examples/c/fresh.c, built.
"""
import hashlib
import os
import shutil
import sys
import zipfile

import harness
import region
from importing import Bench, class_bytes, line, make_folder, make_jar

LEFT_OUT = ("module-info.class", "package-info.class")


# ---- the definition

def big(number, size):
    return number.to_bytes(size, "big")


def little(data, at, size):
    return int.from_bytes(data[at:at + size], "little")


def jar_text(data):
    """Of each entry of the central directory its name, its CRC-32 and its size."""
    end = data.rindex(b"PK\x05\x06")
    at, text = little(data, end + 16, 4), b"J"
    for _ in range(little(data, end + 10, 2)):
        assert data[at:at + 4] == b"PK\x01\x02"
        name = data[at + 46:at + 46 + little(data, at + 28, 2)]
        text += big(len(name), 8) + name + big(little(data, at + 16, 4), 4)
        text += big(little(data, at + 24, 4), 4)
        at += 46 + sum(little(data, at + place, 2) for place in (28, 30, 32))
    assert at == end
    return text


def text_of(path, is_jar):
    """What is hashed of a file. `is_jar`: whether one that is taken for a jar is one."""
    data = harness.read(path)
    if path.endswith(".class"):
        return b"C" + data
    return jar_text(data) if is_jar else b"X" + data


def found_in(path):
    """The files of a folder and of those in it, each folder's in byte order of their names."""
    files = []
    for name in sorted(os.listdir(os.fsencode(path))):
        inner = f"{path}/{os.fsdecode(name)}"
        if os.path.isdir(inner) and not os.path.islink(inner):
            files += found_in(inner)
        elif inner.endswith((".class", ".jar")) and os.path.basename(inner) not in LEFT_OUT:
            files += [inner] if os.path.isfile(inner) else []
    return files


def tag_of(paths, no_jars=()):
    """The tag of paths, of which these files are no jars."""
    digest = bytes(32)
    for path in paths:
        for file in found_in(path) if os.path.isdir(path) else [path]:
            text = text_of(file, file not in no_jars)
            digest = hashlib.sha256(digest + text).digest()
    return digest[:8].hex()


# ---- the programs

class TagBench(Bench):
    """Compares both programs with the definition."""

    def __init__(self, importer, program, fresh, folder):
        super().__init__(importer, program, folder)
        self.fresh = fresh
        self.empty = self.path("empty")
        harness.run(program, ["format", self.empty])

    def in_c(self, *paths):
        """What the program in C writes of a class that an empty cache doesn't have."""
        return harness.run(self.fresh, [self.empty, "app", "A", *paths])

    def same(self, name, paths, no_jars=()):
        """Both give the tag of the definition, which is returned."""
        due = tag_of(paths, no_jars)
        self.says(f"{name}: cm_import", self.run("--print-tag", *paths), due.encode(), 0)
        self.says(f"{name}: C", self.in_c(*paths), f"app@{due} A none".encode(), 0)
        return due

    def refused(self, name, path, status, cause):
        """Neither gives a tag of paths that can't be read."""
        got = self.run("--print-tag", path)
        self.says(f"{name}: cm_import", got, None, status, [cause])
        got = self.in_c(path)
        self.checks.check(f"{name}: C", got[0] == [] and got[1] == 1 and got[2] != "", f"{got}")


def contents(count, extra=0):
    return [(f"p/C{at}.class", class_bytes(f"p/C{at}", at + extra)) for at in range(count)]


def usual(bench):
    """Jars, folders and class files, alone and together; each change of one changes the tag."""
    jar, other, folder = bench.path("a.jar"), bench.path("b.jar"), bench.path("classes")
    make_jar(jar, contents(5) + [("notes.txt", b"text"), ("p/", b"")])
    make_jar(other, contents(3, 7))
    make_folder(folder, contents(4) + [("module-info.class", b"none"), ("notes.txt", b"text"),
                                       ("p.class", b"between"), ("p-q.class", b"before"),
                                       ("lib/inner.jar", harness.read(other)),
                                       ("p/\u00e9.class", b"a name in UTF-8")])
    one = f"{folder}/p/C1.class"
    tags = [bench.same("a jar", [jar]), bench.same("another jar", [other]),
            bench.same("a folder", [folder]), bench.same("a class file", [one]),
            bench.same("a folder and two jars", [folder, jar, other]),
            bench.same("in another order", [folder, other, jar]),
            bench.same("a jar twice", [jar, jar])]
    bench.checks.check("all differ", len(set(tags)) == len(tags), f"{tags}")
    moved = bench.path("moved")
    shutil.copytree(folder, moved)
    bench.checks.check("a folder elsewhere", bench.same("moved", [moved]) == tags[2])
    stored = bench.path("stored.jar")
    make_jar(stored, contents(5) + [("notes.txt", b"text"), ("p/", b"")], zipfile.ZIP_STORED)
    bench.checks.check("packed otherwise", bench.same("stored", [stored]) == tags[0])
    os.symlink("p/C0.class", f"{moved}/Link.class")
    os.symlink("p", f"{moved}/q")
    os.mkdir(f"{moved}/folder.jar")
    bench.same("links, and a folder like a jar", [moved])
    return jar, tags[0]


def changes(bench, jar, tag):
    """A class that changed, came, went or has another name."""
    was = contents(5) + [("notes.txt", b"text"), ("p/", b"")]
    changed = [(name, data if name != "p/C2.class" else class_bytes("p/C2", 99))
               for name, data in was]
    renamed = [(name.replace("C2", "D2"), data) for name, data in was]
    tags = {tag}
    for name, now in (("changed", changed), ("added", was + contents(6)[5:]),
                      ("removed", was[1:]), ("renamed", renamed), ("in another order", was[::-1])):
        make_jar(jar, now)
        tags.add(bench.same(f"a class {name}", [jar]))
    bench.checks.check("each change has a tag of its own", len(tags) == 6, f"{tags}")


def odd(bench):
    """Files that are no jars, and paths that can't be read."""
    text, cut, none = bench.path("text.jar"), bench.path("cut.jar"), bench.path("none.jar")
    harness.write(text, b"no jar")
    make_jar(cut, contents(2))
    harness.write(cut, harness.read(cut)[:-1])
    harness.write(none, b"")
    for path in (text, cut, none):
        bench.same(os.path.basename(path), [path], [path])
    bench.refused("a path that is missing", bench.path("missing"), 1, "missing: ")
    bench.refused("a pipe", make_pipe(bench.path("pipe")), 1, "neither a file nor a folder")
    folder = bench.path("broken")
    make_folder(folder, contents(1))
    os.symlink("nowhere", f"{folder}/Gone.class")
    bench.refused("a link to nothing", folder, 1, "Gone.class: ")
    got = bench.run("--print-tag")
    bench.checks.check("no path", got[1] == 2 and got[0] == [], f"{got}")


def make_pipe(path):
    os.mkfifo(path)
    return path


# ---- imports

def loaders(path):
    return sorted(region.read(path).state())


def imports(bench):
    """A loader with a tag; once the jar changed, another one in place of it."""
    jar, path = bench.path("app.jar"), bench.new_path()
    make_jar(jar, contents(3))
    first = f"app@{tag_of([jar])}"
    words = [path, "app", jar, "--tag"]
    bench.says("with a tag", bench.run(*words, "--new"), line(3, number=4), 0)
    bench.holds("with a tag: the file", path, first.encode(), ["p/C0", "p/C1", "p/C2"])
    held = harness.read(path)
    bench.says("once more", bench.run(*words), line(0, there=3, number=4), 0)
    bench.checks.check("once more: the file", harness.read(path) == held)
    got = harness.run(bench.fresh, [path, "app", "p/C1", jar])
    bench.checks.check("C finds it", got[1] == 0 and got[0] and
                       got[0][0].startswith(f"{first} p/C1 words ".encode()), f"{got}")
    bench.run(path, "other@0123456789abcdef", jar)
    bench.run(path, "app@0123456789ABCDEF", jar)
    bench.run(path, "app", jar)
    make_jar(jar, contents(2, 1))
    got = harness.run(bench.fresh, [path, "app", "p/C1", jar])
    bench.checks.check("the jar changed: C finds none",
                       got[0] == [f"app@{tag_of([jar])} p/C1 none".encode()], f"{got}")
    second = f"app@{tag_of([jar])}"
    got = bench.run(*words, "--keep")
    bench.says("kept", got, line(2, number=19), 0)
    others = [b"app", b"app@0123456789ABCDEF", b"other@0123456789abcdef"]
    bench.checks.check("kept: the loaders", loaders(path) ==
                       sorted(others + [first.encode(), second.encode()]), f"{loaders(path)}")
    got = bench.run(*words)
    bench.checks.check("unloaded", got == ([line(0, there=2, number=19), b"unloaded number 20"],
                                           0, ""), f"{got}")
    bench.checks.check("unloaded: the loaders", loaders(path) ==
                       sorted(others + [second.encode()]), f"{loaders(path)}")


def not_all(bench):
    """While not all is imported, the loaders with other tags stay."""
    jar, path = bench.path("part.jar"), bench.new_path()
    make_jar(jar, contents(2))
    bench.run(path, "app", jar, "--tag", "--new")
    before = loaders(path)
    make_jar(jar, contents(2) + [("Cut.class", class_bytes("Cut")[:-1])])
    got = bench.run(path, "app", jar, "--tag")
    bench.checks.check("a refused class", got[1] == 1 and "other tags stay" in got[2], f"{got}")
    bench.checks.check("a refused class: the loaders", loaders(path) == sorted(
        before + [f"app@{tag_of([jar])}".encode()]), f"{loaders(path)}")
    held = harness.read(path)
    got = bench.run(path, "app", jar, bench.path("missing"), "--tag")
    bench.checks.check("a path is missing", got[0] == [] and got[1] == 1 and
                       "there is no tag" in got[2], f"{got}")
    bench.checks.check("a path is missing: the file", harness.read(path) == held)
    long = "n" * 80
    got = bench.run(path, long, jar, "--tag")
    bench.checks.check("a long name", got[:2] == ([b"refused 1 name"], 1), f"{got}")
    got = bench.run(path, "app", jar, "--keep")
    bench.checks.check("--keep alone", got[1] == 2, f"{got}")


def main(arguments):
    importer, program, fresh = arguments
    with harness.new_folder() as folder:
        bench = TagBench(importer, program, fresh, folder)
        changes(bench, *usual(bench))
        odd(bench)
        imports(bench)
        not_all(bench)
        return bench.checks.finish()


if __name__ == "__main__":
    sys.exit(main(sys.argv[1:]))
