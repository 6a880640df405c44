#!/usr/bin/env python3
"""Compares what `cm_show` says of the classes of a cache with what Python reads in their class
files, and the class files that it writes with those that were imported.

    show_files.py PROGRAM IMPORTER FOLDER PATH..

The paths are jars and folders of class files. They are imported into a new file in the folder.
Classes that the importer doesn't take are left out, and there have to be others.
"""
import json
import sys
import zipfile
from pathlib import Path

import harness
import oracle

KINDS = {1: "Utf8", 3: "Integer", 4: "Float", 5: "Long", 6: "Double", 7: "Class", 8: "String",
         9: "Fieldref", 10: "Methodref", 11: "InterfaceMethodref", 12: "NameAndType",
         15: "MethodHandle", 16: "MethodType", 18: "InvokeDynamic"}


def spelled(text):
    """A name or a text as it is printed."""
    return "".join(chr(byte) if 0x21 <= byte <= 0x7e and byte != 0x25 else f"%{byte:02X}"
                   for byte in text)


def files_in(path):
    """The class files of a jar or a folder."""
    if path.is_dir():
        return [each.read_bytes() for each in sorted(path.rglob("*.class"))]
    with zipfile.ZipFile(path) as jar:
        return [jar.read(name) for name in jar.namelist() if name.endswith(".class")]


class Lines:
    """The lines of a class, read from its class file by itself."""

    def __init__(self, data):
        self.data, self.at, self.lines = data, 8, []
        self.pool, constants = {}, []
        count, index = self.number(2), 1
        while index < count:
            tag = self.number(1)
            self.pool[index] = tag, self.constant(tag)
            constants.append(f"constant {index} {KINDS[tag]} {self.value(index)}")
            index += 2 if tag in (5, 6) else 1
        self.body()
        self.lines += constants

    def number(self, size):
        self.at += size
        return int.from_bytes(self.data[self.at - size:self.at], "big")

    def bytes(self, size):
        self.at += size
        return self.data[self.at - size:self.at]

    def constant(self, tag):
        if tag == 1:
            return self.bytes(self.number(2))
        if tag in (3, 4, 5, 6):
            return [self.number(8 if tag > 4 else 4)]
        if tag in (7, 8, 16):
            return [self.number(2)]
        return [self.number(1 if tag == 15 else 2), self.number(2)]

    def value(self, index):
        tag, held = self.pool[index]
        return spelled(held) if tag == 1 else " ".join(map(str, held))

    def text(self, index):
        return spelled(self.pool[index][1])

    def class_name(self, index):
        return self.text(self.pool[index][1][0])

    def attributes(self, word):
        """The lines of attributes, and the first Code among them."""
        lines, code = [], None
        for _ in range(self.number(2)):
            name, size = self.text(self.number(2)), self.number(4)
            lines.append(f"{word} length {size} {name}")
            if name == "Code" and code is None:
                code = self.at
            self.at += size
        return lines, code

    def nested(self, code):
        """The lines of a code's attributes."""
        after, self.at = self.at, code + 4
        self.bytes(self.number(4))
        self.bytes(8 * self.number(2))
        lines, _ = self.attributes("nested")
        self.at = after
        return lines

    def members(self, word):
        for _ in range(self.number(2)):
            flags, name, descriptor = self.number(2), self.number(2), self.number(2)
            self.lines += [f"{word} flags {flags:04x} {self.text(name)}",
                           f"descriptor {self.text(descriptor)}"]
            lines, code = self.attributes("attribute")
            self.lines += lines + (self.nested(code) if code is not None else [])

    def body(self):
        flags, own, above = self.number(2), self.number(2), self.number(2)
        self.name = self.class_name(own)
        self.lines.append(f"class flags {flags:04x} {self.name}")
        if above:
            self.lines.append(f"super {self.class_name(above)}")
        for _ in range(self.number(2)):
            self.lines.append(f"interface {self.class_name(self.number(2))}")
        self.members("field")
        self.members("method")
        self.lines += self.attributes("class attribute")[0]


def as_lines(shown):
    """The lines that a JSON object stands for."""
    lines = [f"class flags {shown['flags']:04x} {shown['name']}"]
    lines += [f"super {shown['super']}"] if shown["super"] is not None else []
    lines += [f"interface {name}" for name in shown["interfaces"]]
    for word, members in ("field", shown["fields"]), ("method", shown["methods"]):
        for one in members:
            lines += [f"{word} flags {one['flags']:04x} {one['name']}",
                      f"descriptor {one['descriptor']}"]
            lines += [f"{kind} length {each['length']} {each['name']}"
                      for kind, key in (("attribute", "attributes"), ("nested", "nested"))
                      for each in one[key]]
    lines += [f"class attribute length {each['length']} {each['name']}"
              for each in shown["attributes"]]
    return lines + [f"constant {each['index']} {each['kind']} {each['value']}"
                    for each in shown["constants"]]


def main(show, importer, folder, *paths):
    checks = harness.Checks()
    cache, out = Path(folder) / "cache", Path(folder) / "out.class"
    harness.ran([importer, str(cache), "main", *paths, "--new"])
    classes = {}
    for data in (each for path in paths for each in files_in(Path(path))):
        found, fault = oracle.read_shape(data)
        if not (fault or oracle.first_fault(found)):
            classes.setdefault(found.class_name(found.this_class), data)
    checks.check("there are classes", len(classes) > 0, f"{paths}")
    for name, data in classes.items():
        want = Lines(data).lines
        words = [show, str(cache), "main", spelled(name), "--constants"]
        told, status, _ = harness.ran([*words, "--class-file", str(out)])
        checks.check(f"the lines of {spelled(name)}",
                     told.decode().splitlines() == want and status == 0,
                     f"{told[:300]} and not {want[:5]}")
        checks.check(f"the class file of {spelled(name)}", out.read_bytes() == data)
        told, status, _ = harness.ran([*words, "--json"])
        checks.check(f"the JSON of {spelled(name)}",
                     status == 0 and as_lines(json.loads(told)) == want, f"{told[:300]}")
    return checks.finish()


if __name__ == "__main__":
    sys.exit(main(*sys.argv[1:]))
