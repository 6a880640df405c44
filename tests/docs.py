#!/usr/bin/env python3
"""Checks that README.md and docs/ name only what exists: reads the repository at the current
folder, prints a line for each thing named that doesn't exist, and last how many were checked: 'N
passed, M failed'. Also that the library's example is code of cm_example, and that the limits of
README.md are those of the code.

    tests/docs.py
"""
import re
import sys
from pathlib import Path

import harness

TOP = Path(".")
PROOFS = TOP / "docs/PROOFS.md"
DOCUMENTS = [TOP / "README.md", *sorted((TOP / "docs").glob("*.md"))]
NAME = r"[A-Za-z_][A-Za-z_0-9]*"
CRATES = [line.split()[0].rstrip(":") for line in (TOP / "crates.txt").read_text().splitlines()
          if line and line[0] != "#"]


def lines_of(path):
    return enumerate(path.read_text().splitlines(), 1)


def cells(line):
    """The cells of a table's row, without their spaces; none of another line. A bar inside a code
    span is no end of a cell."""
    if not line.startswith("|"):
        return []
    hidden = re.sub(r"`[^`]*`", lambda span: span.group().replace("|", "\0"), line)
    return [cell.strip().replace("\0", "|") for cell in hidden.strip().strip("|").split("|")]


def spans(text):
    return re.findall(r"`([^`]+)`", text)


def anchor(heading):
    return re.sub(r"[^\w\- ]", "", heading.lower()).replace(" ", "-")


def anchors(path):
    return {anchor(line.lstrip("#").strip()) for _, line in lines_of(path) if line.startswith("#")}


def edits(folder):
    return {path.stem for path in (TOP / folder).glob("*.edit")}


def crates_in(text):
    return {span for span in spans(text) if span in CRATES}


def links():
    """Each relative link leads to a file, and to a heading of it if it names one."""
    for document in DOCUMENTS:
        for number, line in lines_of(document):
            for target, heading in re.findall(r"\]\(([^)#:]*)(?:#([^)]*))?\)", line):
                path = document.parent / target if target else document
                there = path.exists() and (not heading or heading in anchors(path))
                yield there, f"{document}:{number}: the link to {target}#{heading}"


def map_rows():
    """Each crate has one row in the map, and begins to be read at files that it has."""
    path = TOP / "docs/MAP.md"
    rows = {}
    for number, line in lines_of(path):
        row = cells(line)
        if len(row) == 4 and len(spans(row[0])) == 1:
            rows.setdefault(spans(row[0])[0], []).append((number, row[3]))
    for crate in CRATES:
        if not crate.endswith("_tests"):
            yield len(rows.get(crate, [])) == 1, f"{path}: one row for {crate}"
    for crate, found in rows.items():
        for number, last in found:
            yield crate in CRATES, f"{path}:{number}: the crate {crate}"
            for name in spans(last):
                yield ((TOP / "crates" / crate / name).exists(),
                       f"{path}:{number}: {name} in {crate}")


def claims():
    """The rows of the tables of claims, each with its line's number and the crates that the text
    above its table names."""
    is_table = False
    crates = set()
    for number, line in lines_of(PROOFS):
        row = cells(line)
        if row[2:3] == ["Mutants that it refuses"]:
            is_table = True
        elif len(row) != 4:
            is_table = False
            crates = set() if line.startswith("#") else crates | crates_in(line)
        elif is_table:
            yield number, crates, row


def contracts():
    """Contracts and worked examples that the proofs' tables name: files, or names that stand in
    sources or definitions."""
    sources = [path for kind in ("src", "specs") for path in (TOP / "crates").glob(f"*/{kind}/**/*")
               if path.is_file()]
    known = set().union(*(re.findall(NAME, path.read_text()) for path in sources), CRATES)
    for number, _, (_, contract, _, example) in claims():
        for span in spans(contract) + spans(example):
            if "/" in span:
                there = any((folder / span).exists()
                            for folder in (TOP, TOP / "crates", *(TOP / "crates").iterdir()))
            else:
                there = known.issuperset(re.findall(NAME, span))
            yield there, f"{PROOFS}:{number}: the name {span}"


KINDS = "fn|struct|enum|trait|const|static|type"
PUBLIC = re.compile(rf"pub (?:unsafe |const |ghost )*(?:{KINDS}) ({NAME})")
TYPE = re.compile(rf"(?:pub )?(?:unsafe )?(?:impl(?:<.*?>)? (?:.* for )?&?|trait |enum )({NAME})")
MEMBER = re.compile(
    rf"    (?:(?:pub(?:\(\w+\))? )?(?:unsafe |const |ghost )*fn ({NAME})|([A-Z]\w*))")


def items(crate):
    """The items of a crate that are public, and of its types each function and variant, as
    Type::name."""
    found = set()
    for path in (TOP / "crates" / crate / "src").glob("**/*.rt"):
        inside = None
        for line in path.read_text().splitlines():
            if public := PUBLIC.match(line):
                found.add(public[1])
            if line[:1].strip(" {"):
                inside = TYPE.match(line)
            elif inside and (member := MEMBER.match(line)):
                found.add(f"{inside[1]}::{member[1] or member[2]}")
    return found


def paths():
    """Each path crate::item or Type::name, except those of std, names what that crate has, or for a
    type any crate."""
    there = {crate: items(crate) for crate in CRATES}
    for document in DOCUMENTS:
        for number, line in lines_of(document):
            for span in spans(line):
                first, _, rest = span.partition("::")
                if first == "std" or not re.fullmatch(rf"{NAME}(::{NAME})+", span):
                    continue
                if first in there:
                    is_there = rest in there[first]
                else:
                    is_there = any(span in found for found in there.values())
                yield is_there, f"{document}:{number}: the path {span}"


def having(kinds):
    """The names of the items of these kinds in the sources, each with the crates that have one."""
    there = {}
    for crate in CRATES:
        for path in (TOP / "crates" / crate / "src").glob("**/*.rt"):
            for name in re.findall(rf"\b(?:{kinds}) ({NAME})", path.read_text()):
                there.setdefault(name, set()).add(crate)
    return there


def planted():
    """The mutants that the proofs' tables name, by their path under mutants/ or in must-fail/ of a
    crate of their row: one that the row or the text above its table names, or whose type the
    contract names; if there is none, one that has a function named there."""
    in_gate = {crate: edits(f"crates/{crate}/must-fail") for crate in CRATES}
    others = {f"mutants/{crate}/{name}" for crate in CRATES for name in edits(f"mutants/{crate}")}
    types, functions = having("struct|enum|trait"), having("fn")
    for number, above, (claim, contract, column, _) in claims():
        names = [span.split("::")[0] for span in spans(contract)]
        crates = above.union(crates_in(claim + contract + column),
                             *(types.get(name, ()) for name in names))
        crates = crates or set().union(*(functions.get(name, ()) for name in names))
        of = f"of {', '.join(sorted(crates)) or 'no crate'}"
        for name in spans(column):
            there = (name in others or name in CRATES
                     or any(name in in_gate[crate] for crate in crates))
            yield there, f"{PROOFS}:{number}: the mutant {name} {of}"


README = TOP / "README.md"
LIBRARY = TOP / "docs/LIBRARY.md"


# An item of a program: a function or a struct with its comment and attributes, or an `impl`.
ITEM = re.compile(r"^(?:///.*\n)*(?:#\[.*\]\n)*(?:fn|struct|impl)\b(?:.*\n)+?}\n", re.M)


def example():
    """The library's example is code of cm_example, which CI proves and runs: each block is a whole
    item of it, byte for byte."""
    items = ITEM.findall((TOP / "crates/cm_example/src/main.rt").read_text())
    for block in re.findall(r"^```rust\n(.*?)^```$", LIBRARY.read_text(), re.S | re.M):
        yield block in items, f"{LIBRARY}: a whole item of cm_example: {block.splitlines()[0]}"


# The limits of README.md: the row, which of its numbers, and the code that says the same, with N
# for the number.
LIMITS = (
    ("record of a class", 0, "cm_record_layout/src/packing.rt", "MAX_WORDS: u64 = N;"),
    ("a root", 2, "cm_pool/src/geometry.rt", "LEAST_TOP: u32 = N;"),
    ("a root", 3, "cm_pool/src/geometry.rt", "MOST_TOP: u32 = N;"),
    ("a root", 4, "cm_arguments/src/number.rt", '"top",\n    N,'),
    ("roots of a file", 0, "cm_pool/src/geometry.rt", "LEAST_ROOTS: u32 = N;"),
    ("roots of a file", 1, "cm_pool/src/geometry.rt", "MOST_ROOTS: u32 = N;"),
    ("roots of a file", 2, "cm_arguments/src/number.rt", '"roots",\n    N,'),
    ("journal slots per half", 0, "cm_pool/src/geometry.rt",
     "LEAST_SLOTS: u32 = N;"),
    ("journal slots per half", 1, "cm_pool/src/geometry.rt", "MOST_SLOTS: u32 = N;"),
    ("journal slots per half", 2, "cm_arguments/src/number.rt", '"slots",\n    N,'),
    ("name of a loader", 0, "cm_layout/src/name.rt", "LONG_NAME_ROOM: usize = N;\n\n"
     "/// How many bytes a loader's name has at most.\n"
     "pub const NAME_LIMIT: usize = LONG_NAME_ROOM;"),
    ("name of a loader", 5, "cm_layout/src/name.rt", "pub const NAME_ROOM: usize = N;"),
    ("line of a script", 0, "cm_lines/src/line_buffer.rt", "LINE_LIMIT: usize = N;"),
    ("loaders that `unloadall` removes at once", 0, "cm_layout/src/loader_numbers.rt",
     "UNLOAD_LIMIT: usize = N;"),
    ("commands stored together", 0, "cm_layout/src/entry.rt", "GROUP_SLOTS: usize = N;"),
    ("commands of a file", 1, "cm_layout/src/heads.rt", "LAST_NUMBER: u64 = 1 << N;"),
    ("write handles (`Pass`) per running cache", 0, "cm_cache/src/shared.rt",
     "MOST_PASSES: u64 = N;"),
    ("workers", 1, "cm_arguments/src/number.rt", '"workers",\n    1,\n    1,\n    N,'),
)


def limits():
    """The limits of README.md are those of the code, and what follows from them."""
    rows = {row[0]: [int(number.replace(",", "")) for number in re.findall(r"\d[\d,]*", row[1])]
            for row in (cells(line) for _, line in lines_of(README)) if len(row) == 2}
    for what, place, file, code in LIMITS:
        number = str(rows[what][place]) if len(rows.get(what, [])) > place else "no number"
        text = re.sub(r"(?<=\d)_(?=\d)", "", (TOP / "crates" / file).read_text())
        yield (re.sub(r"\bN\b", number, code) in text,
               f"{README}: the limit of {what}, as in crates/{file}: {code}")
    top, roots, slots = (rows[what][place] for what, place in
                         (("a root", 3), ("roots of a file", 1),
                          ("journal slots per half", 1)))
    yield (rows["file"] == [4096 + 2 * 64 * slots + roots * 8 * (128 << top)],
           f"{README}: the bytes of the largest file")
    half = rows["journal slots per half"]
    yield (rows["live loaders and classes of a file"] == [half[2] // 2, slots // 2],
           f"{README}: half of the slots")


def main():
    checks = harness.Checks()
    checks.check_all([links, map_rows, paths, contracts, planted, example, limits])
    return checks.finish()


if __name__ == "__main__":
    sys.exit(main())
