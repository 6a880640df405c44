#!/usr/bin/env python3
"""What the test of the C interface takes from elsewhere.

    tests/c.py header ARCHIVE          compares c/cmcore.h with the library: the functions that the
                                       archive exports, and in the sources of cm_core the types of
                                       each function and struct. No compiler sees both
    tests/c.py record NAME CLASS_FILE  what the examples have to print of a class
"""
import re
import subprocess
import sys
from pathlib import Path

import harness
import oracle

TOP = Path(__file__).resolve().parent.parent
# Crates with structs that the exports of cm_core pass on, and the lengths of arrays in them.
CRATES = "cm_core", "cm_record_parts", "cm_view_index", "cm_plain_view"
LENGTHS = {"NAME_LIMIT": oracle.NAME_LIMIT}
NUMBERS = {"bool": "bool", **{f"u{bits}": f"uint{bits}_t" for bits in (8, 16, 32, 64)},
           "i32": "int32_t", "usize": "size_t"}


def without_comments(text, forms):
    return re.sub(forms, " ", text, flags=re.S)


def split(text):
    """The parts of a list between commas, those inside brackets aside."""
    parts, depth = [""], 0
    for letter in text:
        depth += letter in "<([{"
        depth -= letter in ">)]}"
        if letter == "," and depth == 0:
            parts.append("")
        else:
            parts[-1] += letter
    return [" ".join(part.split()) for part in parts if part.strip()]


# ---- the header

def declared_as(text):
    """The type and the name of a member or a parameter: `const uint8_t *bytes`, `uint8_t name[96]`,
    whose type is `uint8_t[96]`."""
    kind, name, size = re.fullmatch(r"(.*?)(\w+)(\[\d+\])?", " ".join(text.split())).groups()
    return kind.replace(" ", "") + (size or ""), name


def header():
    """Each function's types, the result last, and each struct's members."""
    text = without_comments((TOP / "c/cmcore.h").read_text(), r"/\*.*?\*/")
    functions = {name: [declared_as(part)[0] for part in split(parameters)] + [result]
                 for result, name, parameters in re.findall(r"(\w+) (cmcore_\w+)\((.*?)\);", text,
                                                            re.S)}
    structs = {name: [declared_as(member) for member in body.split(";") if member.strip()]
               for body, name in re.findall(r"typedef struct \{(.*?)\} (cmcore_\w+);", text, re.S)}
    return functions, structs


# ---- the sources

def types_in_c(spelled):
    """The C types that stand for a type: a slice has two, and the allocator none. A struct keeps
    its name."""
    spelled = re.sub(r"'\w+ ", "", spelled).strip()
    slice_of = re.fullmatch(r"&(mut )?\[(\w+)\]", spelled)
    array_of = re.fullmatch(r"\[(\w+); (\w+)\]", spelled)
    if spelled == "Global":
        return []
    if slice_of:
        const = "" if slice_of[1] else "const"
        return [f"{const}{NUMBERS.get(slice_of[2], slice_of[2])}*", "size_t"]
    if array_of:
        return [f"{NUMBERS[array_of[1]]}[{LENGTHS.get(array_of[2], array_of[2])}]"]
    pointer = re.fullmatch(r"(&mut |\*mut |&|\*const )(.*)", spelled)
    if pointer:
        const = "" if "mut" in pointer[1] else "const"
        return [const + types_in_c(pointer[2])[0] + "*"]
    return [NUMBERS.get(spelled, spelled)]


def sources():
    """The same of the exported functions and `repr(C)` structs of the crate."""
    functions, structs = {}, {}
    for path in (path for crate in CRATES
                 for path in (TOP / f"crates/{crate}/src").glob("**/*.rt")):
        text = without_comments(path.read_text(), r"//[^\n]*")
        for name, rest in re.findall(r'extern "C" fn (\w+)(?:<[^>]*>)?\((.*?)\)\s*->', text, re.S):
            functions[name] = [each for part in split(rest)
                               for each in types_in_c(part.split(":", 1)[1])]
        for name, body in re.findall(STRUCT, text, re.S):
            members = [re.sub(r"^pub(\(\w+\))? ", "", member).split(": ", 1)
                       for member in split(body) if "ghost " not in member]
            structs[name] = [(types_in_c(kind)[0], member) for member, kind in members]
    return functions, structs


STRUCT = r"#\[repr\(C\)\](?:\s*#\[.*?\])*\s*pub struct (\w+)\s*\{(.*?)\n\}"


def struct_of(kind):
    return kind.removeprefix("const").rstrip("*")


def pairs(functions, written):
    """The structs of both that stand at the same place of a function: each as a pair of names."""
    return {(struct_of(ours), struct_of(theirs))
            for name, types in functions.items()
            for ours, theirs in zip(types, written.get(name, ()))
            if struct_of(ours).startswith("cmcore_")}


def exported(archive):
    told = subprocess.run(["nm", "--defined-only", "--extern-only", archive], check=True,
                          stdout=subprocess.PIPE, text=True).stdout
    return {name for kind, name in re.findall(r" (\w) (\w+)$", told, re.M) if kind == "T"}


def compare(archive):
    checks = harness.Checks()
    (functions, structs), (written, members) = header(), sources()
    names = exported(archive)
    checks.check("the header's functions are exported, and no others", set(functions) == names,
                 f"{sorted(set(functions) ^ names)}")
    same = pairs(functions, written)
    named = dict(same)
    checks.check("each struct of the header is one of the sources",
                 len(named) == len(same) and set(named) == set(structs), f"{sorted(same)}")
    for name, types in functions.items():
        due = [each.replace(struct_of(each), named.get(struct_of(each), struct_of(each)))
               for each in types[:-1]]
        checks.check(f"{name} is as in its source",
                     written.get(name) == due and types[-1] == "int32_t",
                     f"{due}, and in the source {written.get(name)}")
    for name, declared in structs.items():
        # A handle's second member is a struct of one pointer.
        if name != "cmcore_handle":
            due = [(named.get(kind, kind), member) for kind, member in declared]
            checks.check(f"{name} has the members of its source",
                         members.get(named.get(name)) == due,
                         f"{due}, and in the source {members.get(named.get(name))}")
    return checks.finish()


def record(name, path):
    made = oracle.prepare(Path(path).read_bytes())
    print(f"{name} flags {made.flags:04x} words {len(made.words)}")
    print(*(f"{word:016x}" for word in made.words), sep="\n")
    return 0


if __name__ == "__main__":
    sys.exit({"header": compare, "record": record}[sys.argv[1]](*sys.argv[2:]))
