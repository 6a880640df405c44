#!/usr/bin/env python3
"""Compares what `cm_stat FILE` and `cm_stat FILE --json` say of many small files, sound and
damaged, with what they have to say.

    stat_files.py PROGRAM COUNT SEED

The files are those of check.py, some after longer scripts; of each damaged one some bytes were
changed. The expected numbers are counted from what region.py reads, which shares no code with the
program.
"""
import json
import random
import string
import sys

import check
import harness
import oracle
import region

WORD = 8
LETTERS = [bytes([letter]) for letter in string.ascii_letters.encode()]


def long_script(draw):
    """A script of loaders, classes of several sizes, unloads and moves."""
    lines = []
    for number in range(draw.randrange(1, 40)):
        name = draw.choice("abcdef")
        kind = draw.randrange(8)
        if kind == 0:
            lines.append(f"unload {name}")
        elif kind == 1:
            lines.append(f"tighten {name}")
        elif kind < 4:
            lines.append(f"loader {draw.choice([name, name * 60])}")
        else:
            size = draw.choice([120, 400, 900, 2000, 7000])
            data = harness.padded(LETTERS[number], size).hex()
            lines.append(f"define {name} {data}")
    return "".join(f"{line}\n" for line in lines)


# ---- what is to be said

def usage(rows):
    chunks = {row.chunk for row in rows}
    owned = sum(WORD * chunk.words for chunk in chunks)
    used = sum(WORD * row.words for row in rows)
    return {"classes": len(rows), "chunks": len(chunks), "owned": owned, "used": used,
            "free": owned - used}


def largest_free(file):
    """The greatest order of which some chunk of the region meets no chunk that is owned."""
    for order in range(file.geometry.top, -1, -1):
        for root in range(file.geometry.roots):
            for at in range(0, file.geometry.root_words, oracle.UNIT << order):
                if file.is_apart(oracle.Chunk(root, order, at)):
                    return order
    return None


def chunks_of(classes):
    """The chunks in the order in which they were taken: their first records lie at offset 0."""
    return [{"loader": row.loader, "root": row.chunk.root, "order": row.chunk.order,
             "at": row.chunk.at,
             "used": sum(WORD * other.words for other in classes if other.chunk == row.chunk)}
            for row in classes if row.offset == 0]


def trimmed(file):
    if min(file.roots, file.geometry.roots) <= file.roots_used():
        return len(file.data)
    return region.root_at(file.geometry, file.roots_used())


def statistics(file):
    classes = [row for row in file.rows if row.chunk]
    return {
        "number": file.number,
        "sizes": vars(file.geometry),
        "journal": {"version": file.version, "half": file.half, "epoch": file.epoch,
                    "slots": file.end, "left": file.slots - file.end,
                    "rows": sum(row.slots for row in file.rows),
                    "row_limit": file.geometry.row_slots},
        "region": {"bytes": len(file.data), "trimmed": trimmed(file), "roots": file.roots,
                   "used_roots": file.roots_used(),
                   "largest_free_order": largest_free(file)},
        "usage": usage(classes),
        "orders": [usage([row for row in classes if row.chunk.order == order])
                   for order in range(file.geometry.top + 1)],
        "loaders": [{"number": row.loader, "name": row.name.decode(),
                     "usage": usage(file.classes(row.loader))} for row in file.loaders()],
        "chunks": chunks_of(classes),
    }


def usage_text(found):
    return (f"classes {found['classes']} chunks {found['chunks']} owned {found['owned']} "
            f"used {found['used']} free {found['free']}")


def lines(found):
    sizes, journal, reg = found["sizes"], found["journal"], found["region"]
    order = reg["largest_free_order"]
    whole = usage_text(found["usage"])
    yield f"ok loaders {len(found['loaders'])} number {found['number']} {whole}"
    yield f"sizes top {sizes['top']} roots {sizes['roots']} slots {sizes['slots']}"
    yield f"file bytes {reg['bytes']} after trim {reg['trimmed']}"
    yield (f"journal version {journal['version']} half {journal['half']} epoch {journal['epoch']} "
           f"slots {journal['slots']} left {journal['left']}")
    yield f"rows slots {journal['rows']} of {journal['row_limit']}"
    yield f"roots {reg['roots']} used {reg['used_roots']} of {sizes['roots']}"
    yield f"largest free chunk {'none' if order is None else f'order {order}'}"
    for number, row in enumerate(found["orders"]):
        if row["chunks"]:
            yield f"order {number} {usage_text(row)}"
    for row in found["loaders"]:
        yield f"loader {row['name']} number {row['number']} {usage_text(row['usage'])}"


def wanted(data):
    """The lines, the object (None if there is none) and the status."""
    try:
        file = region.File(bytes(data))
    except (region.NotACache, region.Damaged) as verdict:
        return f"{verdict}\n", None, 1
    found = statistics(file)
    return "".join(f"{line}\n" for line in lines(found)), found, 0


# ---- comparing

def differs(program, path, data):
    """What is wrong of what the program says of a file; None if nothing is."""
    harness.write(path, data)
    told = harness.ran([program, path])
    text, *ends = harness.ran([program, path, "--json"])
    if harness.read(path) != data:
        return "the file was changed"
    want, found, status = wanted(data)
    if told != (want.encode(), status, ""):
        return f"said {told}, wanted {want!r} ({status})"
    if found is None:
        said = text == want.encode()
    else:
        said = text.endswith(b"\n") and json.loads(text) == found
    if not said or ends != [status, ""]:
        return f"said as JSON {text!r} ({ends}), wanted {found!r}"
    return None


def files(count, draw):
    yield b""
    for script in check.SCRIPTS:
        yield bytes(check.new_file(script))
    yield bytes(check.whole_file())
    for _ in range(count):
        geometry = oracle.Geometry(draw.choice([3, 4, 5]), draw.choice([1, 2, 3]), 256)
        data = check.new_file(long_script(draw), geometry)
        if draw.randrange(3) == 0:
            check.damage(data, draw)
        elif draw.randrange(3) == 0:
            data += bytes(draw.choice([1, 100, 8192, 70_000]))
        yield bytes(data)


def main(program, count, seed):
    draw, checks = random.Random(seed), harness.Checks()
    with harness.new_folder() as folder:
        for number, data in enumerate(files(count, draw)):
            wrong = differs(program, f"{folder}/file", data)
            checks.check(f"file {number} of seed {seed}", not wrong, wrong)
    return checks.finish()


if __name__ == "__main__":
    sys.exit(main(sys.argv[1], int(sys.argv[2]), int(sys.argv[3])))
