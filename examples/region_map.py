#!/usr/bin/env python3
"""Draws where the classes of a cache lie, as an SVG on standard output.

    bin/cm_stat FILE --json > STAT; examples/region_map.py STAT > map.svg

STAT is what `cm_stat --json` prints. Each root is a strip: each chunk in the colour of its loader,
its used part darker, free space blank. The legend has the bytes used, owned and free, the free ones
of the roots that are drawn. A text that can't be read ends the script with status 1, wrong
arguments with 2.
"""
import json
import sys
from xml.sax.saxutils import escape

GRANULE = 128  # the words of the least chunk
WORD = 8
WIDTH, STRIP, STEP, LEFT, LINE = 1024, 24, 32, 70, 18
COLOURS = ("#4e79a7", "#f28e2b", "#59a14f", "#e15759", "#76b7b2", "#b6992d", "#b07aa1", "#9c755f")


def chunks_of(found):
    """The chunks of each loader, by its name: root, first word, words, and words used."""
    names = {loader["number"]: loader["name"] for loader in found["loaders"]}
    chunks = {name: [] for name in names.values()}
    for chunk in found["chunks"]:
        chunks[names[chunk["loader"]]].append(
            (chunk["root"], chunk["at"], GRANULE << chunk["order"], chunk["used"] // WORD))
    return chunks


def draw(found):
    """The lines of the SVG."""
    size = GRANULE << found["sizes"]["top"]
    chunks = chunks_of(found)
    roots = found["region"]["used_roots"]
    used, owned = found["usage"]["used"], found["usage"]["owned"]
    free = WORD * size * roots - owned
    height = STEP * roots + LINE * (len(chunks) + 2)
    yield (f'<svg xmlns="http://www.w3.org/2000/svg" width="{LEFT + WIDTH + 10}" '
           f'height="{height}" font-family="sans-serif" font-size="13">')
    for root in range(roots):
        yield f'<text x="4" y="{STEP * root + 17}">root {root}</text>'
        yield box(LEFT, STEP * root, WIDTH, "none", ' stroke="#888"')
    for at, (name, own) in enumerate(chunks.items()):
        colour = COLOURS[at % len(COLOURS)]
        yield f"<g><title>{escape(name)}</title>"
        for root, first, words, filled in own:
            left = LEFT + WIDTH * first / size
            yield box(left, STEP * root, WIDTH * words / size, colour, ' opacity="0.4"')
            yield box(left, STEP * root, WIDTH * filled / size, colour)
        yield "</g>"
        line = STEP * roots + LINE * (at + 2)
        yield f'<rect x="4" y="{line - 11}" width="12" height="12" fill="{colour}"/>'
        total = WORD * sum(words for *_, words in own)
        yield f'<text x="22" y="{line}">{escape(name)}: {total} bytes used</text>'
    yield (f'<text x="4" y="{STEP * roots + LINE - 4}">'
           f"used {used} bytes, owned {owned}, free {free}</text>")
    yield "</svg>"


def box(left, above, width, fill, more=""):
    return (f'<rect x="{left:.2f}" y="{above}" width="{width:.2f}" height="{STRIP}" '
            f'fill="{fill}"{more}/>')


def main(words):
    if len(words) != 1:
        print(__doc__, file=sys.stderr)
        return 2
    try:
        with open(words[0], encoding="ascii") as text:
            found = json.load(text)
        print(*draw(found), sep="\n")
    except (OSError, ValueError, KeyError, TypeError) as error:
        print(f"region_map.py: {words[0]}: {error}", file=sys.stderr)
        return 1
    return 0


if __name__ == "__main__":
    sys.exit(main(sys.argv[1:]))
