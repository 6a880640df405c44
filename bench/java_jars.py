#!/usr/bin/env python3
"""Prints the jars below a folder whose classes are of version 52.0, each class in one of them:
bench/java_jars.py FOLDER."""
import sys
import zipfile
from pathlib import Path

LEAST = 30  # classes of a jar that is worth opening


def classes_of(path):
    """The names of its classes of version 52.0."""
    with zipfile.ZipFile(path) as jar:
        return {name for name in jar.namelist()
                if name.endswith(".class") and not name.startswith("META-INF/")
                and jar.open(name).read(8)[7] == 52}


def main():
    known, seen = set(), set()
    for path in sorted(Path(sys.argv[1]).rglob("*.jar")):
        real = path.resolve()
        if real in seen or not real.is_file() or not zipfile.is_zipfile(real):
            continue
        seen.add(real)
        names = classes_of(real)
        if len(names) >= LEAST and not names & known:
            known |= names
            print(real)


if __name__ == "__main__":
    main()
