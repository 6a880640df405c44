#!/usr/bin/env python3
"""Writes a script for `cmcache apply` that defines class files in one loader.

    examples/define_lines.py LOADER PATH.. | bin/cmcache apply --memory

A PATH is a .class file, a folder that is searched for them, or a jar. Classes come in the order of
their paths. Module and package descriptions (module-info, package-info) are classes only to the
file format and are left out. One line on standard error reports what can't be read, or an output
that fails; both end the script with status 1. Wrong arguments end it with 2.
"""
import contextlib
import functools
import os
import pathlib
import sys
import zipfile

LEFT_OUT = {"module-info.class", "package-info.class"}
MAGIC = b"\xca\xfe\xba\xbe"


class Unreadable(Exception):
    """A path that can't be read, and why."""


@contextlib.contextmanager
def reading(path):
    """What fails inside is reported for this path: for bytes that are no jar, any exception."""
    try:
        yield
    except Exception as error:
        cause = getattr(error, "strerror", None) or str(error) or type(error).__name__
        raise Unreadable(f"{getattr(error, 'filename', None) or path}: {cause}") from error


def is_wanted(name):
    return name.endswith(".class") and name.rsplit("/", 1)[-1] not in LEFT_OUT


def files_below(folder):
    """All files in a folder and in those below it; one that can't be searched is an error."""
    def stop(error):
        raise error

    for place, _, names in os.walk(folder, onerror=stop):
        yield from (pathlib.Path(place, name) for name in names)


def files_at(path):
    """Each class file at a path: its name, and what reads its bytes."""
    if path.is_dir():
        found = sorted(file for file in files_below(path) if is_wanted(file.name))
        return [(file, file.read_bytes) for file in found]
    if path.suffix == ".jar":
        jar = zipfile.ZipFile(path)
        names = sorted(filter(is_wanted, jar.namelist()))
        return [(f"{path}!{name}", functools.partial(jar.read, name)) for name in names]
    return [(path, path.read_bytes)]


def class_files(path):
    """Each class file at a path: its name and its bytes."""
    with reading(path):
        files = files_at(path)
    for name, read in files:
        with reading(name):
            data = read()
        yield name, data


def write_script(loader, paths, output):
    output.write(b"loader %s\n" % loader)
    for path in paths:
        for name, data in class_files(pathlib.Path(path)):
            if not data.startswith(MAGIC):
                raise Unreadable(f"{name}: no class file")
            output.write(b"define %s %s\n" % (loader, data.hex().encode()))


def end(text):
    """Ends with status 1 and this text, as one line."""
    sys.exit(f"define_lines.py: {text}".replace("\n", "\\n"))


def main(words):
    if len(words) < 2:
        print(__doc__, file=sys.stderr)
        return 2
    loader, paths = os.fsencode(words[0]), words[1:]
    if not loader or any(byte in loader for byte in b" \n"):
        print("define_lines.py: a loader's name has no spaces and isn't empty", file=sys.stderr)
        return 2
    if sys.stdout is None:
        end("standard output: it is closed")
    try:
        try:
            write_script(loader, paths, sys.stdout.buffer)
        finally:
            sys.stdout.flush()
    except Unreadable as fault:
        end(fault)
    except OSError as error:
        # What isn't written is dropped; otherwise Python would try again, and report it at exit.
        os.dup2(os.open(os.devnull, os.O_WRONLY), sys.stdout.fileno())
        if not isinstance(error, BrokenPipeError):
            end(f"standard output: {error.strerror}")
        return 1
    return 0


if __name__ == "__main__":
    sys.exit(main(sys.argv[1:]))
