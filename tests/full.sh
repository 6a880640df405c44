#!/usr/bin/env bash
# Files that can't grow: under a limit on their size, and on a file system that is full. Needs
# Python 3, and for the full file system the right to mount a tmpfs.
set -u
cd "$(dirname "$0")/.." || exit 1
. tests/lib.sh

mkdir "$work/mount"
own=(unshare --user --map-root-user --mount)
if mount -t tmpfs -o size=64k tmpfs "$work/mount" 2>/dev/null; then
    umount "$work/mount"
    python3 tests/full.py "$(executable)" "$work" tmpfs
elif "${own[@]}" mount -t tmpfs tmpfs "$work/mount" 2>/dev/null; then
    "${own[@]}" python3 tests/full.py "$(executable)" "$work" tmpfs
else
    echo "no tmpfs can be mounted here: full file systems are left out"
    python3 tests/full.py "$(executable)" "$work"
fi
