#!/usr/bin/env bash
# README.md and docs/ name only what exists: links, crates and files of the map, paths of items,
# contracts, the mutants of each crate; the library's example is items of cm_example, and its
# limits are the code's. tests/readme.sh runs its commands. Needs python3.
set -u
cd "$(dirname "$0")/.." || exit 1
exec python3 tests/docs.py
