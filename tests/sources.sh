#!/usr/bin/env bash
# What no compiler checks in the sources: lines stay within 100 columns, those of scripts too, and
# each mutant still names text that is there. Needs Python 3 and git.
set -u
cd "$(dirname "$0")/.." || exit 1
exec python3 tests/sources.py
