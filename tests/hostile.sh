#!/usr/bin/env bash
# Hostile use: a device that fails at each call, crashes before and inside each device call of five
# scripts, damaged files, class files that refer to nothing, closed streams; the expected words are
# written by hand. STEP=N stops every Nth loader of the long script instead of every 16th. Needs a C
# compiler and Python 3.
set -u
cd "$(dirname "$0")/.." || exit 1
. tests/lib.sh

WORK=$work python3 tests/hostile.py "$(executable)" "$(find_program cm_simulate)" \
    "${STEP:-16}"
