#!/usr/bin/env bash
# `cm_import` on class files, folders and jars that are made here: what it says, its status, and
# what the file holds then, as region.py reads it. Runs are killed at random moments, and each call
# on the file fails in turn. Needs a C compiler and Python 3. KILLS=N kills more often than 30
# times, SEED=N at other moments.
set -u
cd "$(dirname "$0")/.." || exit 1
. tests/lib.sh

if ! importer=${CM_IMPORT:-$(find_program cm_import)}; then
    echo "0 passed, 1 failed"
    exit 1
fi
WORK=$work python3 tests/importing.py "$importer" "$(executable)" "${KILLS:-30}" "${SEED:-$RANDOM}"
