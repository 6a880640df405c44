#!/usr/bin/env bash
# One process at a time may write to a file: each program, also one over the C interface, refuses a
# file that another one uses, and programs that only read share it. Two scripts that run at the same
# time lose nothing. RUNS=N lets two scripts meet N times instead of 40, SEED=N at other moments.
# Needs a C compiler and Python 3.
set -u
cd "$(dirname "$0")/.." || exit 1
. tests/lib.sh

if ! importer=$(find_program cm_import) || ! statistics=$(find_program cm_stat) ||
    ! core=${CM_CORE:-$(find_core)}; then
    echo "0 passed, 1 failed"
    exit 1
fi
cc -std=c11 -Ic -o "$work/script" tests/c/script.c c/*.c "$core" -lpthread
check_last "a program over the C interface is compiled"
WORK=$work counted "programs that meet" python3 tests/lock.py "$(executable)" "$importer" \
    "$statistics" "$work/script" "${RUNS:-40}" "${SEED:-$RANDOM}"

finish
