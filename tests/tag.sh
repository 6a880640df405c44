#!/usr/bin/env bash
# The tag of paths: cm_import, the library for C and a computation in Python of what docs/FRESH.md
# says give the same; and imports into loaders with a tag. Needs a C compiler and Python 3.
set -u
cd "$(dirname "$0")/.." || exit 1
. tests/lib.sh

if ! importer=${CM_IMPORT:-$(find_program cm_import)} || ! core=$(find_core); then
    echo "0 passed, 1 failed"
    exit 1
fi
CM_CORE=$core bin/build_c "$work/c"
check_last "bin/build_c"
cc -std=c11 -O2 -Wall -Wextra -Werror -Ic -o "$work/fresh" examples/c/fresh.c \
    "$work/c/libcmcache.a" -lpthread
check_last "examples/c/fresh.c"
counted "tags" env WORK="$work" python3 tests/tag.py "$importer" "$(executable)" "$work/fresh"
finish
