#!/usr/bin/env bash
# The files that scripts make, and `check FILE` and `list FILE` on sound and damaged files, compared
# with independent programs (tests/oracle.py, tests/region.py): 1,000 files with some bytes changed
# at random (FILES=N: another number, SEED=N: others), and one file with each byte that is in use
# changed in turn. Needs Python 3.
set -u
cd "$(dirname "$0")/.." || exit 1
. tests/lib.sh

WORK=$work python3 tests/check.py "$(executable)" "${FILES:-1000}" "${SEED:-1}"
