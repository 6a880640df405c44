#!/usr/bin/env bash
# A device that fails at each call of a script in turn, and a machine that stops at each of them;
# then the file is opened again. Needs a C compiler and Python 3.
set -u
cd "$(dirname "$0")/.." || exit 1
. tests/lib.sh

WORK=$work python3 tests/device.py "$(executable)"
