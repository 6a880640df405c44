#!/usr/bin/env bash
# `apply FILE` is killed at random moments and the file opened again: every acknowledged command is
# there, and nothing that nobody asked for. KILLS=N kills N times instead of 50, SEED=N at other
# moments. Needs Python 3.
set -u
cd "$(dirname "$0")/.." || exit 1
. tests/lib.sh

WORK=$work python3 tests/kill.py "$(executable)" "${KILLS:-50}" "${SEED:-$RANDOM}"
