#!/usr/bin/env bash
# cm_simulate compared with a plain model of the world: random event lists with fixed seeds, a
# define stopped at each of its device calls, lines that are no event, the file of the disk, and
# each allocation of a simulation refused in turn.
#
# Needs Python and a C compiler.
set -u
cd "$(dirname "$0")/.." || exit 1
. tests/lib.sh

simulate=$(find_program cm_simulate)

WORK=$work counted "events" tests/simulate.py "$simulate"
WORK=$work counted "refused allocations" tests/simulate.py "$simulate" 374

finish
