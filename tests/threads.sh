#!/usr/bin/env bash
# `apply` with several workers writes what it writes with one, on the output and in the file, also
# if a device call or the input fails or there are many lines at once, and replies to each line
# before the next one arrives; a run with workers that is killed keeps what it acknowledged; and
# threads that run the lines of a script, or define, find, move and unload in one file at once, get
# the replies that one thread would get, and leave the file in accordance with them, also if a
# device call fails, they are killed, or the machine stops and loses what wasn't synced.
# SCRIPTS=N runs N random scripts instead of 1,000 (and a fifth of them by threads), KILLS=N kills N
# runs instead of 50, SOAK=N has the threads work for N seconds instead of one, MOMENTS=N stops the
# machine at N moments instead of 50, SEED=N uses other scripts and moments. Needs a C compiler and
# Python 3.
set -u
cd "$(dirname "$0")/.." || exit 1
. tests/lib.sh

seed=${SEED:-$RANDOM}
bench=$(find_program cm_bench_files)

# The machine doesn't stop during most of these, so they needn't wait for a disk.
quick_folder
WORK=$quick counted "scripts with workers" \
    python3 tests/threads.py "$(executable)" "${SCRIPTS:-1000}" "$seed"
WORK=$quick counted "scripts whose input fails, and long ones" \
    python3 tests/streams.py "$(executable)"
WORK=$work counted "runs with workers that are killed" \
    python3 tests/kill.py "$(executable)" "${KILLS:-50}" "$seed" --workers 4
WORK=$quick counted "scripts that several threads run" \
    python3 tests/script_threads.py "$bench" "$(executable)" "$((${SCRIPTS:-1000} / 5))" "$seed"
WORK=$work counted "sixteen threads on one file" \
    python3 tests/soak.py "$(executable)" "$bench" 16 "${SOAK:-1}"
WORK=$quick counted "sixteen threads on one file that are killed" \
    python3 tests/soak_kill.py "$(executable)" "$bench" 16 "${KILLS:-50}" "$seed"
WORK=$quick counted "sixteen threads on one file of a machine that stops" \
    python3 tests/soak_stop.py "$(executable)" "$bench" 16 "${MOMENTS:-50}" "$seed"

finish
