#!/usr/bin/env bash
# Failed allocations in programs. Each program runs once for each of its allocations, with that one
# refused, up to the first run without a refusal; each run has to report it or to do what it was
# asked, and the number of refusals has to be the expected one. And false counts in a class file
# never lead to a large allocation.
#
# Needs a C compiler and Python 3.

# Each sweep counts in a subshell of its own, with a folder of its own.
# shellcheck disable=SC2030,SC2031
set -u
cd "$(dirname "$0")/.." || exit 1
. tests/lib.sh
. tests/sweeps.sh

# The program: making a file, and scripts with commands that are accepted and refused, and look-ups,
# in memory and on a file.
built=$(executable)
{
    printf 'loader app\ndefine app %s\nloader ext\ndefine ext %s\n' "$class_a" "$class_a"
    printf '%s\n' 'find app A' 'loader app' 'unload app' 'find app A' 'tighten ext' 'find ext A' \
        'unloadall ext app' 'unloadall app app' 'find ext A'
} >"$work/script"
# sweep_program SCRIPT REFUSALS WORD..
sweep_program() {
    WORK=$work tests/refused_memory.py "$built" "${@:2}" <"$1"
    check_last "the program with a refused allocation: ${*:2}"
}
beside sweep_program "$work/script" 376 apply --memory
beside sweep_program "$work/script" 424 apply FILE
beside sweep_program "$work/script" 91 format FILE
# Only opening a file, and checking it.
beside sweep_program /dev/null 360 apply FILE
beside sweep_program /dev/null 276 check FILE
beside sweep_program /dev/null 384 list FILE
# The same with two workers, which read and judge records and prepare classes.
beside sweep_program /dev/null 375 apply FILE --workers 2
beside sweep_program "$work/script" 447 apply FILE --workers 2
# A cache that is started for threads: what they share, and the flusher's thread. One thread makes a
# loader and defines a class.
files=$(find_program cm_bench_files)
sweep_threads() {
    WORK=$work tests/refused_memory.py "$files" "$1" threads FILE --threads 1
    check_last "a cache for threads with a refused allocation"
}
beside sweep_threads 418
end_sweeps

bench=$(find_program cm_bench)
# asks NAME HEX: reading and checking this class, and making its record, asks for no more than 4,096
# bytes at once, though it claims more; the words of the program's two verbs take 2,688.
asks() {
    local length=$((${#2} / 2)) status most
    printf '%08x%s' "$length" "$2" >"$work/hex"
    python3 -c 'import sys; sys.stdout.buffer.write(bytes.fromhex(sys.stdin.read()))' \
        <"$work/hex" >"$work/in"
    rm -f "$work/counts"
    ALLOCATIONS=$work/counts LD_PRELOAD=$library "$bench" classes <"$work/in" >"$work/got"
    status=$?
    most=$(count_of 2)
    [ "$status" = 0 ] && [ "$most" -le 4096 ] && grep -q "faults $3" "$work/got"
    check_last "$1: $most bytes were asked for at once"
}
asks "class A" "$class_a" 0
asks "65,535 constants" cafebabe00000034ffff 1
asks "a Utf8 of 65,535 bytes" cafebabe0000003400050100ffff 1
asks "65,535 interfaces" "${class_a%0000000000000000}ffff" 1
asks "65,535 fields" "${class_a%000000000000}ffff" 1
asks "65,535 methods" "${class_a%00000000}ffff" 1
asks "65,535 attributes" "${class_a%0000}ffff" 1
asks "a field with 65,535 attributes" "${class_a%000000000000}0001000100020002ffff" 1
asks "a method with 65,535 attributes" "${class_a%00000000}0001000100020002ffff" 1
asks "an attribute of 4 GiB" "${class_a%0000}00010002ffffffff" 1

finish
