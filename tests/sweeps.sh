# shellcheck shell=bash
# Sourced, with tests/lib.sh, by the scripts that refuse one allocation after another. Their sweeps
# run side by side, as many as there are processors, each with a folder of its own.

# Each sweep counts in a subshell of its own, with a folder of its own.
# shellcheck disable=SC2030,SC2031,SC2154

# Loaded before a program, it counts the allocations and refuses one of them.
library=$(compile_library allocations)
if [ ! -f "$library" ]; then
    echo "0 passed, 1 failed"
    exit 1
fi

# count_of N: the Nth of the three counts that the last run with tests/allocations.c left in
# $work/counts: allocations asked for, the most bytes at once, allocations refused.
count_of() { od -An -t u8 -j $((8 * ($1 - 1))) -N 8 "$work/counts" | tr -d ' '; }

# beside SWEEP WORD..: runs a sweep as soon as a processor is free.
sweeps=0
beside() {
    while [ "$(jobs -rp | wc -l)" -ge "$(nproc)" ]; do wait -n; done
    sweeps=$((sweeps + 1))
    mkdir "$work/$sweeps"
    (
        work=$work/$sweeps passed=0 failed=0
        "$@"
        echo "$passed $failed" >"$work/end"
    ) >"$work/$sweeps/told" 2>&1 &
}

# end_sweeps: waits for all sweeps, prints the output of each in turn, and counts its checks.
end_sweeps() {
    local sweep good bad
    wait
    for sweep in $(seq "$sweeps"); do
        cat "$work/$sweep/told"
        read -r good bad <"$work/$sweep/end" || good=0 bad=1
        passed=$((passed + good))
        failed=$((failed + bad))
    done
}
