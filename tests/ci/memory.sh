#!/usr/bin/env bash
# Failed allocations in crates of tests, whose executables CI builds. Each test named here
# runs once for each of its allocations, with that one refused, up to the first run without a
# refusal; each run has to pass, and the number of refusals has to be the expected one. A pool, an
# arena or a store that isn't as it was before the failed call gives other results, and so does a
# reader that returns `NoMemory` in place of a fault.
#
# Needs a C compiler and Python 3.

# Each sweep counts in a subshell of its own, with a folder of its own.
# shellcheck disable=SC2030,SC2031
set -u
cd "$(dirname "$0")/../.." || exit 1
. tests/lib.sh
. tests/sweeps.sh

# sweep CRATE TEST REFUSALS
sweep() {
    local tests=crates/$1/out/$1_tests refuse=0 broken=0
    while [ $refuse -lt 2000 ]; do
        refuse=$((refuse + 1))
        rm -f "$work/counts"
        if ! ALLOCATIONS=$work/counts REFUSE=$refuse LD_PRELOAD=$library \
            "$tests" "$2" >"$work/log" 2>&1; then
            broken=1
            echo "$1 $2 with its allocation $refuse refused:"
            tail -n 3 "$work/log"
        fi
        [ "$(count_of 3)" = 0 ] && break
    done
    [ $broken = 0 ]
    check_last "$1 $2: a run with a refused allocation"
    [ $((refuse - 1)) = "$3" ]
    check_last "$1 $2: $((refuse - 1)) refusals were met, and not $3"
}

beside sweep cm_space_tests pools::a_failed_allocation_leaves_the_pool_as_it_was 13
beside sweep cm_space_tests arenas::places_words 15
beside sweep cm_space_tests arenas::takes_larger_chunks_in_a_longer_chain 25
beside sweep cm_class_tests faults::a_fault_behind_a_refusal 4
beside sweep cm_jar_tests contents::a_jar_is_read_after_a_refusal 2
beside sweep cm_commit_tests commands::a_left_chunk_waits_for_its_receipt 196
beside sweep cm_commit_tests \
    commands::chunks_of_loaders_that_go_at_once_wait_for_the_receipt 204
beside sweep cm_commit_tests refused::a_class_is_found_after_a_refusal 204
beside sweep cm_commit_tests refused::a_loader_comes_again_after_a_refusal 216
beside sweep cm_commit_tests refused::a_chunk_is_left_after_a_refusal 223
beside sweep cm_commit_tests made_again::a_file_is_made_and_opened_after_a_refusal 109
end_sweeps

finish
