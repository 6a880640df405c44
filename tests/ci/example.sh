#!/usr/bin/env bash
# The library's example on a file, and on one whose device fails at each of its calls in turn: then
# it ends with status 3 and says why, and the file holds at least what it said is stored. Needs a C
# compiler and Python 3.
set -u
cd "$(dirname "$0")/../.." || exit 1
. tests/lib.sh

example=crates/cm_example/out/cm_example
library=$(compile_library calls)
check_last "tests/calls.c is compiled"

# run_example [NAME=VALUE..]: the example on $work/cache.
run_example() {
    env "$@" "$example" "$work/cache" crates/cm_example/data/classes.jar \
        >"$work/got" 2>"$work/errors"
    status=$?
}

run_example
cp crates/cm_example/stdout "$work/want"
check "four threads define the classes of a jar" 0
"$program" list "$work/cache" >"$work/got"
for loader in a b c d; do echo "loader $loader"; done >"$work/want"
grep '^loader ' "$work/got" | sort >"$work/loaders"
cmp -s "$work/loaders" "$work/want" && [ "$(grep -c '^class [A-F] words 16 ' "$work/got")" = 6 ]
check_last "the file has four loaders with the six classes of the jar"

run_example
check_status "a file that is there isn't made again" 3 says

# call_fails N: call N of the device fails. False if the example makes fewer calls.
call_fails() {
    local stored handed
    rm -f "$work/cache"
    run_example LD_PRELOAD="$library" FAIL="$1"
    read -r stored handed < <(sed -n 's/^\([0-9]*\) of \([0-9]*\) commands are stored$/\1 \2/p' \
        "$work/got")
    if [ "$status" = 0 ]; then
        [ "$stored $handed" = "10 10" ]
        check_last "no call fails: $stored of $handed commands are stored"
        return 1
    fi
    check_status "call $1 fails" 3 says
    # Without this line the cache wasn't made or opened.
    [ -z "$stored" ] && return 0
    [ "$stored" = "$handed" ] ||
        grep -qx "cm_example: commands $((stored + 1)) to $handed are unsure" "$work/errors"
    check_last "call $1 fails: each command that isn't known to be stored is unsure"
    "$program" check "$work/cache" >"$work/got"
    grep -qx 'ok loaders [0-9]* classes [0-9]* chunks [0-9]* number [0-9]*' "$work/got" &&
        [ "$(sed 's/.* //' "$work/got")" -ge "$stored" ]
    check_last "call $1 fails: $stored commands are stored, and the file has: $(cat "$work/got")"
}

failing=0
while [ $failing -lt 200 ] && call_fails $((failing + 1)); do failing=$((failing + 1)); done
# At least the calls that make the file, and those of two groups.
[ $failing -ge 12 ] && [ $failing -lt 200 ]
check_last "$failing calls of the device failed in turn"

finish
