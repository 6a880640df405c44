#!/usr/bin/env bash
# The C interface (docs/C.md). It compiles without a warning, and its header is that of the library.
# Every call does what it says, also under Valgrind and the sanitizers. The scripts that test the
# program get the same replies and files from a program over the C interface, also if a device call
# or an allocation fails, if files can't grow, and if it is killed. Sixteen threads keep all that
# they acknowledged if they are killed, or the machine stops. The examples run.
#
# KILLS=N kills N times instead of 50, MOMENTS=N stops the machine at N moments instead of 50,
# SCRIPTS=N runs N random scripts instead of 200, SEED=N takes others. CM_CORE names another archive
# than the one that was built here, or that of the release. Needs a C compiler and Python 3; what
# else isn't installed is left out: Valgrind, a second compiler, rustc, and a JDK 22 or later.

# Each sweep counts in a subshell of its own, with a folder of its own.
# shellcheck disable=SC2030,SC2031
set -u
cd "$(dirname "$0")/.." || exit 1
. tests/lib.sh

if ! core=${CM_CORE:-$(find_core)}; then
    echo "the static library isn't there, and can't be built"
    echo "0 passed, 1 failed"
    exit 1
fi
CMCACHE=$(executable)
export CMCACHE

# Where the machine doesn't stop, files needn't wait for a disk.
quick_folder

# For the programs that are built with it.
export TSAN_OPTIONS=suppressions=tests/c/tsan.supp

# build NAME SOURCE COMPILER [FLAG..]: a program over the C interface.
build() {
    "$3" -std=c11 -Wall -Wextra -Werror -g -Ic "${@:4}" -o "$work/$1" "$2" c/*.c "$core" -lpthread
    check_last "$1 is compiled by $3"
}

# passes NAME WORD..: runs other tests, and counts the same.
passes() { WORK=$quick counted "$@"; }

# has WORD: whether the command is installed; says what is left out if not.
has() {
    command -v "$1" >/dev/null && return
    echo "$1 isn't installed: $2 is left out"
    return 1
}

# ---- the header, and every call

passes "c/cmcore.h is the interface of the library" python3 tests/c.py header "$core"

for compiler in gcc clang; do
    has $compiler "a build by it" || continue
    for source in tests/c/*.c bench/c_calls.c bench/view_calls.c examples/c/*.c; do
        build "$compiler.$(basename "$source" .c)" "$source" $compiler -O2
    done
done
cc=$(command -v gcc clang | head -n 1)
if has g++ "the header in C++"; then
    echo '#include "cmcache.h"' | g++ -Wall -Wextra -Werror -Ic -fsyntax-only -x c++ -
    check_last "the header is C++ too"
fi

# every_call NAME WORD..: the words run it, in a folder of its own.
every_call() {
    mkdir "$quick/$1"
    passes "every call: $1" "${@:2}" "$quick/$1"
    rm -r "${quick:?}/$1"
}
for program in every_call open_and_list; do
    build $program tests/c/$program.c "$cc" -O1
    every_call $program "$work/$program"
    build address tests/c/$program.c "$cc" -O1 -fsanitize=address,undefined \
        -fno-sanitize-recover
    every_call $program-address "$work/address"
    build thread tests/c/$program.c "$cc" -O1 -fsanitize=thread
    every_call $program-thread "$work/thread"
    if has valgrind "every call under it"; then
        every_call $program-memcheck valgrind -q --error-exitcode=9 --leak-check=full \
            "$work/$program"
        every_call $program-helgrind valgrind -q --error-exitcode=9 --tool=helgrind \
            --suppressions=tests/c/helgrind.supp "$work/$program"
    fi
done

library=$(compile_library calls)
check_last "tests/calls.c is compiled"

# ---- files of version 1, which are upgraded as the program upgrades them

# fail_each FILE: each device call of its upgrade fails in turn, and the file then holds what it
# held. It succeeds once none fails.
fail_each() {
    local fail=0 status=40
    cp "$1" "$work/copy"
    "$CMCACHE" list "$work/copy" >"$work/want"
    while [ "$status" = 40 ]; do
        fail=$((fail + 1))
        cp "$1" "$work/copy"
        FAIL=$fail STORES=$((7 * fail)) LD_PRELOAD=$library "$work/every_call" open "$work/copy"
        status=$?
        "$CMCACHE" list "$work/copy" | cmp - "$work/want" || return 1
    done
    [ "$status" = 0 ] && [ "$fail" -gt 4 ]
}
for older in tests/data/older_*.gz; do
    gzip -d -c "$older" >"$work/older"
    python3 tests/region.py opened "$work/older" >"$work/upgraded"
    cp "$work/older" "$work/copy"
    "$work/every_call" open "$work/copy" && cmp "$work/copy" "$work/upgraded"
    check_last "$older is upgraded"
    fail_each "$work/older"
    check_last "$older, if a call of its upgrade fails"
done

# ---- scripts, as the program runs them

script=$work/script
build script tests/c/script.c "$cc" -O1
seed=${SEED:-$RANDOM}
passes "random scripts" python3 tests/threads.py "$script" "${SCRIPTS:-200}" "$seed"
passes "a device that fails at each call" python3 tests/device.py "$script"
passes "files that can't grow" python3 tests/full.py "$script" "$quick"
passes "scripts that are killed" python3 tests/kill.py "$script" 20 "$seed"

# ---- threads

build soak tests/c/soak.c "$cc" -O2
build soak_thread tests/c/soak.c "$cc" -O1 -fsanitize=thread
passes "sixteen threads on one file" python3 tests/soak.py "$CMCACHE" "$work/soak" 16 1
passes "eight threads, watched" python3 tests/soak.py "$CMCACHE" "$work/soak_thread" 8 3
passes "sixteen threads that are killed" \
    python3 tests/soak_kill.py "$CMCACHE" "$work/soak" 16 "${KILLS:-50}" "$seed"
passes "sixteen threads on a machine that stops" \
    python3 tests/soak_stop.py "$CMCACHE" "$work/soak" 16 "${MOMENTS:-50}" "$seed"

build submit tests/c/submit.c "$cc" -O2
passes "commands that aren't waited for, killed" \
    python3 tests/submit_kill.py "$CMCACHE" "$work/submit" "${KILLS:-50}" "$seed"

# ---- the examples, with classes that the machine's Java compiler writes

# prints NAME WORD..: the words run an example, whose output ends with the record of a class.
prints() {
    rm -f "$work/examples"
    "${@:2}" "$work/examples" shapes/Shapes "${classes[@]}" >"$work/told" 2>"$work/errors" &&
        [ "$(grep -c 'is stored: command' "$work/told")" = ${#classes[@]} ] &&
        tail -n "$(wc -l <"$work/want")" "$work/told" | cmp - "$work/want"
    check_last "the example in $1"
    [ "$("$CMCACHE" check "$work/examples")" = "$(python3 tests/region.py check "$work/examples")" ]
    check_last "the file of the example in $1"
}

if has javac "the examples" && mkdir "$work/classes" && javac --release 8 -Xlint:none -nowarn \
    -d "$work/classes" tests/java/*.java; then
    mapfile -t classes < <(find "$work/classes" -name '*.class')
    python3 tests/c.py record shapes/Shapes "$work/classes/shapes/Shapes.class" >"$work/want"
    CM_CORE=$core bin/build_c "$work/c"
    check_last "bin/build_c"
    build define examples/c/define.c "$cc" -O2
    prints C "$work/define"
    # Without a toolchain rustup's rustc is there, and runs nothing.
    if has rustc "the example in Rust" && rustc --version >/dev/null; then
        rustc --edition 2021 -O -D warnings -o "$work/define_rust" examples/rust/main.rs \
            -L native="$work/c" -l static=cmcache
        prints Rust "$work/define_rust"
    fi
    # The newest JDK of the machine, for an interface that is final since Java 22.
    newest=$(find /usr/lib/jvm -path '*/bin/javac' 2>/dev/null | while read -r each; do
        echo "$("$each" --version | grep -oE '[0-9]+' | head -n 1) ${each%/javac}"
    done | sort -n | tail -n 1)
    if [ "${newest%% *}" -ge 22 ] 2>/dev/null; then
        "${newest#* }/javac" -nowarn -d "$work/java" examples/java/Define.java 2>"$work/errors"
        check_last "the example in Java is compiled"
        prints Java "${newest#* }/java" --enable-native-access=ALL-UNNAMED -cp "$work/java" \
            Define "$work/c/libcmcache.so"
    else
        echo "there is no JDK 22 or later: the example in Java is left out"
    fi
fi

# ---- refused memory: one allocation after another

. tests/sweeps.sh
printf '%s\n' 'loader app' "define app $class_a" 'loader ext' "define ext $class_a" 'find app A' \
    'loader app' 'unload app' 'find app A' 'tighten ext' 'find ext A' 'unloadall ext app' \
    'unloadall app app' 'find ext A' >"$work/commands"
# sweep SCRIPT WORD..
sweep() {
    WORK=$work tests/refused_memory.py "$script" any "${@:2}" <"$1"
    check_last "a refused allocation: ${*:2}"
}
beside sweep "$work/commands" apply FILE
beside sweep /dev/null apply FILE
beside sweep "$work/commands" format FILE
end_sweeps

finish
