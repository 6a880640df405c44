#!/usr/bin/env bash
# Files that are only read (docs/VIEW.md), by a program over the C interface: good and damaged files
# beside what region.py says of them; threads and processes at once, some of which are killed; a
# view and a writer exclude each other; a file that may not be written to, and a file system that
# can't be.
# CHANGED=N tries N changed bytes instead of 2,000, SEED=N others; CHANGED=all tries each of them.
# Needs a C compiler and Python 3, and uses Valgrind, setpriv and unshare if they are there.
set -u
cd "$(dirname "$0")/.." || exit 1
. tests/lib.sh

if ! core=${CM_CORE:-$(find_core)}; then
    echo "the static library isn't there, and can't be built"
    echo "0 passed, 1 failed"
    exit 1
fi
quick_folder
export TSAN_OPTIONS=suppressions=tests/c/tsan.supp
changed=${CHANGED:-2000}
[ "$changed" = all ] && changed=1000000
seed=${SEED:-$RANDOM}
cc=$(command -v gcc clang | head -n 1)

# build NAME [FLAG..]
build() {
    "$cc" -std=c11 -Wall -Wextra -Werror -g -Ic "${@:2}" -o "$work/$1" tests/c/view.c c/*.c \
        "$core" -lpthread
    check_last "$1 is compiled"
}
build view -O2
build address -O1 -fsanitize=address,undefined -fno-sanitize-recover
build thread -O1 -fsanitize=thread

# beside_oracle NAME PROGRAM COUNT
beside_oracle() {
    WORK=$quick counted "$1" python3 tests/readonly.py "$2" "$(executable)" "$3" "$seed"
}
beside_oracle "views" "$work/view" "$changed"
beside_oracle "views, watched" "$work/address" 200

python3 tests/region.py after <examples/first.txt >"$quick/file"
check_last "a file is made"
"$work/thread" many "$quick/file" 16 300 >"$work/told"
check_last "sixteen threads, watched"
if command -v valgrind >/dev/null; then
    valgrind -q --error-exitcode=9 --leak-check=full "$work/view" many "$quick/file" 4 3 \
        >"$work/told"
    check_last "four threads under memcheck"
    valgrind -q --error-exitcode=9 --tool=helgrind --suppressions=tests/c/helgrind.supp \
        "$work/view" many "$quick/file" 4 3 >"$work/told"
    check_last "four threads under helgrind"
else
    echo "valgrind isn't installed: views under it are left out"
fi

# ---- without the right to write

# tells_as_wanted: the words say of the file what was said of it before.
tells_as_wanted() {
    echo "$quick/file" | "$@" "$work/view" >"$work/got" && cmp "$work/got" "$work/want"
}
echo "$quick/file" | "$work/view" >"$work/want"
check_last "what the file holds"
chmod a-w "$quick/file"
tells_as_wanted env
check_last "a file that nobody may write to"
if [ "$(id -u)" = 0 ] && command -v setpriv >/dev/null; then
    chmod a+rx "$quick" "$work" "$work/view"
    nobody=(setpriv --reuid=65534 --regid=65534 --clear-groups)
    tells_as_wanted "${nobody[@]}"
    check_last "a user who may only read it"
    chmod a-r "$quick/file"
    echo "$quick/file" | "${nobody[@]}" "$work/view" >"$work/got"
    [ "$(head -n 1 "$work/got")" = "not opened 45 0 0" ]
    check_last "a user who may not read it"
    chmod a+r "$quick/file"
else
    echo "only root can be another user: files of others are left out"
fi
echo "$quick/nothing" | "$work/view" >"$work/got"
[ "$(head -n 1 "$work/got")" = "not opened 44 0 0" ]
check_last "no file"
echo "$quick" | "$work/view" >"$work/got"
[ "$(head -n 1 "$work/got")" = "not opened 43 0 0" ]
check_last "a folder"
mkdir "$quick/mounted"
if unshare --mount true 2>/dev/null; then
    # The words of the inner shell are its own.
    # shellcheck disable=SC2016
    echo "$quick/mounted/file" | unshare --mount sh -c '
        mount --bind "$1" "$1/mounted" && mount -o remount,ro,bind "$1/mounted" &&
            ! touch "$1/mounted/new" 2>/dev/null && "$2"' sh "$quick" "$work/view" >"$work/got" &&
        cmp "$work/got" "$work/want"
    check_last "a file system that can't be written to"
else
    echo "no file system can be mounted: one that can't be written to is left out"
fi

finish
