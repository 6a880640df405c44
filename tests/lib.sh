# shellcheck shell=bash
# What the end-to-end scripts share: each check counts, and the last line says how many passed.
top=$(cd "$(dirname "${BASH_SOURCE[0]}")/.." && pwd)
program=${CMCACHE:-$top/bin/cmcache} # CMCACHE names another build
work=$(mktemp -d)
trap 'rm -rf "$work"' EXIT
passed=0
failed=0
. "$top/bin/programs.sh"

# check NAME STATUS: the program's last run ended with the status, and wrote what stands
# in $work/want.
check() {
    if [ "$status" = "$2" ] && cmp -s "$work/got" "$work/want"; then
        passed=$((passed + 1))
    else
        failed=$((failed + 1))
        echo "FAILED: $1 (status $status, wanted $2)"
        diff "$work/want" "$work/got" | head -5
    fi
}

# check_status NAME STATUS [says]: only the status; and with the third word, that there is something
# on standard error.
check_status() {
    if [ "$status" = "$2" ] && { [ "${3:-}" != "says" ] || [ -s "$work/errors" ]; }; then
        passed=$((passed + 1))
    else
        failed=$((failed + 1))
        echo "FAILED: $1 (status $status, wanted $2)"
    fi
}

# check_last NAME: the last command ended with 0. A command inside the name would be the last one.
check_last() {
    # The status is that of the condition before the call, as it should be.
    # shellcheck disable=SC2319
    if [ $? = 0 ]; then
        passed=$((passed + 1))
    else
        failed=$((failed + 1))
        echo "FAILED: $1"
    fi
}

# check_streams NAME OUT ERR: whether there is something or nothing ("some", "none") on standard
# output and error.
check_streams() {
    local out=none err=none
    [ -s "$work/got" ] && out=some
    [ -s "$work/errors" ] && err=some
    [ "$out $err" = "$2 $3" ]
    check_last "$1"
}

# run ARGS..: the program on $work/in.
run() {
    "$program" "$@" <"$work/in" >"$work/got" 2>"$work/errors"
    status=$?
}

# counted NAME WORD..: runs other tests, whose last line is 'N passed, M failed', prints the lines
# before it, and counts the same.
counted() {
    local ended last
    "${@:2}" >"$work/told" 2>&1
    ended=$?
    last=$(tail -n 1 "$work/told")
    if [[ $last =~ ^([0-9]+)\ passed,\ ([0-9]+)\ failed$ ]] &&
        { [ $ended = 0 ] || [ "${BASH_REMATCH[2]}" != 0 ]; }; then
        passed=$((passed + BASH_REMATCH[1]))
        failed=$((failed + BASH_REMATCH[2]))
        sed '$d' "$work/told" | cut -c 1-1000
        echo "$1: $last"
    else
        failed=$((failed + 1))
        echo "FAILED: $1"
        tail -n 5 "$work/told"
    fi
}

# quick_folder: $quick is a folder whose files don't wait for a disk, if the machine has one.
quick_folder() {
    quick=$work
    [ -w /dev/shm ] && quick=$(mktemp -d -p /dev/shm)
    trap 'rm -rf "$work" "$quick"' EXIT
}

# ---- classes and names

# Class A in hexadecimal: it has nothing in it.
class_a=cafebabe0000003400050700020100014107000401
class_a+=00106a6176612f6c616e672f4f626a6563740021000100030000000000000000

# padded X M: class A with another name of one letter, and an attribute of M zeros.
padded() {
    printf 'cafebabe000000340006070002010001%02x' "'$1"
    printf '0700040100106a6176612f6c616e672f4f626a65637401000158'
    printf '002100010003000000000000000100''05%08x' "$2"
    [ "$2" = 0 ] || printf '00%.0s' $(seq "$2")
}

# name X N: a name of this many letters.
name() {
    printf "$1%.0s" $(seq "$2")
}

# put FILE PLACE BYTES: writes bytes, spelled as for printf, into a file.
put() {
    printf '%b' "$3" | dd of="$1" bs=1 seek="$2" conv=notrunc status=none
}

# ---- programs

# compile_library NAME: the path of tests/NAME.c, compiled to be loaded before a program.
compile_library() {
    python3 "$top/tests/harness.py" "$1" "$work"
}

# executable: the path of the program itself, and not of the script that finds it.
executable() {
    [ -n "${CMCACHE:-}" ] && { echo "$CMCACHE"; return; }
    find_program cmcache
}

finish() {
    echo "$passed passed, $failed failed"
    [ "$failed" = 0 ]
}
