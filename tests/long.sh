#!/usr/bin/env bash
# Files that are far longer than their caches: what lies after the last root that the sizes allow
# is ignored and isn't read, so a file's length doesn't decide how much memory is taken. Each file
# is sparse and has 64 GiB; the program has 256 MiB of memory.
set -u
cd "$(dirname "$0")/.." || exit 1
. tests/lib.sh

built=$(executable)
memory=262144 # KiB
length=68719476736

b=${class_a/01000141/01000142}

# limited WORD..: the program on $work/in, with that much memory.
limited() {
    (ulimit -v "$memory" && exec "$built" "$@") <"$work/in" >"$work/got" 2>"$work/errors"
    status=$?
}

# same NAME WORD: the program replies the same for the long file as for the short one.
same() {
    limited "$2" "$work/short"
    cp "$work/got" "$work/want"
    local wanted=$status
    limited "$2" "$work/long"
    check "$1" "$wanted"
}

# lengthen: the long file is the short one with zeros up to its length.
lengthen() {
    cp "$work/short" "$work/long"
    truncate -s "$length" "$work/long"
}

# ---- a cache, with a class and a loader that was unloaded

: >"$work/in"
limited format "$work/short"
printf 'ok\n' >"$work/want"
check "a file is made" 0
printf 'loader a\ndefine a %s\nloader b\ndefine b %s\nunload b\n' "$class_a" "$b" >"$work/in"
limited apply "$work/short"
printf 'ok 1\nok 2 A\nok 3\nok 4 B\nok 5\n' >"$work/want"
check "a script on the short file" 0
: >"$work/in"
lengthen
same "check" check
same "list" list
[ "$(stat -c %s "$work/long")" = "$length" ]
check_last "looking at the long file leaves its length"

# ---- the same script on both

printf 'find a A\nloader b\ndefine b %s\nfind b B\nunload a\nfind a A\n' "$b" >"$work/in"
printf 'tighten b\nfind b B\n' >>"$work/in"
same "apply" apply
[ "$(sed -n 7p "$work/got")" = "ok 9" ]
check_last "a class moves on the long file"
[ "$(stat -c %s "$work/long")" = "$length" ]
check_last "a script leaves the length of the long file"
head -c "$(stat -c %s "$work/short")" "$work/long" | cmp -s - "$work/short"
check_last "a script writes the same to both files"
: >"$work/in"
same "check after the script" check
same "list after the script" list

# ---- files that are no cache or damaged, however long

printf 'CMCACHE1' >"$work/short"
truncate -s 4096 "$work/short"
lengthen
same "check of what is no cache" check
same "list of what is no cache" list
same "apply to what is no cache" apply
: >"$work/short"
truncate -s 4096 "$work/short"
lengthen
same "check of zeros" check

limited format "$work/damaged"
cp "$work/damaged" "$work/short"
put "$work/short" 4100 '\xff'
lengthen
same "check of a damaged head" check
same "apply to a damaged head" apply

# ---- nor do the sizes decide it: what lives does

: >"$work/in"
rm "$work/short"
limited format "$work/short" --top 12 --roots 256 --slots 65536
printf 'ok\n' >"$work/want"
check "a file of the largest region is made" 0
lengthen
same "check of the largest region" check
same "list of the largest region" list
printf 'loader a\ndefine a %s\nfind a A\n' "$class_a" >"$work/in"
same "apply to the largest region" apply
[ "$(sed -n 2p "$work/got")" = "ok 2 A" ]
check_last "a class is defined in the largest region"

finish
