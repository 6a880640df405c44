#!/usr/bin/env bash
# Caches in files: what `format` and `apply FILE` reply, the statuses they end with, and what the
# file holds then. The replies and the bytes of each file are those of tests/oracle.py and
# tests/region.py, which share no code with the program. Needs Python 3; if root doesn't run it,
# files without permission are the caller's own.
set -u
cd "$(dirname "$0")/.." || exit 1
. tests/lib.sh


# expect: the replies to the lines of $work/in after those of $work/before, on one file.
expect() {
    touch "$work/before"
    cat "$work/before" "$work/in" >"$work/all"
    python3 tests/oracle.py <"$work/all" | tail -n +$(($(wc -l <"$work/before") + 1)) >"$work/want"
    cp "$work/all" "$work/before"
}

# check_file NAME FILE: the file has the bytes that a new one has after the lines of $work/before.
check_file() {
    python3 tests/region.py after <"$work/before" | cmp -s - "$2"
    check_last "$1"
}

# check_says NAME STATUS WORDS [PATH]: the words are all of standard output. With a path standard
# error names it, once; without one it is empty.
check_says() {
    printf '%s\n' "$3" >"$work/want"
    check "$1" "$2"
    if [ -n "${4:-}" ]; then
        [ "$(wc -l <"$work/errors")" = 1 ] && grep -qF "cmcache: $4: " "$work/errors"
    else
        [ ! -s "$work/errors" ]
    fi
    check_last "$1: what standard error says"
}

# check_size NAME FILE BYTES
check_size() {
    local size
    size=$(stat -c %s "$2")
    [ "$size" = "$3" ]
    check_last "$1: $size bytes"
}

# ---- a file is made, and each run continues with it

cache=$work/cache
: >"$work/in"
run format "$cache"
check_says "a new file" 0 ok
check_size "a new file" "$cache" 528384
python3 tests/region.py new 8 64 4096 | cmp -s - "$cache"
check_last "the bytes of a new file"
run format "$cache"
check_says "a file that exists" 1 exists
check_size "a file that exists" "$cache" 528384

expect
run apply "$cache"
check "an empty script on a file" 0
check_file "an empty script changes nothing" "$cache"

cp examples/first.txt "$work/in"
expect
run apply "$cache"
check "the first example on a file" 0
check_size "a first class brings a root" "$cache" 790528
check_file "the bytes after the first example" "$cache"
printf 'ok 1\nok 2 A\nclass A flags 0021 super java/lang/Object words 16\n' | cmp -s - "$work/got"
check_last "the first example's replies"

cp examples/again.txt "$work/in"
expect
run apply "$cache"
check "the second example, where the first ended" 0
check_file "the bytes after the second example" "$cache"

run apply "$cache"
expect
check "the second example once more" 1
check_file "the bytes after that" "$cache"

{
    printf 'loader a\nfind a A\ndefine a %s\nunload a\nfind a A\nunload a\n' "$class_a"
    printf 'loader a\ndefine a %s\nfind a A\n' "$(padded A 0)"
    printf 'unload\nunload a b\nunload \nunload a\xff\n'
    printf 'unload 0123456789012345678901234567890123456789012345678\n'
} >"$work/in"
expect
run apply "$cache"
check "a loader is unloaded and made again" 1
check_file "the bytes after that" "$cache"
printf 'find a A\nfind nobody A\n' >"$work/in"
expect
run apply "$cache"
check "the class of the loader that was made again" 0
grep -q 'words 20$' "$work/got"
check_last "the class of the loader that was made again: 20 words"
check_file "looking up changes nothing" "$cache"

# ---- a file gives roots back

trimmed=$work/trimmed
: >"$work/in"
run format "$trimmed"
printf 'loader a\ndefine a %s\n' "$class_a" >"$work/in"
run apply "$trimmed"
check_size "a first class" "$trimmed" 790528
run trim "$trimmed"
check_says "a root that is in use stays" 0 "roots 1"
check_size "a root that is in use" "$trimmed" 790528
printf 'unload a\n' >"$work/in"
run apply "$trimmed"
check_size "a loader that is gone leaves its root" "$trimmed" 790528
run trim "$trimmed"
check_says "a root that is not in use goes" 0 "roots 0"
check_size "a file without roots" "$trimmed" 528384
run check "$trimmed"
check_says "a trimmed file" 0 "ok loaders 0 classes 0 chunks 0 number 3"
printf 'loader b\ndefine b %s\n' "$class_a" >"$work/in"
run apply "$trimmed"
check_size "a class after a trim" "$trimmed" 790528
run check "$trimmed"
check_says "a class after a trim" 0 "ok loaders 1 classes 1 chunks 1 number 5"
: >"$work/in"
printf 'no cache' >"$work/none"
run trim "$work/none"
check_says "no cache to trim" 1 "not a cache"
run trim "$work/missing"
check_says "no file to trim" 3 device "$work/missing"

# ---- a loader's last chunk moves

tight=$work/tight
: >"$work/in"
run format "$tight"
printf 'loader a\ndefine a %s\ndefine a %s\n' "$(padded A 0)" "$(padded B 864)" >"$work/in"
cp "$work/in" "$work/moves"
run apply "$tight"
printf '%s\n' 'ok 1' 'ok 2 A' 'ok 3 B' >"$work/want"
check "two classes of a loader" 0
run list "$tight"
printf '%s\n' 'loader a' 'class A words 20 root 0 at 0' 'class B words 128 root 0 at 256' \
    >"$work/want"
check "the second lies in a chunk of 256 words" 0
printf 'tighten a\ntighten a\ntighten b\ntighten\ntighten \xff\n' >"$work/in"
cat "$work/in" >>"$work/moves"
run apply "$tight"
printf '%s\n' 'ok 4' 'refused 8 no move' 'refused 3 no loader' 'refused 15 line' \
    'refused 1 name' >"$work/want"
check "its record moves" 1
python3 tests/region.py after <"$work/moves" | cmp -s - "$tight"
check_last "the bytes after a move"
run list "$tight"
printf '%s\n' 'loader a' 'class A words 20 root 0 at 0' 'class B words 128 root 0 at 128' \
    >"$work/want"
check "it lies in a chunk of 128 words" 0
run check "$tight"
check_says "a file with a move" 0 "ok loaders 1 classes 2 chunks 2 number 4"

# A class in the second root moves into the first, where a loader left one; then a trim gives the
# second back.
rm "$tight"
: >"$work/in"
run format "$tight" --top 3 --roots 4 --slots 256
{
    printf 'loader a\ndefine a %s\n' "$(padded A 8032)"
    printf 'loader b\ndefine b %s\n' "$(padded B 0)"
    printf '%s\n' 'tighten b' 'unload a' 'tighten b' 'find b B'
} >"$work/in"
printf '%s\n' 'ok 1' 'ok 2 A' 'ok 3' 'ok 4 B' 'refused 8 no move' 'ok 5' 'ok 6' \
    'class B flags 0021 super java/lang/Object words 20' >"$work/want"
run apply "$tight"
check "a class moves into another root" 1
check_size "two roots" "$tight" 53248
run trim "$tight"
check_says "the second root goes" 0 "roots 1"
check_size "one root" "$tight" 45056
printf 'find b B\n' >"$work/in"
printf 'class B flags 0021 super java/lang/Object words 20\n' >"$work/want"
run apply "$tight"
check "the class is found" 0
printf 'loader b\nclass B words 20 root 0 at 0\n' >"$work/want"
run list "$tight"
check "the class lies in the first root" 0

# ---- sizes

small=$work/small
: >"$work/in"
run format "$small" --top 3 --roots 1 --slots 256
check_says "a small file" 0 ok
python3 tests/region.py new 3 1 256 | cmp -s - "$small"
check_last "the bytes of a small file"
printf 'loader a\ndefine a %s\nloader b\ndefine b %s\nunload a\ndefine b %s\nfind b B\n' \
    "$(padded A 8032)" "$(padded B 0)" "$(padded B 0)" >"$work/in"
printf '%s\n' 'ok 1' 'ok 2 A' 'ok 3' 'refused 6 region full' 'ok 4' 'ok 5 B' \
    'class B flags 0021 super java/lang/Object words 20' >"$work/want"
run apply "$small"
check "an unloaded loader's room is used again" 1

rm "$small"
: >"$work/in"
run format --slots 256 --roots 64 --top 3 "$small"
utf8=$(printf '61%.0s' $(seq 65535))
{
    printf 'loader a\ndefine a %s\ndefine a %s\ndefine a %s\ndefine a %s\n' \
        "$(padded A 864)" "$(padded B 865)" "$(padded C 8032)" "$(padded D 8033)"
    long=${class_a/00340005/00340006} # its name is E
    long=${long/01000141/01000145}
    printf 'define a %s\n' "${long/4f626a656374/4f626a65637401ffff$utf8}"
} >"$work/in"
printf '%s\n' 'ok 1' 'ok 2 A' 'ok 3 B' 'ok 4 C' \
    'refused 5 record too long' 'refused 5 record too long' >"$work/want"
run apply "$small"
check "records that no root holds" 1
sed 1d "$work/in" >"$work/rest" && sed 's/ a / b /; 1i loader b' "$work/rest" >"$work/in"
printf '%s\n' 'ok 5' 'ok 6 A' 'ok 7 B' 'ok 8 C' \
    'refused 5 record too long' 'refused 5 record too long' >"$work/want"
run apply "$small"
check "and in another run" 1

rm "$small"
: >"$work/in"
run format "$small"
printf 'loader a\ndefine a %s\ndefine a %s\nfind a A\n' \
    "$(padded A 261984)" "$(padded B 261985)" >"$work/in"
printf 'ok 1\nok 2 A\nrefused 5 record too long\n' >"$work/want"
echo 'class A flags 0021 super java/lang/Object words 32768' >>"$work/want"
run apply "$small"
check "a record that fills a root of the usual size, and one of a word more" 1

rm "$small"
: >"$work/in"
run format "$small" --slots=256
for i in $(seq 128); do echo "loader l$i"; done >"$work/in"
for i in $(seq 128); do echo "ok $i"; done >"$work/want"
run apply "$small"
check "128 loaders, more than the first half has slots for" 0
printf 'loader l129\nunload l1\nfind l1 A\nloader l2\nloader l1\nloader l129\n' >"$work/in"
printf '%s\n' 'refused 7 journal full' 'ok 129' none 'refused 2 loader exists' 'ok 130' \
    'refused 7 journal full' >"$work/want"
run apply "$small"
check "as many may live, and no more" 1

# ---- groups whose gate isn't open

cp examples/first.txt "$work/in"
for gate in A4 00 FF A5; do
    rm -f "$small"
    python3 tests/region.py after <"$work/in" >"$small"
    put "$small" $((4096 + 64 * 3)) "\x$gate"
    printf 'find app A\nloader app\n' >"$work/in2"
    if [ $gate = A5 ]; then
        printf '%s\n' 'class A flags 0021 super java/lang/Object words 16' \
            'refused 2 loader exists' >"$work/want"
    else
        printf 'none\nrefused 2 loader exists\n' >"$work/want"
    fi
    "$program" apply "$small" <"$work/in2" >"$work/got" 2>"$work/errors"
    status=$?
    check "a gate that is $gate" 1
done

# ---- files of version 1 are upgraded

older() { # FILE: a file of two loaders and three classes, whose half is of the version before
    printf 'loader a\ndefine a %s\nloader b\ndefine a %s\ndefine b %s\nunload b\n' "$class_a" \
        "$(padded B 0)" "$class_a" | python3 tests/region.py after >"$1"
    put "$1" 4098 '\x01'
}
older "$work/older"
python3 tests/region.py opened "$work/older" >"$work/moved"
printf 'find a A\nfind a B\nfind b A\n' >"$work/in"
printf '%s\n' 'class A flags 0021 super java/lang/Object words 16' \
    'class B flags 0021 super java/lang/Object words 20' none >"$work/want"
cp "$work/older" "$work/kept"
"$program" check "$work/older" >"$work/got"
[ "$(cat "$work/got")" = "ok loaders 1 classes 2 chunks 1 number 6" ]
check_last "an older file is checked"
cmp -s "$work/older" "$work/kept"
check_last "checking leaves it as it is"
run apply "$work/older"
check "an older file is upgraded" 0
cmp -s "$work/older" "$work/moved"
check_last "by a script: its bytes"
for how in list trim; do
    cp "$work/kept" "$work/older"
    run "$how" "$work/older"
    [ "$status" = 0 ] && cmp -s "$work/older" "$work/moved"
    check_last "by $how: its bytes"
done
# Files that the program made when it wrote version 1: one with moves, one whose half 1 counts, and
# one with as many rows as may live.
for kind in moves second full; do
    gzip -d -c "tests/data/older_$kind.gz" >"$work/older"
    python3 tests/region.py opened "$work/older" >"$work/moved"
    python3 tests/region.py list "$work/older" >"$work/want"
    run list "$work/older"
    check "an older file: $kind" 0
    cmp -s "$work/older" "$work/moved"
    check_last "an older file: $kind: its bytes"
    run list "$work/older"
    check "an older file: $kind: once more" 0
done
printf 'loader last\nunload g0\nloader last\n' >"$work/in"
printf '%s\n' 'refused 7 journal full' 'ok 129' 'ok 130' >"$work/want"
run apply "$work/older"
check "a full file of version 1 is used further" 1

python3 tests/region.py opened "$work/moved" >"$work/older"
chmod a-w "$work/older"
run list "$work/older"
[ "$status" = 0 ]
check_last "what is upgraded is listed without a right to write"

# ---- names that take two slots of the journal

long=$work/long
: >"$work/in"
run format "$long" --top 3 --roots 1 --slots 256
{
    for at in $(seq 10 73); do
        printf 'loader %s%s\n' "$(name l 94)" "$at"
    done
    printf 'loader a\nloader %s\nunload %s10\nloader a\n' "$(name m 97)" "$(name l 94)"
    printf 'loader %s\nloader %s\nloader b\n' "$(name m 49)" "$(name m 48)"
} >"$work/in"
run apply "$long"
{
    printf 'ok %s\n' $(seq 64)
    printf '%s\n' 'refused 7 journal full' 'refused 1 name' 'ok 65' 'ok 66' \
        'refused 7 journal full' 'ok 67' 'refused 7 journal full'
} >"$work/want"
check "64 loaders of 96 bytes, and no room for a name of one" 1
run check "$long"
check_says "a file of long names" 0 "ok loaders 65 classes 0 chunks 0 number 67"
[ "$(python3 tests/region.py check "$long")" = "$(cat "$work/got")" ]
check_last "a file of long names: the verdict"
python3 tests/region.py list "$long" >"$work/list"

# Groups up to the half's end and beyond: half 1 counts then, after a checkpoint.
for at in $(seq 40); do printf 'unload a\nloader a\n'; done >"$work/in"
run apply "$long"
printf 'ok %s\n' $(seq 68 147) >"$work/want"
check "a checkpoint with long names" 0
cp "$work/list" "$work/want"
run list "$long"
check "a checkpoint with long names: the list" 0
[ "$(od -An -tu1 -j $((4096 + 64 * 256)) -N 5 "$long" | tr -s ' ')" = " 165 1 2 0 128" ]
check_last "a checkpoint with long names: half 1 counts slots"
[ "$(python3 tests/region.py list "$long" | cmp - "$work/list")" = "" ]
check_last "a checkpoint with long names: the file"

: >"$work/in"
# spoiled NAME WORDS OFFSET BYTES: a file of two names of 49 bytes and one of one, with bytes
# changed.
spoiled() {
    printf 'loader %s\nloader %s\nloader a\n' "$(name m 49)" "$(name n 49)" |
        python3 tests/region.py after >"$work/spoiled"
    put "$work/spoiled" "$3" "$4"
    run check "$work/spoiled"
    check_says "$1" 1 "$2"
    [ "$(python3 tests/region.py check "$work/spoiled")" = "$2" ]
    check_last "$1: the verdict"
}
# Slots 1 to 3 are a head, a loader and its continuation slot; so are 4 to 6; 7 and 8 are a head and
# a loader.
spoiled "a name without its continuation slot" "damaged 5 2" $((4096 + 64 * 3 + 1)) '\x13'
spoiled "a continuation slot of another kind" "damaged 5 2" $((4096 + 64 * 3 + 1)) '\x11'
spoiled "a continuation slot that isn't zeros" "damaged 5 2" $((4096 + 64 * 3 + 17)) 'm'
spoiled "a continuation slot with another first byte" "damaged 5 2" $((4096 + 64 * 3)) '\x01'
spoiled "a continuation slot after a name of 48 bytes" "damaged 5 3" $((4096 + 64 * 2 + 2)) '\x30'
spoiled "a space in the first slot" "damaged 6 2" $((4096 + 64 * 2 + 16)) ' '
spoiled "a space in the continuation slot" "damaged 6 2" $((4096 + 64 * 3 + 16)) ' '
spoiled "7F in the continuation slot" "damaged 6 5" $((4096 + 64 * 6 + 16)) '\x7f'
spoiled "a continuation slot of its own" "damaged 5 8" $((4096 + 64 * 8 + 1)) '\x16'
spoiled "a group that ends before the continuation slot" "damaged 5 2" $((4096 + 64 + 2)) '\x01'
spoiled "a name of 97 bytes" "damaged 5 5" $((4096 + 64 * 5 + 2)) 'a'
python3 tests/region.py new 8 64 4096 >"$work/older"
put "$work/older" 4098 '\x01'
printf 'loader app\n' | python3 tests/region.py after >"$work/moved"
tail -c +$((4096 + 64 + 1)) "$work/moved" |
    dd of="$work/older" bs=64 seek=65 conv=notrunc status=none
put "$work/older" $((4096 + 64 * 2 + 2)) 1
run check "$work/older"
check_says "a name of 49 bytes in a file of version 1" 1 "damaged 5 2"
[ "$(python3 tests/region.py check "$work/older")" = "damaged 5 2" ]
check_last "a name of 49 bytes in a file of version 1: the verdict"

# ---- what isn't opened

: >"$work/in"
damaged() { # NAME WORDS STATUS OFFSET BYTES..: a good file with bytes changed
    printf 'loader a\ndefine a %s\ndefine a %s\n' "$class_a" "$(padded B 0)" |
        python3 tests/region.py after >"$work/damaged"
    put "$work/damaged" "$4" "$5"
    cp "$work/damaged" "$work/kept"
    run apply "$work/damaged"
    check_says "$1" "$3" "$2"
    cmp -s "$work/damaged" "$work/kept"
    check_last "$1: the file stays"
    [ "$(python3 tests/region.py check "$work/damaged")" = "$2" ]
    check_last "$1: the verdict"
}
damaged "an offset that isn't the next" "damaged 7 6" 1 $((4096 + 64 * 6 + 28)) '\x0f'
damaged "a record that is no class's" "damaged 8 4" 1 $((528384 + 8 * 9)) '\x02'
damaged "another version" "damaged 1 0" 1 8 '\x02'
damaged "no half is open" "damaged 3 0" 1 4096 '\x00'
damaged "a bad half's head" "damaged 4 4096" 1 $((4096 + 64 * 4096)) '\xa5'
damaged "a bad group's head" "damaged 4 5" 1 $((4096 + 64 * 5 + 8)) '\x04'
damaged "a slot that is no entry" "damaged 5 2" 1 $((4096 + 64 * 2 + 1)) '\x15'
damaged "a loader's number" "damaged 6 2" 1 $((4096 + 64 * 2 + 8)) '\x02'
damaged "another magic" "not a cache" 1 0 'X'
damaged "a superblock's gate" "not a cache" 1 4095 '\x00'

printf 'loader a\ndefine a %s\n' "$class_a" | python3 tests/region.py after >"$work/damaged"
truncate -s 528383 "$work/damaged"
run apply "$work/damaged"
check_says "a file that ends in its halves" 1 "damaged 2 0"
truncate -s 4095 "$work/damaged"
run apply "$work/damaged"
check_says "a file of 4,095 bytes" 1 "not a cache"
: >"$work/empty"
run apply "$work/empty"
check_says "an empty file" 1 "not a cache"
head -c 528384 /dev/zero >"$work/zeros"
run apply "$work/zeros"
check_says "a file of zeros" 1 "not a cache"
head -c 528384 /dev/zero | cmp -s - "$work/zeros"
check_last "a file of zeros stays"

run apply "$work/nothing"
check_says "a missing path" 3 device "$work/nothing"
run apply "$work/empty/below"
check_says "a path below a file" 3 device "$work/empty/below"
mkdir "$work/folder"
run apply "$work/folder"
check_says "a folder" 3 device "$work/folder"
mkfifo "$work/fifo"
timeout 10 "$program" apply "$work/fifo" <"$work/in" >"$work/got" 2>"$work/errors"
status=$?
check_says "a FIFO" 3 device "$work/fifo"
run format "$work/folder"
check_says "format on a folder" 1 exists
run format "$work/folder/"
check_says "format on a folder, with a slash" 1 exists
run format "$work/fifo"
check_says "format on a FIFO" 1 exists
ln -s "$work/nothing" "$work/dangling"
run format "$work/dangling"
check_says "format on a link that leads nowhere" 1 exists
run format "$work/missing/cache"
check_says "format in a missing folder" 3 device "$work/missing/cache"
run format "$work/missing/"
check_says "format on a missing folder, with a slash" 3 device "$work/missing/"
run format "$work/empty/cache"
check_says "format below a file" 3 device "$work/empty/cache"
[ ! -e "$work/nothing" ] && [ ! -e "$work/missing" ]
check_last "nothing was made"
ln -s "$cache" "$work/linked"
printf 'find a A\n' >"$work/in"
run apply "$work/linked"
printf 'class A flags 0021 super java/lang/Object words 20\n' >"$work/want"
check "a link to a cache" 0

# A file that the caller may not read, one that he may only read, and a folder that he may not
# write to.
mine=$work/mine
mkdir "$mine" "$mine/closed"
cp "$(executable)" "$mine/cmcache"
cp "$cache" "$mine/unreadable"
cp "$cache" "$mine/unwritable"
chmod 0000 "$mine/unreadable"
chmod 0444 "$mine/unwritable"
chmod 0555 "$mine/closed"
chmod 0755 "$work" "$mine" "$mine/cmcache"
as_nobody() {
    local plain=()
    if [ "$(id -u)" = 0 ]; then
        plain=(setpriv --reuid=65534 --regid=65534 --clear-groups)
    fi
    "${plain[@]}" "$mine/cmcache" "$@" <"$work/in" >"$work/got" 2>"$work/errors"
    status=$?
}
as_nobody apply "$mine/unreadable"
check_says "a file without permission" 3 device "$mine/unreadable"
as_nobody apply "$mine/unwritable"
check_says "a file that may only be read" 3 device "$mine/unwritable"
as_nobody format "$mine/closed/cache"
check_says "format in a folder without permission" 3 device "$mine/closed/cache"

# ---- check and list of what isn't a cache, or isn't the caller's

python3 tests/region.py check "$cache" >"$work/report"
python3 tests/region.py list "$cache" >"$work/list"
for verb in check list; do
    run $verb "$work/empty"
    check_says "$verb of an empty file" 1 "not a cache"
    run $verb "$work/zeros"
    check_says "$verb of a file of zeros" 1 "not a cache"
    run $verb "$work/nothing"
    check_says "$verb of a missing path" 3 device "$work/nothing"
    run $verb "$work/folder"
    check_says "$verb of a folder" 3 device "$work/folder"
    timeout 10 "$program" $verb "$work/fifo" <"$work/in" >"$work/got" 2>"$work/errors"
    status=$?
    check_says "$verb of a FIFO" 3 device "$work/fifo"
    as_nobody $verb "$mine/unreadable"
    check_says "$verb of a file without permission" 3 device "$mine/unreadable"
    # Neither needs the right to write.
    as_nobody $verb "$mine/unwritable"
    if [ $verb = check ]; then cp "$work/report" "$work/want"; else cp "$work/list" "$work/want"; fi
    check "$verb of a file that may only be read" 0
done

# ---- streams that are closed: nothing that was meant for them lands in the file

printf 'loader c\nloader d\n' >"$work/in"
cp "$cache" "$work/kept"
"$program" apply "$cache" <&- >"$work/got" 2>"$work/errors"
status=$?
check_status "standard input closed" 3 says
check_streams "standard input closed: no reply" none some
"$program" apply "$cache" <&- >&- 2>&-
status=$?
check_status "all streams closed" 3
cmp -s "$cache" "$work/kept"
check_last "closed streams leave the file as it was"
"$program" apply "$cache" <"$work/in" >&- 2>"$work/errors"
status=$?
check_status "standard output closed" 3 says
echo 'loader c' >>"$work/before"
check_file "standard output closed: the first command is stored, and no other" "$cache"
printf 'loader c\n' >"$work/again"
"$program" apply "$cache" <"$work/again" >"$work/got" 2>&-
status=$?
echo 'refused 2 loader exists' >"$work/want"
check "standard error closed: a line is refused" 1
check_file "standard error closed: the file is as it was" "$cache"
"$program" format "$work/unheard" <"$work/in" >&- 2>"$work/errors"
status=$?
check_status "format with a closed output" 3 says
"$program" format "$work/silent" <&- >&- 2>&-
status=$?
check_status "format with all streams closed" 3
python3 tests/region.py new 8 64 4096 >"$work/due"
cmp -s "$work/due" "$work/unheard" && cmp -s "$work/due" "$work/silent"
check_last "the files are made all the same"
"$program" apply "$cache" </ >"$work/got" 2>"$work/errors"
status=$?
check_status "a folder as input" 3 says

# ---- words

for words in format "format $work/new $work/other" "format $work/new --top 2" \
    "format $work/new --top 13" "format $work/new --top x" "format $work/new --top" \
    "format $work/new --roots 0" "format $work/new --roots 257" \
    "format $work/new --slots 255" "format $work/new --slots 65537" "format $work/new --slots -1" \
    "format $work/new --slots 1e3" "format $work/new --slots 18446744073709551872" \
    "format $work/new --memory" "format $work/new --top 3 --top 3" \
    apply "apply $cache --memory" "apply $cache $work/other" "apply $cache --top 3" "check" "list" \
    "check $cache $cache" "list $cache --memory" "forma $work/new" "$cache"; do
    # shellcheck disable=SC2086
    run $words
    check_status "words: $words" 2 says
    check_streams "words: $words" none some
done
run format $'\xff'
check_status "a path that isn't UTF-8" 2 says
[ ! -e "$work/new" ] && [ ! -e "$work/other" ]
check_last "wrong arguments make no file"
for words in --help help "format --help" "apply --help" "check --help" "list --help" \
    "help format"; do
    # shellcheck disable=SC2086
    run $words
    check_status "help: $words" 0
    check_streams "help: $words" some none
done
run apply --help
grep -q 'unload NAME' "$work/got" && grep -q 'tighten NAME' "$work/got"
check_last "the help names each line"

# ---- a file in the narrow form, where each class has a root of its own

# A program made it that kept caches only in memory: it is what its disk held after the lines of
# narrow.txt.
narrow=$work/narrow
gzip -dc tests/data/narrow.gz >"$narrow"
cp tests/data/narrow.txt "$work/before"
{
    printf '%s\n' 'find app A' 'find ext A' 'find ext %C3%A9' \
        'find app org/eclipse/jetty/io/ByteArrayEndPoint' 'find empty A'
    printf 'loader empty\ndefine app %s\nloader new\ndefine new %s\n' "$class_a" "$class_a"
    printf '%s\n' 'unload app' 'find app A' 'find new A'
} >"$work/in"
expect
run apply "$narrow"
check "a file in the narrow form" 1
grep -q 'ByteArrayEndPoint flags .* words 2056$' "$work/got"
check_last "a file in the narrow form: its largest class"
[ "$(python3 tests/region.py check "$narrow")" = "ok loaders 3 classes 3 chunks 3 number 10" ]
check_last "a file in the narrow form: what it holds then"
printf 'find ext %%C3%%A9\nfind new A\nfind app A\nunload ext\n' >"$work/in"
expect
run apply "$narrow"
check "a file in the narrow form, opened again" 0

finish
