#!/usr/bin/env bash
# The command line and the program's edges: usage errors, help, failing inputs and outputs, and
# their statuses. Needs /dev/full (Linux) and Python 3.
set -u
. "$(dirname "$0")/lib.sh"

: >"$work/in"
run apply
check_status "neither FILE nor --memory" 2 says
run apply --memory file
check_status "both FILE and --memory" 2 says
run
check_status "no words" 2 says
run nonsense
check_status "an unknown command" 2 says
run --help
check_status "--help" 0
check_streams "the help is on standard output" some none
run apply --help
check_status "apply --help" 0
check_streams "the help is on standard output" some none

run $'apply\xff'
check_status "a word that isn't UTF-8" 2 says
grep -q '^Usage' "$work/errors"
check_last "a word that isn't UTF-8: the usage text is printed"

# output_failed CASE: the last run ended with 3, and reported that the output failed.
output_failed() {
    check_status "$1" 3
    grep -qx 'cmcache: the output failed' "$work/errors"
    check_last "$1: it says that the output failed"
}
"$program" --help >/dev/full 2>"$work/errors"
status=$?
output_failed "help into a full device"
"$program" --help >&- 2>"$work/errors"
status=$?
output_failed "help into a closed output"
"$program" nonsense >"$work/got" 2>/dev/full
status=$?
check_status "a usage error with a full standard error" 2
"$program" nonsense >"$work/got" 2>&-
status=$?
check_status "a usage error with a closed standard error" 2

# Help can be asked for before and after a command; it is no error.
for words in -h "format new --help" "apply -h"; do
    # shellcheck disable=SC2086
    run $words
    check_status "help: $words" 0
    check_streams "help: $words" some none
done

# Numbers are whole, within their limits, and nothing else; an error names the option. For words
# without a place the usage text is printed.
mkdir "$work/folder"
cd "$work/folder" || exit 1
# wrong_words TEXT WORD..: the words are a usage error, and standard error has the text.
wrong_words() {
    run "${@:2}"
    check_status "usage error: ${*:2}" 2 says
    grep -qF -e "$1" "$work/errors"
    check_last "usage error: ${*:2}: \"$1\" is printed"
}
for number in 8.0 eight "" " 8" 4294967304 18446744073709551624; do
    wrong_words "--top <N>" format new --top "$number"
    wrong_words "--roots <N>" format new --roots "$number"
done
wrong_words "--slots <N>" format new --slots 4294967552
for number in 0 17 2.0 two "" " 2" 4294967297; do
    wrong_words "--workers" apply --memory --workers "$number"
done
wrong_words "--workers" apply --memory --workers
for words in "format new --top -8" "apply --memory --workers -1" --version "check -a" \
    "list new --top 8"; do
    # shellcheck disable=SC2086
    wrong_words "Usage: cmcache" $words
done
[ -z "$(ls -A)" ]
check_last "usage errors make no file"

# A path is the word in its place, whatever it looks like; after `--` also an option's name.
mkdir folder
run format folder/a
check_status "a path with a folder" 0
run check folder/a
check_status "check: a path with a folder" 0
run format list
check_status "a path that is a command's name" 0
run list list
check_status "list: a path that is a command's name" 0
run format --top 3 -- -a
check_status "a path that begins with -" 0
run check -- -a
check_status "check: a path that begins with -" 0
run format -- --memory
check_status "a path that is an option's name" 0
echo "loader app" >"$work/in"
echo "ok 1" >"$work/want"
run apply -- --memory
check "apply -- --memory: the file" 0
run apply --memory
check "apply --memory: no file" 0
run apply --memory
check "apply --memory: nothing is kept" 0
echo "refused 2 loader exists" >"$work/want"
run apply -- --memory
check "apply -- --memory: the file keeps it" 1

# Options stand on either side of the path.
: >"$work/in"
run format --top 3 small --roots=1 --slots 256
check_status "options on both sides" 0
python3 "$top/tests/region.py" new 3 1 256 | cmp -s - small
check_last "options on both sides: the file's sizes"
run format large --slots 65536 --roots 256 --top=12
check_status "the greatest sizes" 0
python3 "$top/tests/region.py" new 12 256 65536 | cmp -s - large
check_last "the greatest sizes: the file's sizes"
cd "$top" || exit 1

printf 'loader app\nfind app A\n' >"$work/in"
"$program" apply --memory <"$work/in" >/dev/full 2>"$work/errors"
status=$?
check_status "replies into a full device" 3 says
"$program" apply --memory <"$work/in" >&- 2>"$work/errors"
status=$?
check_status "replies into a closed output" 3 says
"$program" apply --memory <&- >"$work/got" 2>"$work/errors"
status=$?
check_status "a closed input" 3 says
"$program" apply --memory </ >"$work/got" 2>"$work/errors"
status=$?
check_status "a folder as input" 3 says

# The program is found through a link, from another folder.
ln -s "$program" "$work/link"
printf 'ok 1\nnone\n' >"$work/want"
(cd / && "$work/link" apply --memory) <"$work/in" >"$work/got" 2>"$work/errors"
status=$?
check "through a link" 0

# The converter of class files ends with one line on what it can't read or write, which names it.
converter=$top/examples/define_lines.py
convert() {
    "$converter" "$@" >"$work/got" 2>"$work/errors"
    status=$?
}
# told CASE NAME: the converter ended with status 1, and with one line, which begins with the name.
told() {
    check_status "define_lines.py: $1" 1
    [ "$(wc -l <"$work/errors")" = 1 ] && [[ $(<"$work/errors") == "define_lines.py: $2: "* ]]
    check_last "define_lines.py: $1: one line reports it"
}
# jar NAME METHOD [PLACE BITS]..: a jar of one class, stored (0) or deflated (8), in which these
# bits of the bytes at these places are flipped. Its file header begins at 0, the class's bytes at
# 37, and its entry in the directory at -75.
jar() {
    python3 - "$work/$1.jar" "${@:2}" <<'END'
import sys, zipfile
path, method, *turned = sys.argv[1:]
with zipfile.ZipFile(path, "w", int(method)) as jar:
    jar.writestr("A.class", bytes.fromhex("cafebabe") + bytes(40))
with open(path, "r+b") as file:
    made = bytearray(file.read())
    for place, bits in zip(turned[::2], turned[1::2]):
        made[int(place)] ^= int(bits)
    file.seek(0)
    file.write(made)
END
}
jar good 8
printf 'loader app\ndefine app cafebabe%080d\n' 0 >"$work/want"
convert app "$work/good.jar"
check "define_lines.py: a jar" 0
convert app "$work/nothing.class"
told "a missing path" "$work/nothing.class"
convert app "$work/good.jar" "$work/nothing.class" "$work/good.jar"
told "a missing path among others" "$work/nothing.class"
echo "no jar" >"$work/bad.jar"
convert app "$work/bad.jar"
told "a bad jar" "$work/bad.jar"
jar deflated 8 37 4
convert app "$work/deflated.jar"
told "a flipped bit in a deflated class" "$work/deflated.jar!A.class"
jar stored 0 50 1
convert app "$work/good.jar" "$work/stored.jar"
told "a flipped bit in a stored class" "$work/stored.jar!A.class"
jar encrypted 0 6 1 -67 1
convert app "$work/encrypted.jar"
told "an encrypted class" "$work/encrypted.jar!A.class"
jar unknown 0 8 99 -65 99
convert app "$work/unknown.jar"
told "a class that is compressed in an unknown way" "$work/unknown.jar!A.class"
echo "no class" >"$work/bad.class"
convert app "$work/bad.class"
told "no class" "$work/bad.class"
"$converter" app "$work/good.jar" >/dev/full 2>"$work/errors"
status=$?
told "a full output" "standard output"
"$converter" app "$work/nothing.class" >/dev/full 2>"$work/errors"
status=$?
told "a full output and a missing path" "standard output"
"$converter" app "$work/good.jar" >&- 2>"$work/errors"
status=$?
told "a closed output" "standard output"
convert "my app" "$work/bad.class"
check_status "define_lines.py: a loader's name with a space" 2 says
convert app
check_status "define_lines.py: no path" 2 says
mkdir "$work/many"
for i in $(seq 3000); do printf '\xca\xfe\xba\xbe%0200d' "$i" >"$work/many/$i.class"; done
"$converter" app "$work/many" 2>"$work/errors" | head -1 >"$work/got"
[ ! -s "$work/errors" ]
check_last "define_lines.py: a closed pipe isn't reported as an error"

finish
