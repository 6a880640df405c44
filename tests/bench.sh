#!/usr/bin/env bash
# What the benchmark counts: the calls of the accepted cache, a class stored in a file and found
# there, and what threads store at once; and that the scripts that measure run. Times aren't
# checked.
set -u
cd "$(dirname "$0")/.." || exit 1
. tests/lib.sh

bench=$(find_program cm_bench)
files=$(find_program cm_bench_files)

"$bench" front >"$work/got" 2>"$work/errors"
status=$?
cp tests/data/bench_front.txt "$work/want"
check "the calls of the accepted cache" 0

# The input of CI's own run of cm_bench: five classes, one of them right.
"$files" put "$work/file" --top 3 --roots 1 --slots 256 \
    <crates/cm_bench/stdin >"$work/got" 2>"$work/errors"
status=$?
echo "records 1 bytes 128 commits 1 syncs 3 writes 4 written 8512" >"$work/want"
check "a class is stored" 0

"$files" read "$work/file" >"$work/got" 2>"$work/errors"
status=$?
echo "classes 1 found 1" >"$work/want"
check "it is found" 0

# Four loaders and the one class.
"$files" threads "$work/other" --threads 4 --finders 2 --top 3 --roots 1 --slots 256 \
    <crates/cm_bench/stdin >"$work/got" 2>"$work/errors"
status=$?
echo "stored 5 handed 5 committed 5 of_passes 5 missing 0" >"$work/want"
check "threads store it" 0

for one in "$bench" "$files"; do
    "$one" nothing >"$work/got" 2>"$work/errors"
    status=$?
    check_status "a verb that $(basename "$one") doesn't know" 2 says
done

# Three classes, made of one that has 32 fields; their records are found in the file, each with its
# length and its place before it.
bench/bench_classes.py --hostile fields-few | bench/many_classes.py 3 >"$work/classes"
read -r _ records _ bytes _ < <("$files" put "$work/many" --top 12 --roots 1 <"$work/classes")
[ "$records" = 3 ]
check_last "three classes of one are stored"
[ "$(bench/records.py "$work/many" | wc -c)" = $((bytes + 3 * 12)) ]
check_last "the records of a file"

# The scripts that measure the program fail if its replies aren't what they expect.
measure() {
    "bench/$1" "${@:2}" >"$work/got" 2>"$work/errors"
    status=$?
    check_status "bench/$1" 0
}
cmcache=$(executable)
measure full_file.py "$cmcache" 1 "$work" 1
measure checkpoints.py "$cmcache" 40 1 "$work"
measure tighten.py "$cmcache" 40 4 "$work"

finish
