#!/usr/bin/env bash
# Measures what opening a cache costs, next to reading its classes by the JVM's libraries. It isn't
# part of CI.
#
#     bench/opening.sh [ROUNDS] [COUNT]
#
# A file of COUNT classes (20000, by bench/many_classes.py) is opened by cm_bench_files read, which
# tells reading the file from opening the cache, and by runs of `cmcache apply --workers N` with an
# empty script, from start to end. ASM and Javassist read the same classes from memory: the first
# pass of a JVM that has just started, and the best of six passes after eight. All take turns,
# ROUNDS (3) times; each row has the least.
set -eu
top=$(cd "$(dirname "${BASH_SOURCE[0]}")/.." && pwd)
rounds=${1:-3}
count=${2:-20000}

. "$top/bin/programs.sh"
. "$top/bench/lib.sh"

work=$(mktemp -d)
trap 'rm -rf "$work"' EXIT

fetch libasm-java libjavassist-java libbcel-java
need_jars
program=$(find_program cmcache)
files=$(find_program cm_bench_files)
path=$(printf '/usr/share/java/%s.jar:' asm asm-tree bcel javassist)$work
javac -cp "$path" -d "$work" "$top/bench/ReadAll.java"

"$top/bench/bench_classes.py" --only-52 "${jars[@]}" >"$work/classes"
"$top/bench/many_classes.py" "$count" <"$work/classes" >"$work/many"
"$files" put "$work/file" --group 64 --top 12 --roots 256 --slots 65536 <"$work/many" >/dev/null

# opened WORKERS: the nanoseconds of a run of the program.
opened() {
    local begin end
    begin=$(date +%s%N)
    "$program" apply "$work/file" --workers "$1" </dev/null
    end=$(date +%s%N)
    echo "cmcache with $1 workers: $((end - begin))"
}

# library NAME WARM PASSES: the nanoseconds of its best pass.
library() {
    java -cp "$path" ReadAll "$1" "$2" "$3" <"$work/many" |
        awk -v name="$1 after $2 passes" '{ print name ": " $9 }'
}

for ((round = 0; round < rounds; round++)); do
    "$files" read "$work/file" --times |
        awk '{ print "cm_bench_files reads the file: " $7; print "and opens it: " $11 }'
    for workers in 1 2 4; do opened "$workers"; done
    for name in Javassist ASM; do
        library "$name" 0 1
        library "$name" 8 6
    done
done | awk -F ': ' '
    { if (!($1 in least) || $2 < least[$1]) least[$1] = $2 }
    END { for (row in least) printf "%-32s %8.1f ms\n", row, least[row] / 1e6 }' | sort
