#!/usr/bin/env bash
# Measures what storing classes in a file costs, compared with SQLite and LMDB, and what opening a
# file costs, compared with reading its classes. It isn't part of CI.
#
#     bench/files.sh [RUNS] [FOLDER]
#
# cm_bench_files put defines ordinary classes (those of bench/run.sh) in a new file in FOLDER
# (out/), one a commit and 64 a commit. The same records, as they stand in that file, are then
# stored by SQLite (write-ahead log, synchronous=FULL), by LMDB, by just the device calls that
# the same commits make (bench/stores.c), and by two other choices of these calls, on the same file
# system. Each row has the best of RUNS runs (5), and the worst to show the machine's noise; all
# take turns, so that a busy disk slows all of them.
#
# Then files of 10,000, 20,000 and 30,000 classes (bench/many_classes.py) are read into memory and
# opened; next to that are cm_bench's rows on the same classes: read_class (reading and checking
# classes) and Record::read (checking records).
set -eu
top=$(cd "$(dirname "${BASH_SOURCE[0]}")/.." && pwd)
runs=${1:-5}
sizes=(--top 12 --roots 64 --slots 16384)

. "$top/bin/programs.sh"
. "$top/bench/lib.sh"

work=$(mktemp -d)
folder=
trap 'rm -rf "$work" ${folder:+"$folder"}' EXIT

# shellcheck disable=SC2119 # no packages but those that all need
fetch
need_jars
stores=(bare joined holes)
add_store sqlite sqlite3.h -DWITH_SQLITE -lsqlite3
add_store lmdb lmdb.h -DWITH_LMDB -llmdb
gcc -O2 -o "$work/stores" "$top/bench/stores.c" "${flags[@]}"
bench=$(find_program cm_bench)
files=$(find_program cm_bench_files)
mkdir -p "$top/out"
folder=$(mktemp -d -p "${2:-$top/out}")

"$top/bench/bench_classes.py" --only-52 "${jars[@]}" >"$work/classes"
"$files" put "$folder/first" --group 64 "${sizes[@]}" <"$work/classes"
"$top/bench/records.py" "$folder/first" >"$work/records"
rm "$folder/first"

for group in 1 64; do
    for ((run = 0; run < runs; run++)); do
        "$files" put "$folder/cache" --group "$group" "${sizes[@]}" --times <"$work/classes" |
            awk -v g="$group" '{
                print "cmcache", g, $2, $6, $15
                print "cmcache+prepare", g, $2, $6, $20
            }'
        rm "$folder/cache"
        for store in "${stores[@]}"; do
            "$work/stores" "$store" "$folder/$store" "$group" <"$work/records" |
                awk -v g="$group" '{ print $1, g, $3, $5, $7 }'
            rm "$folder/$store"*
        done
    done
done | awk '
    # STORE GROUP RECORDS COMMITS NS
    {
        key = $2 " " $1
        if (!(key in best) || $5 < best[key]) best[key] = $5
        if (!(key in worst) || $5 > worst[key]) worst[key] = $5
        commits[key] = $4
        records[key] = $3
    }
    END {
        for (key in best) {
            split(key, part, " ")
            printf "%2d a commit  %-16s %6d records %6d commits %11.0f ns (worst %.2f)",
                part[1], part[2], records[key], commits[key], best[key], worst[key] / best[key]
            printf "  %9.0f ns a commit  %5.2f of the bare calls\n",
                best[key] / commits[key], best[key] / best[part[1] " bare"]
        }
    }' | sort

for count in 10000 20000 30000; do
    "$top/bench/many_classes.py" "$count" <"$work/classes" >"$work/many"
    "$files" put "$folder/many" --group 64 --top 12 --roots 256 --slots 65536 <"$work/many"
    {
        "$bench" classes --passes "$runs" <"$work/many"
        for ((run = 0; run < runs; run++)); do "$files" read "$folder/many" --times; done
    } | awk '
        $1 == "read_class" || $1 == "Record::read" { alone += $9 }
        # classes N found N read in N ns, opened in N ns, looked up in N ns
        $1 == "classes" {
            if (!read || $7 < read) read = $7
            if (!opened || $11 < opened) opened = $11
            if ($11 > worst) worst = $11
            if (!found || $16 < found) found = $16
            classes = $2
        }
        END {
            printf "read: file of %d classes read in %.0f ns, opened in %.0f ns (worst %.2f),",
                classes, read, opened, worst / opened
            printf " %.0f ns a class, %.2f of reading, judging and checking alone;",
                opened / classes, opened / alone
            printf " each found in %.0f ns\n", found / classes
        }'
    rm "$folder/many"
done
echo "load of the machine at the end: $(cut -d' ' -f1 /proc/loadavg) on $(nproc) cores"
