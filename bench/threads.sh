#!/usr/bin/env bash
# Measures several threads that define classes in one file, compared with LMDB and SQLite with one
# writer, and with RocksDB, which joins the commits of threads that wait. It isn't part of CI.
#
#     bench/threads.sh [RUNS] [FOLDER]
#
# cm_bench_files threads has 1, 2, 4 and 16 threads define the ordinary classes (those of
# bench/run.sh) in a new file in FOLDER (out/), each thread its share, one after
# another, in a loader of its own: classes that were prepared before, and classes that each thread
# prepares first. The other stores store the same records, one a commit (bench/stores.c). Each row
# has the best of RUNS runs (5), and the worst to show the machine's noise; all take turns. Then
# come the syncs of the best run, and its rate relative to LMDB's.
#
# Then one thread defines them while one other, or 16, look up classes all the time, once each. A
# look-up only takes the lock: its time shows how long the lock is held.
set -eu
top=$(cd "$(dirname "${BASH_SOURCE[0]}")/.." && pwd)
runs=${1:-5}
sizes=(--top 12 --roots 64 --slots 16384)

. "$top/bin/programs.sh"
. "$top/bench/lib.sh"

work=$(mktemp -d)
folder=
trap 'rm -rf "$work" ${folder:+"$folder"}' EXIT

fetch librocksdb-dev
need_jars
add_store sqlite sqlite3.h -DWITH_SQLITE -lsqlite3
add_store lmdb lmdb.h -DWITH_LMDB -llmdb
add_store rocksdb rocksdb/c.h -DWITH_ROCKSDB -lrocksdb -lpthread
gcc -O2 -o "$work/stores" "$top/bench/stores.c" "${flags[@]}"
bench=${CM_BENCH:-$(find_program cm_bench_files)} # CM_BENCH names another build
mkdir -p "$top/out"
folder=$(mktemp -d -p "${2:-$top/out}")

"$top/bench/bench_classes.py" --only-52 "${jars[@]}" >"$work/classes"
"$bench" put "$folder/first" --group 64 "${sizes[@]}" <"$work/classes"
"$top/bench/records.py" "$folder/first" >"$work/records"
rm "$folder/first"

# threads NAME THREADS WORD..: a row 'NAME THREADS RECORDS NS SYNCS', and a line of look-ups, if any
# are made.
threads() {
    "$bench" threads "$folder/cache" --threads "$2" --times "${sizes[@]}" "${@:3}" \
        <"$work/classes" | awk -v name="$1" -v threads="$2" '
            $1 == "stored" && $2 != "with" { records = $2 }
            $1 == "stored" && $2 == "with" { print name, threads, records, $6, $3 }
            # looked up N found N in N ns each, N ns at most
            $1 == "looked" && $3 { print "look-ups", name, $3, $5, $7, $10 }'
    rm "$folder/cache"
}

# others STORE THREADS: the same row of another store.
others() {
    "$work/stores" "$1" "$folder/$1" "$2" <"$work/records" |
        awk -v threads="$2" '{ print $1, threads, $3, $7, "-" }'
    rm -r "${folder:?}/$1"*
}

for ((run = 0; run < runs; run++)); do
    for count in 1 2 4 16; do
        threads cmcache "$count"
        threads cmcache+prepare "$count" --unprepared
        if [[ " ${stores[*]} " = *" rocksdb "* ]]; then others rocksdb "$count"; fi
    done
    for store in "${stores[@]}"; do
        [ "$store" = rocksdb ] || others "$store" 1
    done
done >"$work/rows"
for count in 1 16; do
    threads "cmcache+$count-finders" 1 --finders "$count" >>"$work/rows"
done
awk '
    $1 == "look-ups" {
        look_ups[$2] = sprintf("%d look-ups made, %d found, %d ns each, %d ns at most",
            $3, $4, $5, $6)
        next
    }
    {
        key = $1 " " $2
        if (!(key in best) || $4 < best[key]) { best[key] = $4; syncs[key] = $5 }
        if ($4 > worst[key]) worst[key] = $4
        records[key] = $3
    }
    END {
        lmdb = ("lmdb 1" in best) ? records["lmdb 1"] / best["lmdb 1"] : 0
        for (key in best) {
            split(key, part, " ")
            rate = records[key] / best[key]
            printf "%-18s %2d threads %5d records %11.0f ns (worst %.2f) %6s syncs %7.0f a second",
                part[1], part[2], records[key], best[key], worst[key] / best[key], syncs[key],
                1e9 * rate
            printf lmdb ? "  %5.2f of LMDB\n" : "\n", lmdb ? rate / lmdb : 0
        }
        for (name in look_ups) print name ": " look_ups[name]
    }' "$work/rows" | sort
echo "load of the machine at the end: $(cut -d' ' -f1 /proc/loadavg) on $(nproc) cores"
