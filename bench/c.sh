#!/usr/bin/env bash
# Measures the C interface: threads that define classes in one file, compared with LMDB with one
# writer and with RocksDB, which joins the commits of threads that wait; look-ups, and opening. It
# isn't part of CI.
#
#     bench/c.sh [RUNS] [FOLDER]
#
# 1, 4, 16 and 64 threads define the ordinary classes (those of bench/run.sh) in a new file in
# FOLDER (out/), each thread its share, one after another, in a loader of its own; they were
# prepared before (bench/c_calls.c). The other stores store the same records, one a commit
# (bench/stores.c). Then 1, 4 and 16 threads look up all of them ten times, and the file is opened
# and closed ten times. Then views of the file are measured, which map it (bench/view_calls.c): one
# is opened ten times; one is opened and every third class looked up once, which judges it, by 1 and
# 4 threads; and 1, 2, 4 and 16 threads look up all classes ten times. Each row has the best of RUNS
# runs (5), and the worst to show the machine's
# noise; all take turns.
set -eu
top=$(cd "$(dirname "${BASH_SOURCE[0]}")/.." && pwd)
runs=${1:-5}
core=${CM_CORE:-$top/crates/cm_core/out/libcm_core.a}
rounds=10

. "$top/bin/programs.sh"
. "$top/bench/lib.sh"

work=$(mktemp -d)
folder=
trap 'rm -rf "$work" ${folder:+"$folder"}' EXIT

fetch librocksdb-dev
need_jars
add_store lmdb lmdb.h -DWITH_LMDB -llmdb
add_store rocksdb rocksdb/c.h -DWITH_ROCKSDB -lrocksdb -lpthread
gcc -O2 -o "$work/stores" "$top/bench/stores.c" "${flags[@]}"
gcc -std=c11 -O2 -I"$top/c" -o "$work/calls" "$top/bench/c_calls.c" "$top"/c/*.c "$core" -lpthread
gcc -std=c11 -O2 -I"$top/c" -o "$work/view_calls" "$top/bench/view_calls.c" "$top"/c/*.c "$core" \
    -lpthread
bench=$(find_program cm_bench_files)
mkdir -p "$top/out"
folder=$(mktemp -d -p "${2:-$top/out}")
cache=$folder/cache

"$top/bench/bench_classes.py" --only-52 "${jars[@]}" >"$work/classes"
"$bench" put "$cache" --group 64 --top 12 --roots 64 --slots 16384 <"$work/classes" >/dev/null
"$top/bench/records.py" "$cache" >"$work/records"
rm "$cache"

# others STORE THREADS: a row 'define-STORE THREADS RECORDS NS'
others() {
    "$work/stores" "$1" "$folder/$1" "$2" <"$work/records" |
        awk -v threads="$2" '{ print "define-" $1, threads, $3, $7 }'
    rm -r "${folder:?}/$1"*
}

# Rows 'NAME THREADS CALLS NS'.
for ((run = 0; run < runs; run++)); do
    for count in 1 4 16 64; do
        rm -f "$cache"
        "$work/calls" define "$cache" "$count" 16384 <"$work/classes"
        case $count in
        1 | 4 | 16) "$work/calls" find "$cache" "$count" $rounds <"$work/classes" ;;
        esac
        if [[ " ${stores[*]} " = *" rocksdb "* ]]; then others rocksdb "$count"; fi
    done | awk '$2 == "threads" { print $1, $3, $5, $7; next } { print }'
    {
        "$work/view_calls" open "$cache" $rounds
        for count in 1 4; do "$work/view_calls" third "$cache" $count; done
        for count in 1 2 4 16; do "$work/view_calls" again "$cache" $count $rounds; done
    } | awk '{ print $1, $3, $5, $7 }'
    "$work/calls" open "$cache" $rounds | awk '{ print $1, 1, $3, $5 }'
    if [[ " ${stores[*]} " = *" lmdb "* ]]; then others lmdb 1; fi
done >"$work/rows"
awk '
    {
        key = $1 " " $2
        if (!(key in best) || $4 < best[key]) best[key] = $4
        if ($4 > worst[key]) worst[key] = $4
        calls[key] = $3
    }
    END {
        for (key in best) {
            split(key, part, " ")
            printf "%-15s %2d threads %6d calls %11.0f ns (worst %.2f), %8.0f a second\n",
                part[1], part[2], calls[key], best[key], worst[key] / best[key],
                1e9 * calls[key] / best[key]
        }
    }' "$work/rows" | sort -k 1,1 -k 2,2n
echo "load of the machine at the end: $(cut -d' ' -f1 /proc/loadavg) on $(nproc) cores"
