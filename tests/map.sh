#!/usr/bin/env bash
# examples/region_map.py on reports that were made up: the numbers of its legend, and a box for each
# chunk and for its used part; and on the report of cm_stat on a file. Needs Python 3.
set -u
cd "$(dirname "$0")/.." || exit 1
. tests/lib.sh

# draw [WORD..]: the map of $work/report.
draw() {
    examples/region_map.py "$work/report" "$@" >"$work/got" 2>"$work/errors"
    status=$?
}

# check_map NAME USED OWNED FREE BOXES: the legend's bytes, and how many boxes the chunks have.
check_map() {
    check_status "$1" 0
    grep -qF ">used $2 bytes, owned $3, free $4<" "$work/got"
    check_last "$1: used $2, owned $3, free $4"
    [ "$(sed -n '/<g>/,/<\/g>/p' "$work/got" | grep -c '<rect')" = "$5" ]
    check_last "$1: $5 boxes"
    python3 -c 'import sys, xml.dom.minidom; xml.dom.minidom.parse(sys.argv[1])' "$work/got"
    check_last "$1: it is XML"
}

# report TOP ROOTS USED OWNED LOADERS CHUNKS: what the map needs of a report.
report() {
    printf '{"sizes":{"top":%s},"region":{"used_roots":%s},"usage":{"used":%s,"owned":%s},%s' \
        "$1" "$2" "$3" "$4" "\"loaders\":[$5],\"chunks\":[$6]}" >"$work/report"
}

report 8 0 0 0 '' ''
draw
check_map "an empty cache" 0 0 0 0

# Two loaders: one with a chunk of 128 words, one with a chunk of 512.
two_loaders='{"number":1,"name":"a<b"},{"number":3,"name":"ext"}'
two_chunks='{"loader":1,"root":0,"at":0,"order":0,"used":128}
    ,{"loader":3,"root":0,"at":512,"order":2,"used":2560}'
report 8 1 $((8 * 336)) $((8 * 640)) "$two_loaders" "$two_chunks"
draw
check_map "two loaders" $((8 * 336)) $((8 * 640)) $((8 * (32768 - 640))) 4
report 3 1 $((8 * 336)) $((8 * 640)) "$two_loaders" "$two_chunks"
draw
check_map "two loaders, roots of order 3" $((8 * 336)) $((8 * 640)) $((8 * (1024 - 640))) 4

# The report of cm_stat on a file with class A of 16 words.
bin/cmcache format "$work/cache" >/dev/null && bin/cmcache apply "$work/cache" \
    <examples/first.txt >/dev/null
check_last "a file with a class"
bin/cm_stat "$work/cache" --json >"$work/report"
check_last "the report on it"
draw
check_map "a file" 128 1024 $((8 * (32768 - 128))) 2

# refused NAME TEXT: the report can't be drawn.
refused() {
    check_status "$1" 1
    grep -qF "$2" "$work/errors"
    check_last "$1: $2"
}

echo '{"sizes":{"top":8}}' >"$work/report"
draw
refused "a report without loaders" "loaders"
echo "not a cache" >"$work/report"
draw
refused "what is no report" "Expecting value"
rm "$work/report"
draw
refused "a missing report" "No such file"
draw x
check_status "a usage error" 2 says

finish
