#!/usr/bin/env bash
# Measures what reading and checking class files and making records costs, and what calls of the
# accepted cache cost, and prints two tables. It isn't part of CI.
#
#     bench/run.sh [PASSES]
#
# It builds cm_bench if CI didn't, runs it over ordinary class files (version 52.0, from
# jars of Debian packages) and over hostile ones (bench/bench_classes.py says what they are), and
# lets mature libraries (ASM, Javassist, BCEL) read the same ordinary files whole. Each row has the
# best of PASSES passes (20; of hostile files 3). "ratio" is the time per byte of class file,
# relative to the same step on ordinary files. Then cm_bench front makes its calls, the best of
# PASSES passes, and bench/files.sh compares storing classes in files with SQLite and LMDB.
set -eu
top=$(cd "$(dirname "${BASH_SOURCE[0]}")/.." && pwd)
passes=${1:-20}
work=$(mktemp -d)
trap 'rm -rf "$work"' EXIT

packages=(libasm-java libbcel-java libjavassist-java
    libcommons-io-java libcommons-lang3-java libguava-java)
libraries=(ASM Javassist BCEL)
jars=(/usr/share/java/asm{,-analysis,-commons,-tree,-util}.jar
    /usr/share/java/{commons-io,commons-lang3,guava}.jar)
hostile=(fields fields-equal fields-few fields-middle fields-middle-twice
    fields-middle-bootstrap fields-meeting fields-all-twice
    methods methods-equal methods-middle methods-middle-twice
    methods-middle-bootstrap methods-meeting methods-all-twice
    references dimensions dynamic length)

fetch() {
    dpkg -s "${packages[@]}" >/dev/null 2>&1 && return
    apt-get update -qq >&2
    apt-get install -y -qq "${packages[@]}" >&2
}

. "$top/bin/programs.sh"
bench=$(find_program cm_bench)

# Rows of cm_bench, with the stream's name in front.
measure() {
    timeout 600 "$bench" classes --passes "$2" <"$work/$1.bin" | sed "s/^/$1 /"
}

read_by_libraries() {
    local path library
    path=$(printf '/usr/share/java/%s.jar:' asm asm-tree bcel javassist)$work
    javac -cp "$path" -d "$work" "$top/bench/ReadAll.java"
    for library in "${libraries[@]}"; do
        java -cp "$path" ReadAll "$library" 30 "$passes" <"$work/ordinary.bin" |
            sed 's/^/ordinary /'
    done
}

fetch
"$top/bench/bench_classes.py" --only-52 "${jars[@]}" >"$work/ordinary.bin"
for kind in "${hostile[@]}"; do
    "$top/bench/bench_classes.py" --hostile "$kind" >"$work/$kind.bin"
done

{
    read_by_libraries
    measure ordinary "$passes"
    for kind in "${hostile[@]}"; do
        measure "$kind" 3 || echo "$kind (not ended in 10 minutes)"
    done
} | awk '
    # STREAM STEP classes C bytes B faults F best NS ns RATE MB/s
    $3 != "classes" { print; next }
    {
        each = $6 ? $10 / $6 : 0
        if ($1 == "ordinary") base[$2] = each
        step = $2 ~ /^(ASM|Javassist|BCEL)$/ ? "" : $2
        ratio = "-"
        if (step && $6) ratio = sprintf("%.2f", each / base[step])
        printf "%-24s %-17s %11d bytes %6d faults %13d ns %8s MB/s  ratio %s\n",
            $1, $2, $6, $8, $10, $12, ratio
        if ($1 == "ordinary" && !step) library[$2] = each
        if ($1 == "ordinary" && $2 == "read_class+build")
            for (name in library)
                printf "%-24s time of read_class+build for each byte, to that of %s: %.2f\n",
                    "", name, each / library[name]
    }'
"$bench" front --passes "$passes"
echo "load of the machine at the end: $(cut -d' ' -f1 /proc/loadavg) on $(nproc) cores"
"$top/bench/files.sh"
