#!/usr/bin/env bash
# Measures what Java's library costs a server at its start, next to reading the jars. It isn't part
# of CI.
#
#     bench/java.sh [ROUNDS] [JAR..]
#
# Each row is a whole JVM, from its start to its end (bench/Starts.java), over the classes of
# version 52.0 in the jars, by default those of Debian's packages, each class in one jar: metadata
# of all classes by the cache, by ASM and by Javassist; the jars unpacked; all classes defined by a
# URLClassLoader, by a CachingClassLoader, and with the agent in a first and a second start. All
# take turns, ROUNDS (5) times; each number is the least, in ms of time and of processor time. JAVA
# names the command that starts a JVM.
set -eu
top=$(cd "$(dirname "${BASH_SOURCE[0]}")/.." && pwd)
rounds=${1:-5}
. "$top/bin/programs.sh"
. "$top/bench/lib.sh"
work=$(mktemp -d)
trap 'rm -rf "$work"' EXIT

fetch libasm-java libjavassist-java
"$top/bin/build_java" "$work/out"
jar=$(readlink -f "$work/out/cmcache.jar")
path=$jar:$work/classes:/usr/share/java/asm.jar:/usr/share/java/javassist.jar
javac --release 8 -nowarn -cp "$path" -d "$work/classes" "$top/bench/Starts.java"

if [ $# -gt 1 ]; then
    jars=("${@:2}")
else
    mapfile -t jars < <("$top/bench/java_jars.py" /usr/share)
fi

# start NAME OPTION.. -- WAY: a row's time and processor time, in ms.
TIMEFORMAT='%R %U %S'
start() {
    local name=$1 options=()
    shift
    while [ "$1" != -- ]; do
        options+=("$1")
        shift
    done
    { time "${JAVA:-java}" "${options[@]}" -cp "$path" Starts "$2" "$work/file" "${jars[@]}" \
        >"$work/told" 2>"$work/errors"; } 2>"$work/time"
    awk -v name="$name" '{ print name ": " 1000 * $1 " " 1000 * ($2 + $3) }' "$work/time"
}

start "" -- fill >/dev/null
echo "${#jars[@]} jars; metadata of $(start "" -- cache >/dev/null; cut -d ' ' -f 1 "$work/told")" \
    "classes; all of any version that can be defined:" \
    "$(start "" -- load >/dev/null; cut -d ' ' -f 1 "$work/told")"
for ((round = 0; round < rounds; round++)); do
    start "metadata by the cache, only read" -- cache
    start "metadata by the cache" -- cache-written
    start "metadata by ASM" -- asm
    start "metadata by Javassist" -- javassist
    start "the jars unpacked" -- unpack
    start "defined by a URLClassLoader" -- load
    start "defined by a CachingClassLoader" -- load-cached
    rm -f "$work/agent"
    start "and with the agent, a first start" "-javaagent:$jar=$work/agent" -- load
    start "and with the agent, a second start" "-javaagent:$jar=$work/agent" -- load
done | awk -F ': | ' '
    { name = $0; sub(/: .*/, "", name); time = $(NF - 1); cpu = $NF }
    !(name in least) { order[++count] = name; least[name] = time; work[name] = cpu }
    time < least[name] { least[name] = time }
    cpu < work[name] { work[name] = cpu }
    END {
        for (at = 1; at <= count; at++)
            printf "%-36s %7d ms %7d ms of processor time\n", order[at], least[order[at]],
                work[order[at]]
    }'
