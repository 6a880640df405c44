#!/usr/bin/env bash
# The Java library (docs/JAVA.md), by the jar that bin/build_java makes: each call with each
# refusal, also with -Xcheck:jni, and with its C file under the address and undefined-behaviour
# sanitizers; sixteen threads, caches that are closed meanwhile, little stack; a device that fails,
# and each allocation refused; first starts that are killed, and two JVMs; records of a compiler's
# and of real jars' classes, line by line beside ASM; CachingClassLoader beside URLClassLoader;
# the example, and programs that do the same with the agent as without. Then much of it by each
# other JDK that is installed.
#
# KILLS=N kills N times instead of 10, SEED=N at other moments. Needs JDK 17 or Debian's
# libasm-java, a C compiler with sanitizers and Python 3; of ant, Maven and Groovy it uses what is
# there. CM_CORE names another archive of the core.
set -u
cd "$(dirname "$0")/.." || exit 1
. tests/lib.sh

if ! command -v javac >/dev/null; then
    echo "there is no javac"
    echo "0 passed, 1 failed"
    exit 1
fi
quick_folder
export LC_ALL=C.UTF-8 # otherwise Java can't name a file that isn't named in ASCII
cmcache=$(executable)
jdk=$(readlink -f "$(command -v javac)" | sed 's|/bin/javac$||')
seed=${SEED:-$RANDOM}

# ---- the jar

version=$(sed -n 's/^## \([0-9.]*\).*/\1/p' CHANGELOG.md | head -n 1)
bin/build_java "$work/out" >"$work/log" 2>&1
check_last "bin/build_java"
[ ! -s "$work/log" ]
check_last "javac, javadoc and the C compiler have no warning"
cat "$work/log"
jar=$work/out/cmcache-$version.jar
python3 -m zipfile -e "$jar" "$work/jar"
cmp "$work/jar/META-INF/maven/org.cmcache/cmcache/pom.xml" "$work/out/cmcache-$version.pom"
check_last "the jar has its pom.xml"
grep -q "<version>$version</version>" "$work/out/cmcache-$version.pom"
check_last "with its version"
nm -D --defined-only "$work"/jar/org/cmcache/*/*.so | grep -v ' T Java_org_cmcache_Native_'
[ $? = 1 ]
check_last "its library exports the calls of Native.java alone"
[ "$(wc -l <java/jni.c)" -le 400 ]
check_last "java/jni.c has at most 400 lines"

# ---- the tests

# Beside.java needs ASM: that of Debian's packages, or the one that is inside a JDK 17.
asm=/usr/share/java/asm.jar:/usr/share/java/asm-tree.jar
inside=()
mkdir "$work/tests" "$work/beside"
if [ -e /usr/share/java/asm.jar ] && [ -e /usr/share/java/asm-tree.jar ]; then
    cp tests/java/library/Beside.java "$work/beside"
else
    sed 's/org\.objectweb\.asm/jdk.internal.&/' tests/java/library/Beside.java \
        >"$work/beside/Beside.java"
    inside=(--add-exports "java.base/jdk.internal.org.objectweb.asm=ALL-UNNAMED"
        --add-exports "java.base/jdk.internal.org.objectweb.asm.tree=ALL-UNNAMED")
fi
mapfile -t sources < <(find tests/java/library -name '*.java' ! -name Beside.java)
javac --release 8 -Xlint:all,-options,-try -Werror -cp "$jar" -d "$work/tests" "${sources[@]}"
check_last "the tests are compiled for Java 8"
javac "${inside[@]}" -nowarn -cp "$jar:$work/tests:$asm" -d "$work/tests" \
    "$work/beside/Beside.java"
check_last "Beside.java is compiled"
mkdir "$work/shapes"
javac --release 8 -Xlint:none -nowarn -g -d "$work/shapes" tests/java/*.java 2>"$work/errors"
check_last "classes to load are compiled"

# library NAME TEST WORD..: runs a test in a folder of its own, by $jdk with $options.
options=()
library() {
    rm -rf "$quick/folder"
    mkdir "$quick/folder"
    counted "$1" "$jdk/bin/java" "${options[@]}" -cp "$jar:$work/tests:$asm" "$2" \
        "$quick/folder" "${@:3}"
}

# no_warning NAME: the JVM had nothing to say in the last run.
no_warning() {
    ! grep -E 'WARNING|FATAL|ERROR' "$work/told"
    check_last "$1: no warning of the JVM"
}

library "every call" EveryCall
library "threads" Threads
library "first starts that are killed" Processes "$cmcache" "${KILLS:-10}" "$seed"
library "class loaders" Loading "$work/shapes"
limited() (
    ulimit -f 516
    "$@"
)
mkdir "$quick/limited"
counted "a device that fails" limited "$jdk/bin/java" -cp "$jar:$work/tests" EveryCall \
    "$quick/limited" limited
options=(-Xcheck:jni)
library "every call, with -Xcheck:jni" EveryCall
no_warning "every call"
library "class loaders, with -Xcheck:jni" Loading "$work/shapes"
no_warning "class loaders"

# Up to eight jars of the machine that have classes of version 52.0, apart from the class files that
# a compiler has just written.
mapfile -t jars < <(find /usr/share/java -name '*.jar' -type f -size +100k -size -4M 2>/dev/null |
    LC_ALL=C sort | head -n 8)
options=("${inside[@]}")
file=$quick/beside
counted "records" "$jdk/bin/java" "${options[@]}" -cp "$jar:$work/tests:$asm" Beside "$file" \
    "$work/shapes" "${jars[@]}"
[ "$("$cmcache" check "$file" | cut -d ' ' -f 1)" = ok ]
check_last "the program opens the file that Java made"

# The C file under sanitizers. The JVM keeps its own handlers of signals, and never gives back all
# of its memory.
"${CC:-cc}" -shared -std=c11 -O1 -g -fPIC -fsanitize=address,undefined -fno-sanitize-recover \
    -fvisibility=hidden -Ic -I"$jdk/include" -I"$jdk/include/linux" \
    -Wl,--version-script,java/exports.map -o "$work/sanitized.so" java/jni.c c/*.c \
    "${CM_CORE:-$(find_core)}" -lpthread
check_last "the library with sanitizers"
sanitized() {
    LD_PRELOAD="$("${CC:-cc}" -print-file-name=libasan.so) $("${CC:-cc}" \
        -print-file-name=libubsan.so)" \
    ASAN_OPTIONS=handle_segv=0:allow_user_segv_handler=1:detect_leaks=0 "$@"
}
for test in EveryCall Threads; do
    rm -rf "$quick/folder"
    mkdir "$quick/folder"
    counted "$test with sanitizers" sanitized "$jdk/bin/java" \
        -Dcmcache.library="$work/sanitized.so" -cp "$jar:$work/tests" $test "$quick/folder"
done

# The same with one allocation refused after another.
refusing=(-Dmalloc=refusing_malloc -Dcalloc=refusing_calloc -Drealloc=refusing_realloc)
mkdir "$work/objects"
for source in java/jni.c c/*.c; do
    "${CC:-cc}" -std=c11 -O1 -fPIC -fvisibility=hidden "${refusing[@]}" -Ic -I"$jdk/include" \
        -I"$jdk/include/linux" -c "$source" -o "$work/objects/$(basename "$source" .c).o"
done
"${CC:-cc}" -shared -std=c11 -fPIC -Wall -Wextra -Werror -I"$jdk/include" -I"$jdk/include/linux" \
    -Wl,--version-script,java/exports.map -o "$work/refusing.so" "$work"/objects/*.o \
    tests/java/refusing.c "${CM_CORE:-$(find_core)}" -lpthread
check_last "the library that refuses memory"
options=(-Dcmcache.library="$work/refusing.so")
library "refused allocations" Refusals

# ---- the example, beside the one by ASM

scan() {
    "$jdk/bin/java" -cp "$jar:$work/examples" Scan "$quick/scan" jars-1 "${jars[@]}" \
        examples/first.jar >"$work/got" 2>"$work/errors"
    status=$?
}
javac -nowarn -cp "$jar" -d "$work/examples" examples/java/Scan.java
check_last "the example is compiled"
scan
check_status "the example's first run" 0
cp "$work/got" "$work/want"
grep -qE '^[0-9]+ classes, [1-9][0-9]* of them stored, in [0-9]+ ms$' "$work/errors"
check_last "which stores classes"
scan
check "the example's second run" 0
grep -qE '^[1-9][0-9]* classes, 0 of them stored, in [0-9]+ ms$' "$work/errors"
check_last "which stores none"
if javac -nowarn -cp "$asm" -d "$work/examples" examples/java/ScanByAsm.java 2>"$work/errors"; then
    "$jdk/bin/java" -cp "$asm:$work/examples" ScanByAsm "${jars[@]}" examples/first.jar \
        >"$work/want" 2>"$work/errors"
    check "the example by ASM prints the same" 0
else
    echo "libasm-java isn't installed: the example by ASM is left out"
fi

# ---- the agent

mapfile -t names < <(cd "$work/shapes" && find . -name '*.class' | sed 's|^./||; s|\.class$||' |
    LC_ALL=C sort)
count=$((${#names[@]} + 1)) # with App itself
app() {
    "$jdk/bin/java" "${options[@]}" "$@" -cp "$work/tests:$work/shapes" App "${names[@]}" \
        >"$work/got" 2>"$work/errors"
    status=$?
}
options=()
app -Xshare:auto
cp "$work/got" "$work/want"
cp "$work/errors" "$work/want_errors"
check "a program without the agent" 0

# watched NAME AGENT LINE: with the agent it does the same, and ends with this line.
watched() {
    app "-javaagent:$jar=$2"
    check "the agent: $1" 0
    { cat "$work/want_errors" && echo "$3"; } | sort | cmp -s - <(sort "$work/errors")
    check_last "the agent says: $1"
    cmp -s <(sort "$work/errors") <({ cat "$work/want_errors"; echo "$3"; } | sort) ||
        cat "$work/errors"
}
file=$quick/agent
none="of other versions 0, refused 0"
watched "a first start" "$file,app" \
    "cmcache: $file, loader app: stored $count, there 0, changed 0, $none"
watched "a second start" "$file" \
    "cmcache: $file, loader app: stored 0, there $count, changed 0, $none"
watched "another loader" "$file,other" \
    "cmcache: $file, loader other: stored $count, there 0, changed 0, $none"
[ "$("$cmcache" list "$file" | grep -c '^class ')" = $((2 * count)) ]
check_last "the file has these classes"
javac --release 8 -Xlint:none -nowarn -g:none -d "$work/shapes" tests/java/*.java 2>"$work/errors"
watched "classes that changed" "$file" \
    "cmcache: $file, loader app: stored 0, there 1, changed $((count - 1)), $none"
javac --release 9 -Xlint:none -nowarn -d "$work/shapes" tests/java/*.java 2>"$work/errors"
watched "classes of another version" "$file,newer" "cmcache: $file, loader newer: stored 1, there \
0, changed 0, of other versions $((count - 1)), refused 0"
javac --release 8 -Xlint:none -nowarn -g -d "$work/shapes" tests/java/*.java 2>"$work/errors"
cp "$file" "$quick/kept"
exec 9<>"$file"
flock 9
watched "a file in use" "$file" "cmcache: $file: the file is in use; nothing is stored"
exec 9>&-
cmp "$file" "$quick/kept"
check_last "a file in use stays as it is"
put "$file" 8 '\x02'
watched "a damaged file" "$file" \
    "cmcache: $file: damaged 1 0: the superblock; nothing is stored"
watched "no folder" "$quick/none/file" \
    "cmcache: $quick/none/file: there is no such file; nothing is stored"
watched "a bad name" "$quick/new,a b" \
    "cmcache: a b: a loader's name is 1 to 96 printable ASCII characters; nothing is stored"
watched "no file" "" \
    "cmcache: -javaagent:cmcache.jar=FILE[,LOADER] names no file; nothing is stored"

# real NAME WORD..: a program of Debian's packages writes the same with the agent as without.
real() {
    if ! command -v "$2" >/dev/null; then
        echo "$2 isn't installed: it isn't run with the agent"
        return
    fi
    (cd "$work" && JAVA_HOME=$jdk "${@:2}") >"$work/want" 2>"$work/want_errors"
    (cd "$work" && JAVA_HOME=$jdk JAVA_TOOL_OPTIONS="-javaagent:$jar=$quick/real,$1" "${@:2}") \
        >"$work/got" 2>"$work/errors"
    status=$?
    sed -i -E 's/(Total time|Finished at): .*/\1/' "$work/want" "$work/got"
    check "$1 with the agent" 0
    sed -i 's/\x1b\[[0-9;]*m//g; /^$/d' "$work/want_errors" "$work/errors" # no colours
    grep -v '^Picked up JAVA_TOOL_OPTIONS\|^cmcache: ' "$work/errors" |
        cmp -s - "$work/want_errors"
    check_last "what $1 says of errors"
    grep -E "^cmcache: .*, loader $1: stored [1-9][0-9]*, there 0, changed 0, " "$work/errors"
    check_last "classes of $1 are stored"
}
cat >"$work/build.xml" <<'END'
<project default="all"><target name="all">
  <mkdir dir="made"/><copy file="build.xml" tofile="made/copy.xml"/>
  <checksum file="made/copy.xml" property="sum"/><echo message="sum ${sum}"/>
  <zip destfile="made/copy.zip" basedir="made" includes="copy.xml"/><delete dir="made"/>
</target></project>
END
echo '<project><modelVersion>4.0.0</modelVersion><groupId>g</groupId><artifactId>a</artifactId>
<version>1</version><packaging>pom</packaging></project>' >"$work/pom.xml"
real ant ant -q
real mvn mvn -o -B "-Dmaven.repo.local=$work/repository" validate
real groovy groovy -e 'println((1..9).collect { it * it }.findAll { it % 2 })'

# ---- the other JDKs that are installed: the newest has warnings of its own without the option

others=0
for other in /usr/lib/jvm/*/bin/javac; do
    other=$(readlink -f "$other")
    [ -x "$other" ] || continue
    [ "$other" != "$(readlink -f "$(command -v javac)")" ] || continue
    others=$((others + 1))
    jdk=${other%/bin/javac}
    name=$(basename "$jdk")
    options=()
    "$jdk/bin/java" --enable-native-access=ALL-UNNAMED -version 2>/dev/null &&
        options=(--enable-native-access=ALL-UNNAMED)
    library "every call, by $name" EveryCall
    library "threads, by $name" Threads
    library "class loaders, by $name" Loading "$work/shapes"
    rm -f "$file"
    app -Xshare:auto
    cp "$work/got" "$work/want"
    cp "$work/errors" "$work/want_errors"
    watched "by $name" "$file" \
        "cmcache: $file, loader app: stored $count, there 0, changed 0, $none"
done
[ $others -gt 0 ] || echo "there is no other JDK: all tests ran by $jdk alone"

finish
