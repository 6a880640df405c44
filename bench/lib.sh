# Sourced by the scripts that store classes in files, with $top set: the ordinary classes, and the
# stores to compare with. What isn't installed is fetched, if the machine reaches Debian's packages.
# A store that still isn't there is named and left out.
packages=(libasm-java libcommons-io-java libcommons-lang3-java libguava-java
    libsqlite3-dev liblmdb-dev)
jars=(/usr/share/java/asm{,-analysis,-commons,-tree,-util}.jar
    /usr/share/java/{commons-io,commons-lang3,guava}.jar)

# fetch PACKAGE..: these, and those that all need.
fetch() {
    dpkg -s "${packages[@]}" "$@" >/dev/null 2>&1 && return
    { apt-get update -qq && apt-get install -y -qq "${packages[@]}" "$@"; } >&2 || true
}

# has HEADER: whether the C compiler finds it
has() {
    echo "#include <$1>" | gcc -E - >/dev/null 2>&1
}

# need_jars: ends the script if the classes aren't there.
need_jars() {
    local jar
    for jar in "${jars[@]}"; do
        [ -e "$jar" ] && continue
        echo "missing: $jar (of ${packages[*]:0:4}): no classes to measure" >&2
        exit 1
    done
}

# add_store NAME HEADER FLAG..: adds it to the stores to measure, and the compiler's flags for it.
stores=()
flags=()
add_store() {
    if has "$2"; then
        stores+=("$1") flags+=("${@:3}")
    else
        echo "missing: $2: no row of $1"
    fi
}
