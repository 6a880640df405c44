# shellcheck shell=bash
# Sourced by the scripts that run a program of this repository: bin/cmcache, bin/cm_simulate, those
# of tests/ and bench/. It finds the executable: the one that was built here, if no source is newer;
# otherwise that of the release, if it was built from these sources, or if nobody changed a source
# since the checkout. Changed sources are built first.
repository=$(cd "$(dirname "$(readlink -f "${BASH_SOURCE[0]}")")/.." && pwd)

# sources_hash: one number for crates.txt and all sources under crates/.
sources_hash() {
    (
        cd "$repository" || exit
        find crates.txt crates -name out -prune -o -type f -print0 |
            LC_ALL=C sort -z | xargs -0 sha256sum | sha256sum | cut -d ' ' -f 1
    )
}

# java_sources_hash: one number for what the jar is made from, apart from the core.
java_sources_hash() {
    (
        cd "$repository" || exit
        find java c bin/build_java bin/jar_of -type f -print0 |
            LC_ALL=C sort -z | xargs -0 sha256sum | sha256sum | cut -c 1-40
    )
}

# released WORD: what a line of the release's list says after this word.
released() {
    sed -n "s/^$1 //p" "$repository/release/list.txt" 2>/dev/null
}

# released_programs: the names of the programs of the release, which stand after its first three
# lines, apart from the jar.
released_programs() {
    sed '1,3d; s/ .*//; /\.jar$/d' "$repository/release/list.txt"
}

# other_release LIST: prints the commits in the history whose release has the version of this list
# and other programs.
other_release() {
    local version commit other
    version=$(sed -n 's/^version //p' "$1")
    while read -r commit; do
        other=$(git -C "$repository" show "$commit:release/list.txt") || continue
        [ "$(sed -n 's/^version //p' <<<"$other")" = "$version" ] || continue
        [ "$(sed '1,3d' <<<"$other")" = "$(sed '1,3d' "$1")" ] || echo "$commit"
    done < <(git -C "$repository" log --format=%H -- release/list.txt)
}

# built_as NAME [FOLDER]: where a program of the release, or the library, is once it is built, in
# this repository or in the copy of it in this folder.
built_as() {
    case $1 in
        libcm_core.a) echo "${2:-$repository}/crates/cm_core/out/$1" ;;
        *) echo "${2:-$repository}/crates/$1/out/$1" ;;
    esac
}

# is_newest FILE: no source is newer than this file, which is there.
is_newest() {
    # A folder is newer once a file in it was removed.
    [ -f "$1" ] && [ ! "$repository/crates.txt" -nt "$1" ] && [ -z "$(find \
        "$repository/crates" -mindepth 2 -name out -prune -o -newer "$1" -print -quit)" ]
}

# is_built NAME: the program was built here, and no source is newer.
is_built() { [ -x "$repository/crates/$1/out/$1" ] && is_newest "$repository/crates/$1/out/$1"; }

# is_unchanged: this is a checkout in which no source was changed, added or removed.
is_unchanged() {
    local changed
    changed=$(git -C "$repository" status --porcelain -- crates crates.txt 2>/dev/null) &&
        [ -z "$changed" ]
}

# places: the folders in which something may be kept, one a line: in the checkout, in the caller's
# cache, and in a temporary folder that nobody else can write to.
places() {
    echo "$repository/out/release"
    [ -z "${XDG_CACHE_HOME:-${HOME:-}}" ] ||
        echo "${XDG_CACHE_HOME:-$HOME/.cache}/cmcache/release"
    local own
    own=${TMPDIR:-/tmp}/cmcache-$(id -u)
    mkdir -m 700 "$own" 2>/dev/null
    [ -O "$own" ] && [ ! -L "$own" ] && [ "$(stat -c %a "$own")" = 700 ] && echo "$own/release"
}

# kept NAME: prints the path of a file that is kept under this name, if it is there.
kept() {
    local folder
    while read -r folder; do
        [ -f "$folder/$1" ] && { echo "$folder/$1"; return; }
    done < <(places)
    return 1
}

# to_keep NAME: prints the path under which a file of this name can be kept.
to_keep() {
    local folder
    while read -r folder; do
        mkdir -p "$folder/$(dirname "$1")" 2>/dev/null && [ -w "$folder/$(dirname "$1")" ] &&
            { echo "$folder/$1"; return; }
    done < <(places)
    return 1
}

# is_of_release: the release was built from these sources. Hashing all of them takes time, so once
# this is so it is noted, until a source is newer than the note.
is_of_release() {
    local name note
    name=sources-$(released sources)
    note=$(kept "$name") && is_newest "$note" && return
    [ "$(sources_hash)" = "$(released sources)" ] || return 1
    if note=$(to_keep "$name"); then : >"$note"; fi
}

# unpack NAME: prints the path of the release's program, which is unpacked the first time. It fails
# if its bytes aren't those of the release's list.
unpack() {
    local sum made temporary
    sum=$(released "$1")
    made=$(kept "$sum/$1") && [ -x "$made" ] && { echo "$made"; return; }
    if ! made=$(to_keep "$sum/$1"); then
        echo "$1: there is no folder to unpack it into: set XDG_CACHE_HOME or TMPDIR" >&2
        return 1
    fi
    temporary=$(mktemp "$made.XXXXXX") || return 1
    if gzip -dc "$repository/release/$1-x86_64.gz" >"$temporary" 2>/dev/null &&
        [ "$(sha256sum <"$temporary")" = "$sum  -" ]; then
        chmod 755 "$temporary" && mv "$temporary" "$made" && echo "$made"
        return
    fi
    rm -f "$temporary"
    echo "$1: release/$1-x86_64.gz isn't what release/list.txt says: bin/build builds it" >&2
    return 1
}

# find_program NAME: prints the path of the executable to run, or of the static library for C. It
# reports newer sources, builds and failures on standard error.
find_program() {
    [ "$1" = libcm_core.a ] && { find_core; return; }
    local made=$repository/crates/$1/out/$1
    is_built "$1" && { echo "$made"; return; }
    if [ -n "$(released "$1")" ] && [ "$(uname -sm)" = "Linux x86_64" ]; then
        is_of_release && { unpack "$1"; return; }
        if is_unchanged; then
            echo "$1: version $(released version) of release/ runs; the sources of this checkout" \
                "are newer. $("$repository/bin/build" --cost "$1" 2>/dev/null)" >&2
            unpack "$1"
            return
        fi
    fi
    "$repository/bin/build" "$1" >&2 && echo "$made"
}

# find_core: prints the path of the static library for C, which is found as a program is. It is also
# built here if the crates below it are.
find_core() {
    local made=$repository/crates/cm_core/out/libcm_core.a
    is_newest "$made" && { echo "$made"; return; }
    if ! "$repository/bin/core" --ready && [ -n "$(released libcm_core.a)" ] &&
        [ "$(uname -sm)" = "Linux x86_64" ] &&
        { is_of_release || is_unchanged; }; then
        unpack libcm_core.a
        return
    fi
    "$repository/bin/core" >&2 && echo "$made"
}
