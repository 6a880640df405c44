#!/usr/bin/env bash
# The programs of release/ are those that its list names, and do what the documents say; if they are
# of these very sources, they have the bytes that CI built. And which program bin/cmcache runs: in a
# clone, with newer sources, with changed ones, and with a release that somebody altered.
#
# Needs git. In CI (IN_CI is set) each program has to be there to be compared.
set -u
cd "$(dirname "$0")/.." || exit 1
. tests/lib.sh

# Each program of the list is there, and no other.
released_programs | sort >"$work/want"
for file in release/*-x86_64.gz; do basename "$file" -x86_64.gz; done | sort >"$work/got"
status=0
check "the list of the release names its programs" 0
mkdir "$work/release"
while read -r name; do
    gzip -dc "release/$name-x86_64.gz" >"$work/release/$name"
    chmod 755 "$work/release/$name"
    [ "$(sha256sum <"$work/release/$name")" = "$(released "$name")  -" ]
    check_last "the checksum of $name"
done <"$work/want"

# The jar, if the release has one: its checksum, and the same bytes from the same sources by the
# same compilers.
jar=release/cmcache.jar
if [ -z "$(released cmcache.jar)" ]; then
    echo "the release has no jar yet: bin/release makes one"
else
    [ "$(sha256sum <"$jar")" = "$(released cmcache.jar)  -" ]
    check_last "the checksum of the jar"
    made=$work/java/cmcache.jar
    CM_CORE=$work/release/libcm_core.a bin/build_java "$work/java" --jar >"$work/log" 2>&1
    check_last "bin/build_java"
    if python3 - "$jar" "$made" <<'END'; then
import sys, zipfile
texts = [zipfile.ZipFile(path).read("META-INF/MANIFEST.MF") for path in sys.argv[1:]]
sys.exit(texts[0] != texts[1])
END
        cmp "$jar" "$made"
        check_last "the bytes of the jar"
    else
        echo "not compared with what is built here: the jar is of other sources or compilers"
    fi
fi

# The version.
version=$(released version)
[ "$(sed -n 's/^## //p' CHANGELOG.md | head -n 1 | cut -d ' ' -f 1)" = "$version" ]
check_last "CHANGELOG.md begins with version $version"
"$work/release/cmcache" --help </dev/null >"$work/got" 2>"$work/errors"
grep -q ", version $version\$" "$work/got"
check_last "the help names version $version"

# What it does.
"$work/release/cmcache" apply --memory <examples/first.txt >"$work/got" 2>"$work/errors"
status=$?
a='class A flags 0021 super java/lang/Object words 16'
printf '%s\n' 'ok 1' 'ok 2 A' "$a" >"$work/want"
check "the first example" 0
CMCACHE=$work/release/cmcache bash tests/replies.sh >"$work/told" 2>&1
check_last "tests/replies.sh on the released program: $(tail -n 1 "$work/told")"

# The bytes that CI built, if the release is of these sources and of this machine's kit.
if [ "$(sources_hash)" != "$(released sources)" ]; then
    echo "not compared with what CI built: the release is of other sources"
elif ! command -v rt >/dev/null; then
    echo "not compared with what CI built: there is no kit on this machine"
elif [ "$(rt version)" != "$(released kit)" ]; then
    echo "not compared with what CI built: that was $(rt version), the release's" \
        "$(released kit)"
else
    for made in "$work"/release/*; do
        name=$(basename "$made")
        if [ -z "${IN_CI:-}" ] && [ ! -e "$(built_as "$name")" ]; then
            echo "not compared: $name wasn't built here"
            continue
        fi
        cmp "$made" "$(built_as "$name")"
        check_last "the bytes of $name"
    done
fi

# A clone, on a machine without a kit: what is on the path, but for rt.
clone=$work/clone
mkdir "$clone" "$work/path"
tar -c --exclude=out bin crates crates.txt HANDLES release examples | tar -x -C "$clone"
for tool in bash cat chmod cut dirname env find git gzip id mkdir mktemp mv readlink rm sed \
    sha256sum sort stat uname xargs; do
    ln -s "$(command -v "$tool")" "$work/path/$tool"
done
ln -s "$(python3 -c 'import sys; print(sys.executable)')" "$work/path/python3"
without_kit() {
    (cd "$clone" && env PATH="$work/path" HOME="$work" "$@") \
        <examples/first.txt >"$work/got" 2>"$work/errors"
    status=$?
}
commit() {
    git -C "$clone" add -A
    git -C "$clone" -c user.name=test -c user.email=test@localhost commit -qm "$1"
}
lines_of_errors() { [ "$(wc -l <"$work/errors")" = "$1" ]; }
printf '%s\n' 'ok 1' 'ok 2 A' "$a" >"$work/want"
git -C "$clone" init -q
printf 'out/\n__pycache__/\n' >"$clone/.gitignore"
# So that the clone's release is of the clone's sources, whatever was changed here since.
hash_of_clone() { (repository=$clone && sources_hash); }
sed -i "s/^sources .*/sources $(hash_of_clone)/" "$clone/release/list.txt"
commit "as released"

without_kit bin/cmcache apply --memory
check "a fresh clone runs the release" 0
lines_of_errors 0
check_last "and says nothing"
without_kit bin/cmcache --help
check_status "the help of a fresh clone" 0
grep -q "version $version" "$work/got"
check_last "is that of the release"

echo "// changed" >>"$clone/crates/cmcache/src/main.rt"
without_kit bin/cmcache apply --memory
check_status "changed sources are built, which takes a kit" 3 says
lines_of_errors 1
check_last "as one line says"
: >"$work/want"
check "and nothing is run" 3

commit "changed"
printf '%s\n' 'ok 1' 'ok 2 A' "$a" >"$work/want"
without_kit bin/cmcache apply --memory
check "a clean checkout of newer sources runs the release" 0
lines_of_errors 1
check_last "and says so in one line"
grep -q "version $version .*bin/build" "$work/errors"
check_last "which names the version and bin/build"

# A kit that proves nothing.
echo 'raise SystemExit(1)' >"$work/path/rt"
chmod 755 "$work/path/rt"
echo "// changed" >>"$clone/crates/cmcache/src/main.rt"
without_kit bin/cmcache apply --memory
check_status "changed sources aren't run unproved" 3 says
rm "$work/path/rt"
git -C "$clone" checkout -q -- crates

# A version has one set of bytes.
sed "s/^cmcache .*/cmcache $(printf '%064d' 0)/" "$clone/release/list.txt" >"$work/list"
[ -n "$(repository=$clone && other_release "$work/list")" ]
check_last "a version with other bytes than in the history is found"
[ -z "$(repository=$clone && other_release "$clone/release/list.txt")" ]
check_last "the same bytes under its version are right"
sed -i 's/^version .*/version 99.0.0/' "$work/list"
[ -z "$(repository=$clone && other_release "$work/list")" ]
check_last "other bytes under a new version are right"
[ -z "$(other_release release/list.txt)" ]
check_last "the release of this checkout has bytes of its own under its version"

# Bytes that aren't those of the list.
rm -rf "$clone/out"
head -c 100000 /dev/zero | gzip -9nc >"$clone/release/cmcache-x86_64.gz"
without_kit bin/cmcache apply --memory
check_status "an altered release isn't run" 3 says
printf 'cut' >"$clone/release/cmcache-x86_64.gz"
without_kit bin/cmcache apply --memory
check_status "a release that can't be unpacked isn't run" 3 says

finish
