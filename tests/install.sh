#!/usr/bin/env bash
# What bin/install puts below a prefix works without the checkout: the programs, a C program that is
# linked by cmcache.pc, a Java program by the jar, and the manual pages. Needs a C compiler and a
# JDK.
set -u
cd "$(dirname "$0")/.." || exit 1
. tests/lib.sh

to=$work/usr
bin/install "$to" >"$work/log" 2>&1
check_last "bin/install"
DESTDIR=$work/package bin/install /usr >"$work/log" 2>&1
check_last "bin/install for a package"
(cd "$to" && find . -type f -o -type l | sort) >"$work/want"
(cd "$work/package/usr" && find . -type f -o -type l | sort) >"$work/got"
status=0
check "the same files below DESTDIR" 0
grep -q '^prefix=/usr$' "$work/package/usr/lib/pkgconfig/cmcache.pc"
check_last "cmcache.pc names the prefix without DESTDIR"

# As on a machine where nothing is set.
alone() {
    (cd "$work" && env -i PATH="$to/bin:/usr/bin:/bin" "$@") <"$work/in" \
        >"$work/got" 2>"$work/errors"
    status=$?
}
cp examples/first.txt "$work/in"
alone cmcache format f
alone cmcache apply f
a='class A flags 0021 super java/lang/Object words 16'
printf '%s\n' 'ok 1' 'ok 2 A' "$a" >"$work/want"
check "the installed program" 0
alone cm_import f jar "$PWD/examples/first.jar"
check_status "the installed importer" 0
alone cm_stat f
check_status "the installed statistics" 0
alone cm_show f jar A
check_status "the installed reader of classes" 0
printf 'geometry 3 1 256\n' >"$work/in"
alone cm_simulate
check_status "the installed simulator" 0

# link NAME WORD..: links the example by these words, and defines a class with it.
: >"$work/in"
link() {
    cc -std=c11 "-I$to/include" -o "$work/$1" examples/c/define.c "${@:2}"
    check_last "$1 is linked"
    unzip_class >"$work/A.class"
    rm -f "$work/g"
    alone "$work/$1" g A "$work/A.class"
    check_status "$1 runs" 0
}
unzip_class() { python3 -c 'import sys, zipfile
sys.stdout.buffer.write(zipfile.ZipFile("examples/first.jar").read("A.class"))'; }
link shared "-L$to/lib" -lcmcache "-Wl,-rpath,$to/lib"
ldd "$work/shared" | grep -q "libcmcache.so.0 => $to/lib/libcmcache.so.0"
check_last "by its soname"
link static "$to/lib/libcmcache.a" -lpthread
if command -v pkg-config >/dev/null; then
    PKG_CONFIG_PATH=$to/lib/pkgconfig
    export PKG_CONFIG_PATH
    # The words are meant to be split.
    # shellcheck disable=SC2046
    link by_pkg_config $(pkg-config --cflags --libs cmcache) "-Wl,-rpath,$to/lib"
    [ "$(pkg-config --modversion cmcache)" = "$(released version)" ]
    check_last "the version of cmcache.pc"
fi

cp examples/java/Scan.java "$work"
alone java -cp "$to/share/java/cmcache.jar" Scan.java h app "$PWD/examples/first.jar"
check_status "the installed jar" 0
grep -q ' classes, [1-9][0-9]* of them stored' "$work/errors"
check_last "stores classes"
alone java -cp "$to/share/java/cmcache.jar" Scan.java h app "$PWD/examples/first.jar"
check_status "a second start by the jar" 0
grep -q ' classes, 0 of them stored' "$work/errors"
check_last "stores none"

for page in "$to"/share/man/man1/*.1; do
    grep -q "^.TH .* \"cmcache $(released version)\"$" "$page"
    check_last "the version of $(basename "$page")"
    if command -v groff >/dev/null; then
        [ -z "$(groff -man -Tutf8 -ww "$page" 2>&1 >"$work/page")" ] && [ -s "$work/page" ]
        check_last "$(basename "$page") is laid out without a warning"
    fi
done

finish
