#!/usr/bin/env bash
# `cm_show` on classes that the machine's Java compiler writes, and on those of the example's jar,
# compared with what Python reads in their class files (tests/show_files.py); the class files that
# it writes are those that were imported. Its help, usage errors, and what isn't there. Needs
# Python 3; without a JDK the compiled classes are left out.
set -u
cd "$(dirname "$0")/.." || exit 1
. tests/lib.sh

show=${CM_SHOW:-$(find_program cm_show)} # CM_SHOW names another build
importer=$(find_program cm_import)
paths=(examples/first.jar)
mkdir "$work/classes" "$work/folder"
if command -v javac >/dev/null && javac --release 8 -Xlint:none -nowarn -g -d "$work/classes" \
    tests/java/*.java 2>"$work/errors"; then
    paths+=("$work/classes")
fi
counted "classes" python3 tests/show_files.py "$show" "$importer" "$work/folder" "${paths[@]}"

# show ARGS..: the program.
show() {
    "$show" "$@" </dev/null >"$work/got" 2>"$work/errors"
    status=$?
}

cache=$work/folder/cache
show --help
check_status "the help" 0
check_streams "the help goes to standard output" some none
show "$cache" main
check_status "no class" 2 says
check_streams "a usage error says nothing on standard output" none some
show "$cache" main 'A%'
check_status "a class that is no name's spelling" 2 says
show "$cache" main A/missing
echo "no such class" >"$work/want"
check "a class that isn't there" 1
show "$cache" other A
echo "no such loader" >"$work/want"
check "a loader that isn't there" 1
show "$work/missing" main A
echo "device" >"$work/want"
check "a missing file is a failed device" 3
check_status "a missing file" 3 says
head -c 4096 /dev/zero >"$work/zeros"
show "$work/zeros" main A
check_status "a file that is no cache" 1
show "$cache" main A --class-file "$work/missing/A.class"
check_status "a class file that can't be written" 3 says
check_streams "nothing is printed then" none some
"$show" "$cache" main A </dev/null >/dev/full 2>"$work/errors"
status=$?
check_status "a full output" 3 says

finish
