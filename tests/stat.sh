#!/usr/bin/env bash
# `cm_stat FILE` and `cm_stat FILE --json` on sound and damaged files, compared with an independent
# program (tests/region.py): 300 files, of which some were damaged at random (FILES=N: another
# number, SEED=N: others); and its help, usage errors and files that can't be read. Needs Python 3.
set -u
cd "$(dirname "$0")/.." || exit 1
. tests/lib.sh

stat=${CM_STAT:-$(find_program cm_stat)} # CM_STAT names another build
WORK=$work counted "files" python3 tests/stat_files.py "$stat" "${FILES:-300}" "${SEED:-1}"

# stat ARGS..: the program.
stat() {
    "$stat" "$@" </dev/null >"$work/got" 2>"$work/errors"
    status=$?
}

stat --help
check_status "the help" 0
check_streams "the help goes to standard output" some none
stat
check_status "no file" 2 says
check_streams "a usage error says nothing on standard output" none some
stat a b
check_status "two files" 2 says
stat "$work/missing"
check_status "a missing file" 3 says
printf 'device\n' >"$work/want"
check "a missing file is a failed device" 3
"$stat" "$work/missing" --json </dev/null >"$work/got" 2>"$work/errors"
status=$?
check "a missing file, as JSON" 3
bin/cmcache format "$work/cache" >/dev/null
"$stat" "$work/cache" </dev/null >/dev/full 2>"$work/errors"
status=$?
check_status "a full output" 3 says

finish
