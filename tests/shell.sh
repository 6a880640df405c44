#!/usr/bin/env bash
# The shell scripts of this repository have no finding of shellcheck, which is fetched from Debian's
# packages if it isn't installed.
set -u
cd "$(dirname "$0")/.." || exit 1
. tests/lib.sh

if ! command -v shellcheck >/dev/null; then
    { apt-get update -qq && apt-get install -y -qq shellcheck; } >"$work/log" 2>&1 || {
        tail -n 3 "$work/log"
        echo "0 passed, 1 failed"
        exit 1
    }
fi

# Those with a shell in their first line, and those that others source.
while read -r script; do
    shellcheck -x -P SCRIPTDIR "$script"
    check_last "shellcheck $script"
done < <(grep -lE '^#! ?/(usr/)?bin/(env )?(ba)?sh|^# shellcheck shell=' \
    .ci/* bin/* tests/* tests/ci/* bench/* examples/* 2>/dev/null)

finish
