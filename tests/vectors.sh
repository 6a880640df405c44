#!/usr/bin/env bash
# Scripts of changed class files, flag words and method handles; an independent program made the
# expected replies. Needs nothing beyond the machine's own tools.
set -u
cd "$(dirname "$0")/.." || exit 1
. tests/lib.sh

for script in tests/vectors/*.in; do
    name=$(basename "$script" .in)
    cp "$script" "$work/in"
    cp "tests/vectors/$name.out" "$work/want"
    run apply --memory
    check "$name" 1
done

finish
