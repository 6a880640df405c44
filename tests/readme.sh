#!/usr/bin/env bash
# The commands of README.md run unchanged, in an empty folder that has bin/, c/ and examples/. Those
# in fences print what README.md says; of the indented ones tests/run is left out.
set -u
cd "$(dirname "$0")/.." || exit 1
. tests/lib.sh

# Each fenced block of commands to its own file in $work, and what it prints, if that follows, to
# another one; each indented block to a file of the other kind.
awk -v work="$work" '
    /^```/ && !inside {
        inside = 1
        kind = substr($0, 4)
        if (kind == "sh") blocks++
        file = work "/block" blocks (kind == "sh" ? ".sh" : ".out")
        if (kind != "sh" && kind != "" || !blocks) file = "/dev/null"
        next
    }
    /^```/ { inside = 0; next }
    inside { print >file; next }
    /^    / { if (!indented) indents++; indented = 1; print >(work "/indented" indents ".sh") }
    !/^    / { indented = 0 }' README.md

# new_place: a folder for a block.
new_place() {
    place=$(mktemp -d -p "$work")
    mkdir "$place/bin" "$place/tests"
    ln -s "$top"/bin/* "$place/bin"
    ln -sf "$program" "$place/bin/cmcache"
    ln -s "$top/examples" "$top/c" "$top/out" "$place"
    echo exit >"$place/tests/run"
    chmod 755 "$place/tests/run"
}

for block in "$work"/block*.sh; do
    new_place
    (cd "$place" && bash -e "$block") >"$work/got" 2>"$work/errors"
    status=$?
    cp "${block%.sh}.out" "$work/want"
    check "README.md: $(head -n 1 "$block")" 0
done
for block in "$work"/indented*.sh; do
    new_place
    (cd "$place" && bash -e "$block") >"$work/got" 2>"$work/errors"
    status=$?
    check_status "README.md: $(sed -n 's/^ *//;1p' "$block")" 0
done

finish
