#!/usr/bin/env bash
# Classes that the machine's Java compiler writes for version 52.0 are accepted, and found again
# with the flags and the super class that the JDK's own disassembler prints; their records have each
# method's max stack, max locals and code length as it prints them. The same classes with single
# bytes changed get the replies of tests/oracle.py, which shares no code with the program; it also
# gives those of tests/vectors. Needs a JDK (javac, javap) and Python 3.
set -u
cd "$(dirname "$0")/.." || exit 1
. tests/lib.sh

mkdir "$work/classes"
if ! javac --release 8 -Xlint:none -nowarn -g -d "$work/classes" \
    tests/java/*.java 2>"$work/errors"; then
    cat "$work/errors"
    echo "0 passed, 1 failed"
    exit 1
fi

examples/define_lines.py app "$work/classes" >"$work/in"
echo "ok 1" >"$work/want"
number=1
names=()
while read -r file; do
    name=${file#"$work/classes/"}
    names+=("${name%.class}")
    number=$((number + 1))
    echo "ok $number ${name%.class}" >>"$work/want"
done < <(find "$work/classes" -name '*.class' | LC_ALL=C sort)

# What the disassembler says of a class: its flags and its super class.
told() {
    javap -v -p -cp "$work/classes" "$1" | awk '
        /^  flags: / && !flags { match($0, /0x[0-9a-f]+/); flags = substr($0, RSTART + 2, 4) }
        /^  super_class: / { print flags, $NF; exit }'
}

for name in "${names[@]}"; do
    echo "find app $name" >>"$work/in"
    read -r flags super < <(told "$work/classes/$name.class")
    echo "class $name flags $flags super $super" >>"$work/want"
done

run apply --memory
# The disassembler doesn't know the record's length.
sed -E -i 's/^(class .*) words [0-9]+$/\1/' "$work/got"
check "${#names[@]} compiled classes" 0

# What the disassembler says of each method: class, name, descriptor, and of its code max stack, max
# locals and the length, which is where the last instruction ends.
told_methods() {
    javap -v -p "$1" | awk '
        function size(mnemonic) {
            if (mnemonic ~ /^(.?return|athrow)$/) return 1
            if (mnemonic == "goto") return 3
            return mnemonic == "goto_w" ? 5 : "an end that this script does not know"
        }
        function tell() {
            code = stack == "" ? "none" : stack " " locals " " at + size(last)
            if (method) print class, method, descriptor, code
            method = stack = ""
        }
        /^  this_class: / { class = dotted = $NF; gsub("/", ".", dotted) }
        /^\{/ { inside = 1 }
        !inside { next }
        /^  [^ ].*;$/ { tell() }
        /^\}/ { tell(); inside = 0 }
        /^  static \{\};$/ { method = "<clinit>" }
        /^  [^ ].*\(.*;$/ { sub(/\(.*/, ""); method = $NF == dotted ? "<init>" : $NF }
        /^    descriptor: / { descriptor = $2 }
        /^      stack=/ { split($0, part, /[=,]/); stack = part[2]; locals = part[4] }
        /^ *[0-9]+: [a-z]/ { at = $1 + 0; last = $2 }'
}

# The records of these classes say the same.
bench=$(find_program cm_bench)
for name in "${names[@]}"; do told_methods "$work/classes/$name.class"; done >"$work/want"
bench/bench_classes.py "$work/classes" | "$bench" classes --methods >"$work/got"
status=$?
check "the code of $(wc -l <"$work/want") compiled methods" 0

# Every seventh byte of each class, changed in three ways.
mkdir "$work/changed"
tests/changed_classes.py "$work/classes" "$work/changed" 7
for script in "$work"/changed/*.in; do
    cp "$script" "$work/in"
    tests/oracle.py <"$work/in" >"$work/want"
    wanted=$?
    run apply --memory
    check "changed classes, $(basename "$script" .in)" "$wanted"
done

for script in tests/vectors/*.in; do
    tests/oracle.py <"$script" >"$work/got"
    status=$?
    cp "${script%.in}.out" "$work/want"
    check "the oracle on $(basename "$script" .in)" 1
done
finish
