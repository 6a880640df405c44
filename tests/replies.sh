#!/usr/bin/env bash
# Scripts run by the built program: replies, refusals and statuses. Needs nothing beyond the
# machine's own tools.
set -u
. "$(dirname "$0")/lib.sh"


cp "$top/examples/first.txt" "$work/in"
printf 'ok 1\nok 2 A\nclass A flags 0021 super java/lang/Object words 16\n' >"$work/want"
run apply --memory
check "the first example" 0

: >"$work/in"
: >"$work/want"
run apply --memory
check "an empty script" 0

printf 'loader app' >"$work/in"
printf 'ok 1\n' >"$work/want"
run apply --memory
check "a script without a last newline" 0

printf '%s\n' 'loader app' '' loader 'loader  app' 'loader app ' 'find app' 'find app %41' \
    'find app %g0' 'find app A' nope >"$work/in"
{
    echo 'ok 1'
    for _ in $(seq 7); do echo 'refused 15 line'; done
    printf '%s\n' none 'refused 15 line'
} >"$work/want"
run apply --memory
check "lines of no known form" 1

{ printf 'loader '; head -c 16777210 /dev/zero | tr '\0' 'a'; printf '\nloader b\n'; } >"$work/in"
printf 'refused 15 line\nok 1\n' >"$work/want"
run apply --memory
check "a line of more than 16,777,216 bytes" 1

{ printf 'loader '; head -c 16777209 /dev/zero | tr '\0' 'a'; printf '\nloader b\n'; } >"$work/in"
printf 'refused 1 name\nok 1\n' >"$work/want"
run apply --memory
check "a line of 16,777,216 bytes" 1

printf 'loader a\xff\nfind a\xff A\nloader b\n' >"$work/in"
printf 'refused 1 name\nnone\nok 1\n' >"$work/want"
run apply --memory
check "bytes that aren't UTF-8" 1

for bytes in 47 48 49 95 96 97; do echo "loader $(name m $bytes)"; done >"$work/in"
{
    echo "find $(name m 97) A"
    echo "unload $(name m 97)"
    echo "loader $(name m 96)"
    echo "unloadall $(name m 49) $(name m 96) $(name m 48)"
    echo "loader $(name m 60) "
    printf 'loader %s\x7f\n' "$(name m 60)"
    echo "loader $(name m 49)"
} >>"$work/in"
printf '%s\n' 'ok 1' 'ok 2' 'ok 3' 'ok 4' 'ok 5' 'refused 1 name' none 'refused 1 name' \
    'refused 2 loader exists' 'ok 6' 'refused 15 line' 'refused 1 name' 'ok 7' >"$work/want"
run apply --memory
check "names of 47 to 97 bytes" 1

{
    echo "loader app"
    echo "define app ${class_a}00"
    echo "define app ${class_a%00}"
    echo "define app cafebabe00030034${class_a#cafebabe00000034}"
    echo "define app cafebabe00000035${class_a#cafebabe00000034}"
    echo "define app"
    echo "define app zz"
    echo "define nobody $class_a"
    echo "define app $class_a"
    echo "define app $class_a"
} >"$work/in"
printf '%s\n' 'ok 1' 'refused 14 trailing 53' 'refused 14 truncated' 'refused 14 malformed 5' \
    'refused 14 malformed 7' 'refused 15 line' 'refused 15 line' 'refused 3 no loader' 'ok 2 A' \
    'refused 4 class exists' >"$work/want"
run apply --memory
check "classes that are refused" 1

printf 'loader a\nloader b\ndefine a %s\ndefine b %s\ndefine a %s\n' "$class_a" "$class_a" \
    "$class_a" >"$work/in"
printf 'ok 1\nok 2\nok 3 A\nok 4 A\nrefused 4 class exists\n' >"$work/want"
run apply --memory
check "one class in two loaders" 1

# A class whose name is the two bytes c3a9.
n=cafebabe000000340005070002010002c3a907000401
n+=00106a6176612f6c616e672f4f626a6563740021000100030000000000000000
printf '%s\n' 'loader app' "define app $n" 'find app %c3%a9' >"$work/in"
printf '%s\n' 'ok 1' 'ok 2 %C3%A9' 'class %C3%A9 flags 0021 super java/lang/Object words 16' \
    >"$work/want"
run apply --memory
check "a name outside ASCII" 0

{
    printf '%s\n' 'unload app' 'loader app' "define app $class_a" 'unload app' 'find app A' \
        'unload app' 'loader app' 'find app A' "define app $class_a"
    printf 'unload\nunload app ext\nunload  app\nunload app \nunload \xff\n'
    printf '%s\n' 'unload %41' 'loader %41' 'unload %41'
} >"$work/in"
printf '%s\n' 'refused 3 no loader' 'ok 1' 'ok 2 A' 'ok 3' none 'refused 3 no loader' 'ok 4' none \
    'ok 5 A' 'refused 15 line' 'refused 15 line' 'refused 15 line' 'refused 15 line' \
    'refused 1 name' 'refused 3 no loader' 'ok 6' 'ok 7' >"$work/want"
run apply --memory
check "loaders that are unloaded" 1

{
    printf 'loader a\nloader b\ndefine a %s\ndefine b %s\n' "$class_a" "$class_a"
    printf '%s\n' 'unloadall a c' 'unloadall a a' 'unloadall b a' 'find a A'
    printf '%s\n' 'unloadall a b c d e f g h' 'unloadall' 'unloadall ' 'unloadall a  b' \
        'unloadall a '
    printf 'unloadall \xff b b\nunloadall \xff b\nunloadall b \xff\n'
    printf '%s\n' 'loader a' 'unloadall a' 'unloadall a b c d e f g'
} >"$work/in"
printf '%s\n' 'ok 1' 'ok 2' 'ok 3 A' 'ok 4 A' 'refused 3 no loader' 'refused 16 list' 'ok 5' none \
    'refused 16 list' 'refused 15 line' 'refused 15 line' 'refused 15 line' 'refused 15 line' \
    'refused 16 list' 'refused 1 name' 'refused 1 name' 'ok 6' 'ok 7' 'refused 3 no loader' \
    >"$work/want"
run apply --memory
check "loaders that are unloaded at once" 1

printf 'loader a\ndefine a %s\ndefine a %s\ntighten a\ntighten a\nfind a A\nfind a B\n' \
    "$(padded A 0)" "$(padded B 864)" >"$work/in"
printf '%s\n' 'ok 1' 'ok 2 A' 'ok 3 B' 'ok 4' 'refused 8 no move' \
    'class A flags 0021 super java/lang/Object words 20' \
    'class B flags 0021 super java/lang/Object words 128' >"$work/want"
run apply --memory
check "a loader's last chunk moves" 1

# A hundred classes in two loaders: a root holds many.
number=2
printf 'loader a\nloader b\n' >"$work/in"
printf 'ok 1\nok 2\n' >"$work/want"
for loader in a b; do
    for byte in $(seq 65 90) $(seq 97 120); do
        number=$((number + 1))
        # shellcheck disable=SC2059
        printf "define $loader ${class_a/000141/0001$(printf %02x "$byte")}\n" >>"$work/in"
        # shellcheck disable=SC2059
        printf "ok $number \\x$(printf %02x "$byte")\n" >>"$work/want"
    done
done
run apply --memory
check "a hundred classes" 0

{
    for i in $(seq 2050); do echo "loader l$i"; done
    printf '%s\n' "define l1 $class_a" 'unload l2' "define l1 $class_a" 'loader l2'
} >"$work/in"
{
    for i in $(seq 2048); do echo "ok $i"; done
    for i in 1 2 3; do echo "refused 7 journal full"; done
    printf '%s\n' 'ok 2049' 'ok 2050 A' 'refused 7 journal full'
} >"$work/want"
run apply --memory
check "as many loaders and classes as may live" 1

finish
