#!/bin/sh
# Runs ./widen on folders of files and compares what it gives, byte for byte; then what it does with what is no file. How a program is
# built, tests/check.sh looks at. Its last line is 'N passed, M failed'; it exits non-zero where anything failed.
set -u
script=widen
. "$(dirname "$0")/programs.sh"

# bytes HEX..: words of hexadecimal digits, each the bytes of a little-endian number, lowest first
bytes() {
    # shellcheck disable=SC2059
    printf "$(printf '%s\n' "$@" | awk '
        function digit(c) { return index("0123456789ABCDEF", c) - 1 }
        { for (k = length($0) - 1; k > 0; k -= 2) printf "\\%03o", 16 * digit(substr($0, k, 1)) + digit(substr($0, k + 1, 1)) }')"
}

# widens NAME OLD NEW: a folder with that old catalogue gives the new one
widens() {
    mkdir -p "$room/$1"
    cp "$2" "$room/$1/types.bin"
    gives "$1" "$room/$1" "$3"
}

# zeros NAME BYTES TEXT: so many zero bytes, or none for -, and the text
zeros() {
    mkdir -p "$room/$1"
    [ "$2" = - ] || head -c "$2" /dev/zero >"$room/$1/types.bin"
    # shellcheck disable=SC2059
    printf "$3" >"$room/$1.expected"
    gives "$1" "$room/$1" "$room/$1.expected"
}

# the sample is the catalogue that the others share, in the old form
gives 'samples/old' "$root/samples/old" "$root/samples/clear/types.bin"

# the worked bytes of docs/FORMAT.md
hex catalogue >"$room/page.new"
(head -c 188 "$room/page.new" && hex old) >"$room/page.old"
widens 'docs/FORMAT.md' "$room/page.old" "$room/page.new"

# without bases both forms are one
head -c 20 /dev/zero >"$room/bare"
widens '20 zero bytes' "$room/bare" "$room/bare"

# every class of f32, and the f64 that is the same number: both zeros; subnormals; normal numbers; infinities; NaN of both signs, quiet,
# with payloads and signalling, which are one
classes='
00000000 0000000000000000
80000000 8000000000000000
00000001 36A0000000000000
80000001 B6A0000000000000
00000002 36B0000000000000
00345678 37FA2B3C00000000
80400000 B800000000000000
007FFFFF 380FFFFFC0000000
807FFFFF B80FFFFFC0000000
00800000 3810000000000000
80800000 B810000000000000
3F800000 3FF0000000000000
3FC00000 3FF8000000000000
C0200000 C004000000000000
4B7FFFFF 416FFFFFE0000000
7F7FFFFF 47EFFFFFE0000000
FF7FFFFF C7EFFFFFE0000000
7F800000 7FF0000000000000
FF800000 FFF0000000000000
7FC00000 7FF8000000000000
FFC00000 7FF8000000000000
7FC00001 7FF8000000000000
7FEDCBA9 7FF8000000000000
FFFFFFFF 7FF8000000000000
7F800001 7FF8000000000000
7FBFFFFF 7FF8000000000000
FF800001 7FF8000000000000
FFA00000 7FF8000000000000
'
count=$(printf '%s' "$classes" | grep -c .)
# type 7 with all of them, under attributes of either sign
front() {
    bytes 00000000 00000000 00000000 00000000 "$(printf '%08X' "$count")"
    for _ in $(seq "$count"); do bytes 00000007; done
}
# shellcheck disable=SC2086
{
    front
    printf '%s' "$classes" | awk 'NF { printf "%08X %s\n", NR % 2 ? 4294967296 - NR : NR, $1 }' | while read -r id single; do bytes $id $single; done
} >"$room/classes.old"
# shellcheck disable=SC2086
{
    front
    printf '%s' "$classes" | awk 'NF { printf "%08X %s\n", NR % 2 ? 4294967296 - NR : NR, $2 }' | while read -r id double; do bytes $id $double; done
} >"$room/classes.new"
[ "$(wc -c <"$room/classes.old")" -eq $((20 + 12 * count)) ] && [ "$(wc -c <"$room/classes.new")" -eq $((20 + 16 * count)) ]
verdict "$count classes in both forms" $?
widens 'every class of f32' "$room/classes.old" "$room/classes.new"

# as long as the program takes: one name and 5,459 bases, all of them 0; then 87,372 bytes are written
(bytes 00000001 00000000 00000000 00000000 00001553 && head -c 65516 /dev/zero) >"$room/longest.old"
(bytes 00000001 00000000 00000000 00000000 00001553 && head -c 87352 /dev/zero) >"$room/longest.new"
widens '65536 bytes' "$room/longest.old" "$room/longest.new"
(cat "$room/longest.old" && bytes 00) >"$room/longer.old"
echo 'too long' >"$room/too-long"
widens '65537 bytes' "$room/longer.old" "$room/too-long"

# refused: another length, a new catalogue among them; keys; fields
zeros '19 zero bytes' 19 'refused 1\n'
zeros '21 zero bytes' 21 'refused 1\n'
zeros 'no types.bin' - 'refused 1\n'
zeros '65536 zero bytes' 65536 'refused 1\n'
zeros '200000 zero bytes' 200000 'too long\n'
for number in 1 2 3; do
    echo "refused $number" >"$room/refused.$number"
done
widens 'a new catalogue' "$room/page.new" "$room/refused.1"
bytes 00000000 00000000 00000000 00000000 00000002 00000009 00000008 00000001 3F800000 00000001 3F800000 >"$room/descend"
widens 'bases descend' "$room/descend" "$room/refused.2"
bytes 00000000 00000001 00000000 00000000 00000001 00000005 00000009 00000007 00000001 3F800000 >"$room/mark"
widens 'mark 9' "$room/mark" "$room/refused.3"

# the folder is the caller's, and where none is named the one that it is run in
(cd "$root/samples" && ../widen old) | cmp -s - "$root/samples/clear/types.bin"
verdict 'a folder seen from elsewhere' $?
(cd "$root/samples/old" && ../../widen) | cmp -s - "$root/samples/clear/types.bin"
verdict 'no folder named' $?
mkdir "$room/nothing"
(cd "$room/nothing" && "$root/widen") >"$room/wrote" 2>"$room/said" && [ "$(cat "$room/wrote")" = 'refused 1' ] &&
    grep -q 'no types.bin' "$room/said" && grep -q 'samples/old' "$room/said"
verdict 'no folder named and no file' $?

lines "$root/samples/old"
unreadable types.bin "$root/samples/old" "$root/samples/clear/types.bin"

finish
