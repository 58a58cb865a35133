#!/bin/sh
# Runs ./check on folders of files and compares what it prints, byte for byte; then what it does with what is no file, and
# how it builds its program. Its last line is 'N passed, M failed'; it exits non-zero where anything failed.
set -u
script=check
. "$(dirname "$0")/programs.sh"

# zeros NAME TYPES FIT TEXT: files of so many zero bytes, or none for -, and the text that document 01 gives
zeros() {
    mkdir -p "$room/$1"
    [ "$2" = - ] || head -c "$2" /dev/zero >"$room/$1/types.bin"
    [ "$3" = - ] || head -c "$3" /dev/zero >"$room/$1/fit.bin"
    # shellcheck disable=SC2059
    printf "$4" >"$room/$1.expected"
    gives "$1" "$room/$1" "$room/$1.expected"
}

for sample in clear faulted hangar refused; do
    gives "samples/$sample" "$root/samples/$sample" "$root/samples/$sample/expected"
done

zeros '20 and 36 zero bytes' 20 36 '0 0 19 0 0 0 0 0\ncount 1\n'
zeros '19 and 36 zero bytes' 19 36 'refused 1\n'
zeros '20 and 35 zero bytes' 20 35 'refused 4\n'
zeros 'no files' - - 'refused 1\n'
zeros 'no types.bin' - 36 'refused 1\n'
zeros 'no fit.bin' 20 - 'refused 4\n'
zeros 'types.bin of 65536 bytes' 65536 36 'refused 1\n'
zeros 'types.bin of 65537 bytes' 65537 36 'too long\n'
zeros 'types.bin of 200000 bytes' 200000 36 'too long\n'
zeros 'fit.bin of 65536 bytes' 20 65536 'refused 4\n'
zeros 'fit.bin of 65537 bytes' 20 65537 'too long\n'
zeros 'both of 65537 bytes' 65537 65537 'too long\n'
zeros 'a long fit.bin without types.bin' - 65537 'too long\n'

# full NAME SKILLS: 256 items in one rig slot, of a type that is missing, each of which breaks nine rules, and so many types that are
# no skills: 2,304 entries and one for each such type. 65,520 bytes hold 2,730.
full() {
    mkdir -p "$room/$1"
    # shellcheck disable=SC2059
    printf "$(awk '
        function u8(n) { printf "\\%03o", n }
        function u16(n) { u8(n % 256); u8(int(n / 256)) }
        function u32(n) { u16(n % 65536); u16(int(n / 65536)) }
        BEGIN {
            u32(6); u32(0); u32(1); u32(0); u32(0)
            # rigSize, canFitShipGroup01, maxGroupFitted, maxGroupOnline, maxGroupActive, maxTypeFitted: numbers, then ids
            for (k = 0; k < 2; k++) { u32(33); u32(47); u32(72); u32(73); u32(74); u32(75) }
            # the hull: type 587, group 25, category 6, no volume
            u32(587); u32(25); u32(6); u32(0); u32(0)
        }')" >"$room/$1/types.bin"
    # shellcheck disable=SC2059
    printf "$(awk -v skills="$2" '
        function u8(n) { printf "\\%03o", n }
        function u16(n) { u8(n % 256); u8(int(n / 256)) }
        function u32(n) { u16(n % 65536); u16(int(n / 65536)) }
        function one() { u32(0); u16(0); u16(16368) }
        function two() { u32(0); u16(0); u16(16384) }
        BEGIN {
            u32(skills); u32(256); u32(256); u32(1 + 6 * 256)
            u32(587); u32(0); u32(0)
            for (k = 1; k <= skills; k++) u32(k)
            for (k = 1; k <= skills; k++) u8(5)
            for (k = 0; k < 256; k++) { u32(5); u32(1); u8(3); u8(0); u16(0) }
            u8(0); u8(0); u16(1)
            u32(0)
            for (k = 0; k < 256; k++) { u8(2); u8(0); u16(6) }
            u32(33)
            for (k = 0; k < 256; k++) { u32(33); u32(47); u32(72); u32(73); u32(74); u32(75) }
            one()
            for (k = 0; k < 256; k++) { two(); one(); one(); one(); one(); one() }
        }')" >"$room/$1/fit.bin"
    gives "$1" "$room/$1" "$room/$1.expected"
}

# NotASkill; NotAModule and SlotTaken, pair by pair; RigSize; ShipRestricted; MaxGroup in its three states; MaxType; UnknownType
awk 'BEGIN {
    for (k = 1; k <= 426; k++) print "0 0 21 0 " k " 0 0 0"
    for (k = 0; k < 256; k++) { print "1 " k " 4 0 0 0 0 0"; print "1 " k " 8 0 0 0 0 0" }
    for (k = 0; k < 256; k++) print "1 " k " 12 0 1 2 0 0"
    for (k = 0; k < 256; k++) print "1 " k " 13 0 0 0 0 0"
    for (l = 0; l < 3; l++) for (k = 0; k < 256; k++) print "1 " k " 17 " l " 0 256 1 0"
    for (k = 0; k < 256; k++) print "1 " k " 18 0 5 256 1 0"
    for (k = 0; k < 256; k++) print "1 " k " 26 0 5 0 0 0"
    print "count 2730"
}' >"$room/2730 entries.expected"
full '2730 entries' 426
echo 'refused 10' >"$room/2731 entries.expected"
full '2731 entries' 427

# the worked bytes of docs/FORMAT.md, and what the page says that is printed of them
mkdir "$room/page"
hex catalogue >"$room/page/types.bin"
hex fit >"$room/page/fit.bin"
awk '/^```/ { inside = $0 == "```text printed"; next } inside' "$page" >"$room/page.expected"
[ -s "$room/page.expected" ]
verdict 'docs/FORMAT.md has what is printed' $?
gives 'docs/FORMAT.md' "$room/page" "$room/page.expected"

# the same with item 0 of type 2049, which the catalogue lacks: UnknownType at the end
cp -R "$room/page" "$room/missing"
printf '\001' | dd of="$room/missing/fit.bin" bs=1 seek=33 conv=notrunc 2>/dev/null
printf '%s\n' '0 0 1 0 0 1080217600 0 1080049664' '1 0 4 0 0 0 0 0' '1 0 8 0 0 0 0 0' '1 1 8 0 0 0 0 0' '1 0 26 0 2049 0 0 0' \
    'count 5' >"$room/missing.expected"
gives 'docs/FORMAT.md, a type missing' "$room/missing" "$room/missing.expected"

# the folder is the caller's, and where none is named the one that it is run in
(cd "$root/samples" && ../check clear) | cmp -s - "$root/samples/clear/expected"
verdict 'a folder seen from elsewhere' $?
(cd "$root/samples/faulted" && ../../check) | cmp -s - "$root/samples/faulted/expected"
verdict 'no folder named' $?
(CDPATH=$root/samples/faulted && export CDPATH && cd "$root/samples" && ../check clear) | cmp -s - "$root/samples/clear/expected"
verdict 'CDPATH names another folder' $?
ln -s "$root/check" "$room/link"
"$room/link" "$root/samples/clear" | cmp -s - "$root/samples/clear/expected"
verdict 'by a link to ./check' $?
mkdir "$room/nothing"
(cd "$room/nothing" && "$root/check") >"$room/wrote" 2>"$room/said" && [ "$(cat "$room/wrote")" = 'refused 1' ] &&
    grep -q 'no types.bin' "$room/said" && grep -q 'no fit.bin' "$room/said" && grep -q 'samples/faulted' "$room/said"
verdict 'no folder named and no files' $?

lines "$root/samples/clear" "$root/samples/faulted"
"$root/check" --help | grep -q fit.bin
verdict '--help tells of both files' $?
for image in types.bin fit.bin; do
    unreadable "$image" "$root/samples/clear" "$root/samples/clear/expected"
done

# The build, in a repository of its own whose rt proves nothing: each crate is shown as it is proved, sources that have
# changed are built again and others are not, and where nothing comes of it the status says so.
home=$room/repository
made=$home/crates/checker/out/checker
mkdir -p "$home/crates/words/src" "$home/crates/program" "$home/crates/checker" "$room/kit"
cp "$root/check" "$home"
cp "$root/crates/program/program.sh" "$home/crates/program"
touch -d '1 hour ago' "$home/crates.txt" "$home/crates/words/src/lib.rt"
cat >"$room/kit/rt" <<'EOF'
#!/bin/sh
echo 'rt: words is being proved' >&2
echo 'fn words::one: proved' >&2
[ ! -e ../../broken ] || exit 1
if ! [ -e out/checker ]; then
    mkdir -p out && printf '#!/bin/sh\necho count 0\n' >out/checker && chmod +x out/checker
    touch out/checked.antt
fi
echo 'rt: running out/checker; to give it other input, run that file yourself' >&2
exec out/checker
EOF
chmod +x "$room/kit/rt"

# built NAME WORDS: ./check there answers, and tells of building as the words say
built() {
    PATH=$room/kit:$PATH "$home/check" "$root/samples/clear" >"$room/wrote" 2>"$room/said" &&
        [ "$(cat "$room/wrote")" = 'count 0' ] && [ "$(cut -c 1-27 "$room/said")" = "$2" ]
    verdict "$1" $?
}

shown='rt: words is being proved'
mkdir "$room/tools"
for tool in cat dirname find head mktemp readlink rm; do
    ln -s "$(command -v "$tool")" "$room/tools"
done
says 'no rt' 2 'rt, the command of the Rattle kit, is not on the PATH' env PATH="$room/tools" "$home/check" "$root/samples/clear"
touch "$home/broken"
says 'a proof that fails' 2 'rt run in crates/checker failed' env PATH="$room/kit:$PATH" "$home/check" "$root/samples/clear"
grep -q 'fn words::one: proved' "$room/said"
verdict 'a proof that fails, its last lines' $?
rm "$home/broken"
built 'built from nothing' "check: proving and building
$shown"
built 'built already' ''
touch -d '1 hour ago' "$made"
touch -d '30 minutes ago' "$home/crates/words/src/lib.rt"
built 'a source has changed' "check: sources have changed
$shown"
built 'built again already' ''

finish
