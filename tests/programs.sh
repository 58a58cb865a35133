# What the tests of the programs' scripts share: sourced by tests/check.sh and tests/widen.sh, which set `script` (the script that is
# tested) before. A test's last line is 'N passed, M failed'.
root=$(cd "$(dirname "$0")/.." && pwd -P) || exit 2
room=$(mktemp -d) || exit 2
trap 'rm -rf "$room"' EXIT
passed=0
failed=0

# verdict NAME STATUS: counts one case
verdict() {
    if [ "$2" -eq 0 ]; then
        passed=$((passed + 1))
    else
        failed=$((failed + 1))
        echo "$1: FAILED"
    fi
}

# gives NAME FOLDER FILE: the script on the folder ends well and gives what the file has, byte for byte
gives() {
    "$root/$script" "$2" >"$room/wrote" 2>"$room/said"
    status=$?
    [ -s "$room/said" ] && sed "s|^|$1: |" "$room/said"
    if [ "$status" -eq 0 ] && cmp -s "$room/wrote" "$3"; then
        verdict "$1" 0
    else
        diff -a "$3" "$room/wrote" | head -n 10
        verdict "$1" 1
    fi
}

# says NAME STATUS WORDS COMMAND..: the command ends with the status, prints nothing, and says the words
says() {
    name=$1
    status=$2
    words=$3
    shift 3
    timeout 60 "$@" >"$room/wrote" 2>"$room/said"
    [ $? -eq "$status" ] && [ ! -s "$room/wrote" ] && grep -qF -- "$words" "$room/said"
    verdict "$name" $?
}

# unreadable IMAGE FOLDER FILE: copies of the folder in which that image is something else. What is there and cannot be read is not absent,
# and a pipe is read to its end, however late and in however many pieces; the file has what the script gives of the folder as it is.
unreadable() {
    for kind in folder astray loop error locked pipe; do
        mkdir -p "$room/$kind $1"
        cp "$2"/*.bin "$room/$kind $1"
        rm "$room/$kind $1/$1"
    done
    mkdir "$room/folder $1/$1"
    says "$1 is a folder" 1 "$1 in the folder" "$root/$script" "$room/folder $1"
    ln -s nowhere "$room/astray $1/$1"
    says "$1 is a link to nothing" 1 'cannot be read: No such file' "$root/$script" "$room/astray $1"
    ln -s "$1" "$room/loop $1/$1"
    says "$1 is a link to itself" 1 'cannot be read: Too many levels' "$root/$script" "$room/loop $1"
    # opens, and fails when it is read
    ln -s /proc/self/mem "$room/error $1/$1"
    says "$1 fails while it is read" 1 'cannot be read: Input/output error' "$root/$script" "$room/error $1"
    # root may read every file
    if [ "$(id -u)" -ne 0 ]; then
        cp "$2/$1" "$room/locked $1"
        chmod 000 "$room/locked $1/$1"
        says "$1 is locked" 1 'cannot be read: Permission denied' "$root/$script" "$room/locked $1"
    fi
    mkfifo "$room/pipe $1/$1"
    # shellcheck disable=SC2094
    (sleep 0.2 && head -c 20 && sleep 0.2 && cat) <"$2/$1" >"$room/pipe $1/$1" &
    timeout 60 "$root/$script" "$room/pipe $1" >"$room/wrote" 2>"$room/said" &&
        cmp -s "$room/wrote" "$3" && grep -q "$1 is a pipe" "$room/said"
    verdict "$1 is a pipe" $?
}

# lines FOLDER..: wrong usage, folders whose answer cannot be written (which is not a success), the version
lines() {
    says 'a folder that is not there' 2 'no such folder' "$root/$script" "$room/none"
    says 'a file in place of a folder' 2 'no such folder' "$root/$script" "$root/crates.txt"
    says 'an empty name' 2 'no such folder' "$root/$script" ''
    says 'two folders' 2 'usage:' "$root/$script" "$room" "$room"
    says 'an option that is not one' 2 'no such option: --types' "$root/$script" --types
    for words in "$@" --help --version; do
        "$root/$script" "$words" >/dev/full 2>"$room/said"
        [ $? -eq 1 ] && [ -s "$room/said" ]
        verdict "a full disk, $words" $?
    done
    "$root/$script" "$1" >&- 2>"$room/said"
    [ $? -eq 1 ] && grep -q 'could not be written' "$room/said"
    verdict 'no standard output' $?
    "$root/$script" --version >"$room/wrote" 2>"$room/said" &&
        grep -qE "^$script [0-9]+[.][0-9]+[.][0-9]+( [(].+[)])?\$" "$room/wrote" && [ ! -s "$room/said" ]
    verdict '--version' $?
    "$root/$script" --help >"$room/wrote" 2>"$room/said" && grep -q types.bin "$room/wrote" && [ ! -s "$room/said" ]
    verdict '--help' $?
}

# hex NAME: the bytes of that block of docs/FORMAT.md
page=$root/docs/FORMAT.md
hex() {
    # shellcheck disable=SC2059
    printf "$(awk -v opening="\`\`\`hex $1" '
        function digit(c) { return index("0123456789ABCDEF", c) - 1 }
        /^```/ { inside = $0 == opening; next }
        inside {
            split($0, cells, "|")
            n = split(cells[2], bytes, " ")
            for (k = 1; k <= n; k++) printf "\\%03o", 16 * digit(substr(bytes[k], 1, 1)) + digit(substr(bytes[k], 2, 1))
        }' "$page")"
}

finish() {
    echo "$passed passed, $failed failed"
    [ "$failed" -eq 0 ]
}
