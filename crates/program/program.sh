# What the programs' scripts share: sourced by ./check and ./widen, which set `name` (as it is called), `crate` (what is built), `root` (the
# repository) and `usage` before. What a program does not tell by its exit status is told here.
program=$root/crates/$crate/out/$crate

# die STATUS WORDS..
die() {
    status=$1
    shift
    printf '%s: %s\n' "$name" "$*" >&2
    exit "$status"
}

say() {
    printf '%s: %s\n' "$name" "$*" >&2
}

version() {
    number=$(sed -n 's/^version = "\(.*\)"$/\1/p' "$root/rust/fitcheck/Cargo.toml" "$root/rust/Cargo.toml" | head -n 1)
    commit=
    [ -e "$root/.git" ] && commit=$(git -C "$root" describe --always --dirty 2>/dev/null)
    printf '%s %s%s\n' "$name" "$number" "${commit:+ ($commit)}" | cat
}

# enter WORDS..: what the command line asks for; leaves the folder in `dir` and goes there
enter() {
    case ${1-} in
    -h | --help)
        usage || exit 1
        exit 0
        ;;
    --version)
        version || exit 1
        exit 0
        ;;
    -*)
        say "no such option: $1"
        usage >&2
        exit 2
        ;;
    esac
    if [ $# -gt 1 ]; then
        usage >&2
        exit 2
    fi
    dir=${1-.}
    [ -d "$dir" ] || die 2 "no such folder: '$dir'"
    cd -- "$dir" || die 2 "cannot enter the folder '$dir'"
}

# image FILE WHAT: says where it is absent or a pipe, and ends where it is there and cannot be read
image() {
    if [ ! -e "$1" ] && [ ! -L "$1" ]; then
        say "no $1 in the folder '$dir': the $2 counts as empty"
    elif [ -d "$1" ]; then
        die 1 "$1 in the folder '$dir' is itself a folder, and should be the $2"
    elif [ -p "$1" ]; then
        say "$1 is a pipe: the $2 is what is written to it, up to its end"
    elif ! why=$(LC_ALL=C head -c 65537 -- "$1" 2>&1 >/dev/null); then
        die 1 "the $2, $1 in the folder '$dir', cannot be read: ${why##*: }"
    fi
}

is_built() {
    [ -x "$program" ] && [ -z "$(find "$root/crates.txt" "$root/crates" -name out -prune -o -type f \( -name '*.rt' -o -name '*.antt' -o -name crates.txt \) -newer "$program" -print | head -n 1)" ]
}

# Proves and builds the program; each crate is shown as soon as its proof begins. rt builds a program in order to run it: there it finds no
# files, and what it prints is let go.
build() {
    command -v rt >/dev/null || die 2 "rt, the command of the Rattle kit, is not on the PATH; it builds the program"
    if [ -x "$program" ]; then
        say 'sources have changed: proving what is new and building the program'
    else
        say "proving and building the program; from nothing this takes many minutes. The last crate is $crate."
    fi
    : >"$room/began"
    {
        cd "$root/crates/$crate" && rt run 2>&1 >/dev/null
        echo "$?" >"$room/status"
    } | while IFS= read -r line; do
        printf '%s\n' "$line" >>"$room/log"
        case $line in
        'rt: running '*) ;;
        'rt: '*) printf '%s\n' "$line" >&2 ;;
        esac
    done
    if [ "$(cat "$room/status")" != 0 ] || [ ! -x "$program" ]; then
        tail -n 20 "$room/log" >&2
        die 2 "the program is not built: rt run in crates/$crate failed"
    fi
    # rt leaves a program alone whose sources are as they were; its age now says that it is as new as they are
    touch -r "$room/began" "$program"
}

# Runs the program, which is built first where it has to be, and passes on what it wrote, bytes as they are.
answer() {
    room=$(mktemp -d) || die 2 'no room for what the program writes'
    trap 'rm -rf "$room"' EXIT
    trap 'exit 2' HUP INT TERM
    is_built || build
    "$program" >"$room/answer" || die 1 "the program ended with status $? and gave no answer"
    [ -s "$room/answer" ] || die 1 'the program gave no answer'
    cat "$room/answer"
    status=$?
    # 141: whoever read the answer has seen enough
    [ "$status" -eq 0 ] || [ "$status" -eq 141 ] || die 1 'the answer could not be written'
    exit "$status"
}
