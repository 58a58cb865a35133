#!/bin/sh
# Runs the Rust side: the workspace's tests, the comparison with the original
# (of the Rattle library where it is built, else of the plain port), and the
# deliberate faults, whose page compare/FAULTS.md has to be what this run says.
# Needs cargo and, for the crate `fitcheck`, the library: its build script finds
# it, has `rt` build it, or says what to do. The last line is `N passed, M
# failed`; the status is 0 where nothing failed.

case $0 in
    */*) cd "${0%/*}" || exit 2 ;;
esac

if ! command -v cargo >/dev/null 2>&1; then
    echo "run-tests: cargo is not installed; see https://rustup.rs" >&2
    echo "0 passed, 1 failed"
    exit 1
fi

passed=0
failed=0

# Adds what a step reports. A step that ends badly without saying how often it
# failed counts as one failure.
# $1: the step's status; $2: its output.
add() {
    said=0
    while IFS= read -r line; do
        case $line in
            "test result: "*" passed; "*" failed; "*)
                line=${line#test result: *. }
                more=${line#* passed; }
                passed=$((passed + ${line%% passed; *}))
                failed=$((failed + ${more%% failed; *}))
                said=$((said + ${more%% failed; *}))
                ;;
            [0-9]*" passed, "[0-9]*" failed")
                more=${line#* passed, }
                passed=$((passed + ${line%% passed, *}))
                failed=$((failed + ${more%% failed}))
                said=$((said + ${more%% failed}))
                ;;
        esac
    done <<OUTPUT
$2
OUTPUT
    if [ "$1" -ne 0 ] && [ "$said" -eq 0 ]; then
        failed=$((failed + 1))
    fi
}

echo "== cargo test"
output=$(cargo test --offline --workspace --no-fail-fast 2>&1)
status=$?
printf '%s\n' "$output"
add "$status" "$output"

echo "== the comparison with the original"
output=$(cargo run --offline --release --quiet -p compare -- "$@" 2>&1)
status=$?
printf '%s\n' "$output"
add "$status" "$output"

echo "== the deliberate faults"
output=$(cargo run --offline --release --quiet -p compare -- --faults --check compare/FAULTS.md 2>&1)
status=$?
printf '%s\n' "$output"
add "$status" "$output"

echo "$passed passed, $failed failed"
[ "$failed" -eq 0 ]
