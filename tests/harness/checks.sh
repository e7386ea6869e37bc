# What the tests that are scripts share. A script sets `test`, its name in
# programs.txt, and reads this file from the repository's root.
set -u

# A folder to work in.
work=$(mktemp -d)
trap 'rm -rf "$work"' EXIT

passed=0
failed=0

# check NAME COMMAND...: counts one check by the status of its command, whose
# output is shown if it fails.
check() {
    checked=$1
    shift
    if "$@" >"$work/out" 2>&1; then
        printf 'ok %s/%s\n' "$test" "$checked"
        passed=$((passed + 1))
    else
        printf 'FAIL %s/%s\n' "$test" "$checked"
        cat "$work/out"
        failed=$((failed + 1))
    fi
}

# The last line, and the exit status.
conclude() {
    echo "$test: $passed passed, $failed failed"
    [ "$failed" -eq 0 ]
}
