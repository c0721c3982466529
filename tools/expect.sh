# shellcheck shell=bash
# What the try scripts count by; sourced. `expect WHAT WANTED GOT` for each trial, `tally NAME` at the end.
passed=0 failed=0

expect() {
    if [ "$2" = "$3" ]; then
        passed=$((passed + 1))
    else
        failed=$((failed + 1))
        printf 'FAILED: %s\n  wanted: %s\n  got:    %s\n' "$1" "$2" "$3"
    fi
}

# The last line, and the status: something passed and nothing failed.
tally() {
    echo "$1: $passed passed, $failed failed"
    [ "$failed" = 0 ] && [ "$passed" != 0 ]
}
