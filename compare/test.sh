#!/bin/sh
# The gate: `rt ci`, then the comparison with the second program. Its very last line is 'N passed, 0 failed', and it ends with status 0 only
# then.
set -u
out=build
mkdir -p "$out"
passed=0
failed=0

# runs one part and adds its counts, which its last line gives as 'N passed, M failed': a NAME for its output, then the command
part() {
    name=$1
    shift
    { "$@" 2>&1; echo $? > "$out/$name.status"; } | tee "$out/$name.txt"
    status=$(cat "$out/$name.status")
    # a part that does not get to its last line has failed
    set -- $(sed -n '$s/^\([0-9][0-9]*\) passed, \([0-9][0-9]*\) failed$/\1 \2/p' "$out/$name.txt")
    passed=$((passed + ${1:-0}))
    failed=$((failed + ${2:-1}))
    [ "$status" -eq 0 ] || [ "$failed" -gt 0 ] || failed=1
}

part ci rt ci
# a must-fail edit that could not be applied or read says nothing of a contract, and rt ci passes all the same
if grep -q '^rt: ok.*, [1-9][0-9]* bad' "$out/ci.txt"; then
    echo "failed: bad must-fail edits"
    failed=$((failed + 1))
fi
[ "$failed" -gt 0 ] || part compare make -s --no-print-directory compare
echo "$passed passed, $failed failed"
[ "$failed" -eq 0 ]
