#!/bin/sh
# Compares the proved programs, which must be built, with the second program: `make compare`, and the second part of `make test`. Its last
# line is 'N passed, M failed', and it ends with status 0 only if M is 0.
set -u
out=build
mkdir -p "$out"
passed=0
failed=0

# compiles one program: its main file, its name
compile() {
    rustc -O --edition 2021 -D warnings "$1" -o "$out/$2"
}

# runs one check, given as a command, and counts it
check() {
    if "$@"; then
        passed=$((passed + 1))
    else
        echo "failed: $*"
        failed=$((failed + 1))
    fi
}

# compares record by record: LABEL, the batch to generate and its COUNT, the proved program, the second program's sub-command
records() {
    "$out/generate" "$2" 1 "$3" > "$out/$1.batch" &&
        sh run.sh "$4" < "$out/$1.batch" > "$out/$1.proved" &&
        "$out/second" "$5" < "$out/$1.batch" > "$out/$1.second" &&
        "$out/compare" "$out/$1.batch" "$out/$1.proved" "$out/$1.second" "$1"
}

# a batch of tables tells the rules that were followed from others that look like them: its LABEL
rules() {
    "$out/second" rules < "$out/$1.batch"
}

# compares whole reports, on two batches, of which the second has parallel links, and on the example plans
reports() {
    "$out/generate" reports 1 1300 > "$out/reports.batch" &&
        "$out/generate" parallel 1 400 > "$out/parallel.batch" &&
        cat "$out/reports.batch" "$out/parallel.batch" > "$out/all.batch" &&
        "$out/compare_reports" "sh run.sh nightplan" "$out/second report" "$out/all.batch" plans/*.plan
}

# what the proved programs said of the same plans before parallel links came, they still say
kept() {
    "$out/generate" reports 1 1300 > "$out/kept.batch" &&
        "$out/compare_kept" check "sh run.sh nightplan" "sh run.sh codec" compare/kept.txt "$out/kept.batch" plans/*.plan
}

# the second program writes what a proved program's stored run has: the proved program, the second program's sub-command
stored() {
    "$out/second" "$2" < "crates/$1/stdin" > "$out/$1.stored" && cmp "$out/$1.stored" "crates/$1/stdout"
}

# an example plan that is drawn stands there as it is drawn
example() {
    "$out/generate" example "$1" | cmp - "plans/$1.plan"
}

if compile second/second.rs second && compile compare/generate/main.rs generate && compile compare/compare.rs compare &&
    compile compare/compare_reports.rs compare_reports && compile compare/compare_kept.rs compare_kept; then
    check "$out/second" selftest
    check stored codec codec
    check stored answers tables
    check stored nightplan report
    check records codec codec 3000 codec codec
    check records answers tables 500 answers tables
    check rules answers
    check reports
    check kept
    for name in full ring bare; do
        check example "$name"
    done
else
    failed=1
fi
echo "$passed passed, $failed failed"
[ "$failed" -eq 0 ]
