#!/usr/bin/env bash
# Builds the library, and runs the tests of its packages in C, Python and Rust by pytest, in as many processes as there
# are processors; then those that measure, alone. The last line is the count. Words are those of `bindings/build.sh`.
set -eu
cd "$(dirname "$0")/.."
# The seconds after which all of it has hung: each test has its own limit.
most=7200
bindings/build.sh "$@"
made=$(mktemp -d)
trap 'rm -rf "$made"' EXIT
passed=0
failed=0
status=0

# The number that pytest's last line has before these words.
counted() {
    tail -n 1 "$made/log" | grep -oE "[0-9]+ ($1)\b" | awk '{sum += $1} END {print sum + 0}'
}

# Runs the tests of this marker, with these words, and adds what pytest counts. A call that ends otherwise has failed.
run_tests() {
    marker=$1
    shift
    ended=0
    timeout --kill-after=10 "$most" /usr/bin/python3 -m pytest bindings/tests --quiet --durations=10 -m "$marker" "$@" \
        >"$made/log" 2>&1 || ended=$?
    cat "$made/log"
    passed=$((passed + $(counted passed)))
    less=$(counted 'failed|errors?')
    # 5: there are no tests of this marker.
    if [ "$ended" != 0 ] && [ "$ended" != 5 ]; then
        status=1
        if [ "$less" = 0 ]; then less=1; fi
    fi
    failed=$((failed + less))
}

# Where a test ends its process, so does the run: pytest may wait for ever for one that it would start in its place.
run_tests "not measures" --numprocesses "$(nproc)" --dist loadfile --max-worker-restart 0
run_tests measures
if [ "$passed" = 0 ]; then failed=$((failed + 1)); fi
echo "$passed passed, $failed failed"
[ "$status" = 0 ] && [ "$failed" = 0 ]
