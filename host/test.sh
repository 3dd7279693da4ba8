#!/usr/bin/env bash
# The host tests: the oracle's own, and the port's, beside the original Rust and on any input. What they run of the port, the library of C functions and the key program,
# is proved and built first, where that is not done yet. The last line sums the programs: 'N passed, M failed'.
set -euo pipefail
cd "$(dirname "$0")/.."
room=$(mktemp -d)
trap 'rm -rf "$room"' EXIT
host/library.sh
host/key.sh
host/build.sh
passed=0
failed=0

# Runs a program and adds up the counts on its last line. One that ends otherwise is one failure more.
counted() {
    local status=0 log=$room/$list.log
    "$@" | tee "$log" || status=$?
    if [[ $(tail -n 1 "$log") =~ ^([0-9]+)\ passed,\ ([0-9]+)\ failed$ ]]; then
        passed=$((passed + BASH_REMATCH[1]))
        failed=$((failed + BASH_REMATCH[2]))
        [ "$status" -eq 0 ] || [ "${BASH_REMATCH[2]}" -gt 0 ] || failed=$((failed + 1))
    else
        echo "FAILED $1: it ended with status $status and no counts"
        failed=$((failed + 1))
    fi
}

# Only one at a time: it writes files of its own.
keys() {
    flock "$room/keys.lock" target/host/keys "$@"
}

# Likewise: it has a folder of its own.
papers() {
    flock "$room/papers.lock" target/host/papers "$@"
}

# The examples in the comments of crates calls and gadulnos, each compiled and run by rustdoc, where that is installed.
documented() {
    local crate told passed=0 failed=0
    if ! rustdoc --version >/dev/null 2>&1; then
        echo "rustdoc is not installed: the examples in comments are passed over"
        echo "0 passed, 0 failed"
        return
    fi
    for crate in calls gadulnos; do
        told=$(rustdoc --test --edition 2021 --crate-name $crate -L target/host/oracle -L native=target/staticlib \
            --extern calls=target/host/oracle/libcalls.rlib host/$crate/lib.rs 2>&1) || echo "$told"
        if [[ $told =~ ([0-9]+)\ passed\;\ ([0-9]+)\ failed ]]; then
            echo "ok examples in the comments of $crate (${BASH_REMATCH[1]})"
            passed=$((passed + BASH_REMATCH[1]))
            failed=$((failed + BASH_REMATCH[2]))
        else
            echo "FAILED examples in the comments of $crate: no counts"
            failed=$((failed + 1))
        fi
    done
    echo "$passed passed, $failed failed"
}

# The example in C prints what stands beside it, and ./paper, which finds all built, document 01's key.
examples() {
    local passed=0 failed=0
    same examples/board.c target/host/board examples/board.expected
    same ./paper "./paper key crates/key/stdin" crates/key/stdout
    echo "$passed passed, $failed failed"
}

# Whether a command prints what a file holds.
same() {
    if diff <($2) "$3"; then
        echo "ok $1"
        passed=$((passed + 1))
    else
        echo "FAILED $1"
        failed=$((failed + 1))
    fi
}

# Two lists, one for each core. The programs have a fixed seed, and in the second list one drawn from the commit. Each prints it: the same seed repeats a run.
fixed() {
    for program in oracle-self layers header beside release anything; do
        counted target/host/$program
    done
    counted documented
    counted examples
    counted keys
    counted papers
}

drawn() {
    local seed
    seed=$((16#$(git rev-parse --short=12 HEAD 2>/dev/null || echo 5eed)))
    counted papers --seed $seed
    counted keys --seed $seed
    for program in layers beside release anything; do
        counted target/host/$program --seed $seed
    done
}

for list in fixed drawn; do
    ($list; echo "$passed $failed" >"$room/$list.counts") >"$room/$list" 2>&1 &
done
wait
for list in fixed drawn; do
    cat "$room/$list"
    read -r more_passed more_failed <"$room/$list.counts"
    passed=$((passed + more_passed))
    failed=$((failed + more_failed))
done
echo "$passed passed, $failed failed"
[ "$failed" -eq 0 ]
