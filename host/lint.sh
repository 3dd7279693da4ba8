#!/usr/bin/env bash
# Layout and lints of host/, two checks. `format`: rustfmt --check. `clippy`: clippy, every warning an error (needs what host/test.sh
# built). A tool that is not installed is named and passed over. The last line is 'N passed, M failed'. The layout of crates/ `rt ci`
# checks.
set -euo pipefail
cd "$(dirname "$0")/.."
log=$(mktemp)
trap 'rm -f "$log"' EXIT
passed=0
failed=0

# Runs a command as one check, and shows what it printed if it fails.
check() {
    if "${@:2}" >"$log" 2>&1; then
        echo "ok $1"
        passed=$((passed + 1))
    else
        cat "$log"
        echo "FAILED $1"
        failed=$((failed + 1))
    fi
}

installed() {
    "$1" --version >/dev/null 2>&1 || { echo "$1 is not installed: passed over"; return 1; }
}

format() {
    if installed rustfmt; then
        local files
        mapfile -t files < <(find host -name '*.rs')
        check "the layout of host/ (rustfmt --check)" rustfmt --check --edition 2021 --config-path host/rustfmt.toml "${files[@]}"
    fi
}

clippy() {
    if installed clippy-driver; then
        export CLIPPY_CONF_DIR=host HOST_OUT=target/lint RUSTC=clippy-driver RUST_FLAGS="-D warnings -C opt-level=0 -C debuginfo=0"
        rm -rf target/lint
        check "host/ (clippy)" host/build.sh bench
        rm -rf target/lint
    fi
}

"$1"
echo "$passed passed, $failed failed"
[ "$failed" -eq 0 ]
