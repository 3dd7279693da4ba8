#!/usr/bin/env bash
# The benchmark: the port's time, the original Rust's, and that of the same calls in Rust with the port's tests, from one driver and in one run, as a table.
# `--rounds N` makes more rounds (41 if not given), `--rows PATTERN` measures only the rows whose call or board has this in its name. Status 1: the three did not agree.
# It is no part of the tests.
set -euo pipefail
cd "$(dirname "$0")/.."
[ -e target/staticlib/libdesk.a ] || host/library.sh
[ -e crates/key/out/key ] || host/key.sh
host/build.sh bench
exec target/host/bench "$@"
