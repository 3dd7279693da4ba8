#!/usr/bin/env bash
# The key program, crates/key/out/key: `rt run` proves and builds it, and runs it, here on an empty tape.
set -euo pipefail
cd "$(dirname "$0")/../crates/key"
log=$(mktemp)
trap 'rm -f "$log"' EXIT
rt run </dev/null >"$log" 2>&1 || {
    cat "$log"
    echo "key: the key program is not proved and built" >&2
    exit 1
}
echo "key: the key program is proved and built"
