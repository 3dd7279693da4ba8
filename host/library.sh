#!/usr/bin/env bash
# The library of C functions, target/staticlib/libdesk.a: `rt lib` proves each of the crates desk_* and makes its archive, crates/NAME/out/libNAME.a, and these are put
# together into one. Each function starts at a multiple of 64 then: where a short loop comes to lie across such a line it takes up to twice the time, and without this
# the linker decides it anew for every program.
set -euo pipefail
cd "$(dirname "$0")/.."
parts=(desk_numbers desk_memory desk_regions desk_faults)
library=target/staticlib/libdesk.a
log=$(mktemp)
trap 'rm -f "$log"' EXIT

# `rt lib` proves the crates below one after the other, so the first time `rt all check` proves all crates before, side by side: one for each processor that has 3 GB of
# memory, or as many as RT_JOBS says. Its end is no matter here: what the library needs and is not proved, `rt lib` proves or refuses.
if [ ! -e $library ]; then
    echo "library: proving the crates"
    lanes=$(awk -v most="$(nproc)" '/^MemAvailable:/ { n = int($2 / 3000000); print n < 1 ? 1 : n < most ? n : most }' /proc/meminfo)
    rt all check --jobs "${RT_JOBS:-$lanes}" </dev/null >"$log" 2>&1 || true
    sed -n '/^== summary$/,$p' "$log"
fi

script="create $library"
for part in "${parts[@]}"; do
    (cd "crates/$part" && rt lib </dev/null) >"$log" 2>&1 || {
        cat "$log"
        echo "library: $part is not proved and built" >&2
        exit 1
    }
    echo "library: $part is proved and built"
    script+=$'\n'"addlib crates/$part/out/lib$part.a"
done
mkdir -p target/staticlib
rm -f $library
ar -M <<<"$script"$'\nsave\nend'
objcopy --set-section-alignment '.text.*=64' $library
