#!/usr/bin/env bash
# What the tests need beside rt: rustc 1.63 or newer, a C linker for it, and binutils (ar, objcopy). What Debian ships is installed if it is missing or too old.
set -euo pipefail
oldest=63

# The minor number of a compiler's version, or of a package's.
minor() {
    sed -n -E 's/^(release: |  Candidate: )1\.([0-9]+)\..*/\2/p'
}

has_rustc() {
    local found
    command -v rustc >/dev/null && found=$(rustc -vV | minor) && [ "${found:-0}" -ge $oldest ]
}

# Debian's rustc, or its newer compiler for browsers.
package() {
    local name found
    for name in rustc rustc-web rustc-mozilla; do
        found=$(apt-cache policy $name 2>/dev/null | minor)
        [ "${found:-0}" -ge $oldest ] && echo $name && return
    done
}

command -v rt >/dev/null || { echo "rt, the Rattle toolchain, is not on the PATH" >&2; exit 1; }
need=()
command -v cc >/dev/null || need+=(gcc libc6-dev)
command -v objcopy >/dev/null || need+=(binutils)
if [ ${#need[@]} -gt 0 ] || ! has_rustc; then
    if command -v apt-get >/dev/null && [ "$(id -u)" -eq 0 ]; then
        apt-get update -qq
        has_rustc || mapfile -t -O ${#need[@]} need < <(package)
        [ ${#need[@]} -eq 0 ] || apt-get install -y -qq "${need[@]}"
    fi
fi
command -v objcopy >/dev/null || { echo "ar and objcopy are needed: install binutils" >&2; exit 1; }
command -v cc >/dev/null || { echo "a C compiler is needed: install gcc and libc6-dev" >&2; exit 1; }
has_rustc || {
    echo "rustc 1.$oldest or newer is needed, and $(rustc --version 2>/dev/null || echo none) was found: install a newer one, first on the PATH" >&2
    exit 1
}
