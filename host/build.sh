#!/bin/sh
# Builds the oracle and the tests below target/host. Runs again only what changed.
#
#   target/host/oracle/{checked,wrapping}/librinux.rlib   the original, in two builds
#   target/host/oracle/libcalls.rlib                      calls, tapes, papers as texts (calls/)
#   target/host/oracle/libtrial.rlib                      states, the domain, random calls (trial/)
#   target/host/oracle-{checked,wrapping}                 the program that plays a tape
#   target/host/oracle-self                               the oracle's own tests
#   target/host/oracle/libgadulnos.rlib                   the port for a Rust host (gadulnos/)
#   target/host/oracle/libpaper.rlib, target/host/paper   the examiner's tool (paper/)
#   target/host/{layers,beside,release,anything,keys,papers,header,board}  the port's tests
#   target/host/bench                                     the benchmark, if asked for: build.sh bench
#
# `build.sh paper` builds the tool alone.
#
# RUSTC is the compiler, RUST_FLAGS are its flags (-O), and HOST_OUT is the folder instead of target/host.
set -eu
cd "$(dirname "$0")/.."

RUSTC=${RUSTC:-rustc}
out=${HOST_OUT:-target/host}
lib=$out/oracle

# What another compiler built is built again.
version=$("$RUSTC" -vV)
if [ "$(cat "$out/compiler" 2>/dev/null)" != "$version" ]; then
    rm -rf "$out"
fi
mkdir -p "$lib/checked" "$lib/wrapping"
echo "$version" >"$out/compiler"

# changed OUTPUT INPUT...: whether the output is missing or older than an input (a folder
# stands for its files).
changed() {
    output=$1
    shift
    [ ! -e "$output" ] || [ -n "$(find "$@" -type f -newer "$output" -print -quit)" ]
}

compile() {
    echo "build $2"
    # shellcheck disable=SC2086
    "$RUSTC" --edition 2021 ${RUST_FLAGS:--O} "$@"
}

# crate NAME ROOT [CRATE...]: a library of ours, of the folder of its root, that uses these.
crate() {
    name=$1
    root=$2
    shift 2
    used=
    for other in "$@"; do
        used="$used $lib/lib$other.rlib"
    done
    # shellcheck disable=SC2086
    if changed "$lib/lib$name.rlib" "$(dirname "$root")" $used; then
        # shellcheck disable=SC2046
        compile -o "$lib/lib$name.rlib" --crate-type rlib --crate-name "$name" -L "$lib" \
            $(for other in "$@"; do echo --extern "$other=$lib/lib$other.rlib"; done) "$root"
    fi
}

# The port, whose C functions host/library.sh makes, and the examiner's tool.
archive=target/staticlib/libdesk.a
gadulnos=$lib/libgadulnos.rlib
crate calls host/calls/lib.rs
if [ -e "$archive" ]; then
    if changed "$gadulnos" "$archive" "$lib/libcalls.rlib" host/gadulnos; then
        compile -o "$gadulnos" --crate-type rlib --crate-name gadulnos -L native="$(dirname "$archive")" \
            --extern calls="$lib/libcalls.rlib" host/gadulnos/lib.rs
    fi
    crate paper host/paper/lib.rs calls gadulnos
    if changed "$out/paper" "$lib/libpaper.rlib" host/paper/main.rs; then
        compile -o "$out/paper" -L "$lib" --extern paper="$lib/libpaper.rlib" host/paper/main.rs
    fi
fi
if [ "${1:-}" = paper ]; then
    exit 0
fi

# The original.
if ! sha256sum --check --quiet --strict host/oracle/originals.sha256; then
    echo "docs/src is not the original: its files are pinned in host/oracle/originals.sha256" >&2
    exit 1
fi
if changed "$lib/prepare" host/oracle/prepare.rs host/oracle/substitutions.rs; then
    compile -o "$lib/prepare" host/oracle/prepare.rs
fi
"$lib/prepare" docs/src host/oracle/access "$lib/src"

for stand_in in spin bitflags; do
    if changed "$lib/lib$stand_in.rlib" "host/oracle/crates/$stand_in.rs"; then
        compile -o "$lib/lib$stand_in.rlib" --crate-type rlib --crate-name "$stand_in" "host/oracle/crates/$stand_in.rs"
    fi
done

crate trial host/trial/lib.rs calls

# What the original asks of the compiler's age: before 1.80 there is no --check-cfg, and before 1.66 an empty BTreeMap in a static
# is a feature that has to be named.
minor=$(echo "$version" | sed -n 's/^release: 1\.\([0-9]*\)\..*/\1/p')
age=
if [ "$minor" -ge 80 ]; then
    age="--check-cfg cfg(checked,wrapping,test)"
elif [ "$minor" -lt 66 ]; then
    export RUSTC_BOOTSTRAP=1
    age="-Z crate-attr=feature(const_btree_new)"
fi
# The two builds are one crate with two names in the linker, so that a program can hold both.
for build in checked wrapping; do
    checks=$([ $build = checked ] && echo on || echo off)
    rinux=$lib/$build/librinux.rlib
    if changed "$rinux" "$lib/src" "$lib/libtrial.rlib" "$lib/libspin.rlib" "$lib/libbitflags.rlib" \
        host/oracle/lib.rs host/oracle/stand_in.rs host/oracle/oracle.rs host/oracle/oracle; then
        # shellcheck disable=SC2086
        compile -o "$rinux" --crate-type rlib --crate-name rinux -C metadata=$build \
            -C overflow-checks="$checks" --cfg $build $age -L "$lib" \
            --extern spin="$lib/libspin.rlib" --extern bitflags="$lib/libbitflags.rlib" \
            --extern calls="$lib/libcalls.rlib" --extern trial="$lib/libtrial.rlib" host/oracle/lib.rs
    fi
    if changed "$out/oracle-$build" "$rinux" host/oracle/main.rs; then
        compile -o "$out/oracle-$build" -L "$lib" --extern rinux="$rinux" host/oracle/main.rs
    fi
done

if changed "$out/oracle-self" "$lib/checked/librinux.rlib" "$lib/wrapping/librinux.rlib" docs/src \
    host/oracle/substitutions.rs host/tests/oracle_self.rs host/tests/oracle_self host/tests/shared; then
    compile -o "$out/oracle-self" -L "$lib" --extern calls="$lib/libcalls.rlib" \
        --extern trial="$lib/libtrial.rlib" --extern rinux_checked="$lib/checked/librinux.rlib" \
        --extern rinux_wrapping="$lib/wrapping/librinux.rlib" host/tests/oracle_self.rs
fi

if [ ! -e "$archive" ]; then
    echo "no $archive (host/library.sh makes it): the port's tests are left out"
    exit 0
fi

# beside_rust NAME FOLDER [INPUT...]: a program with the port and the original in it. Further inputs are texts that it includes.
beside_rust() {
    program=$1
    folder=$2
    shift 2
    if changed "$out/$program" "$gadulnos" "$lib/wrapping/librinux.rlib" "$lib/libpaper.rlib" host/tests/shared "$folder" "$@"; then
        compile -o "$out/$program" -L "$lib" --extern gadulnos="$gadulnos" --extern paper="$lib/libpaper.rlib" \
            --extern calls="$lib/libcalls.rlib" --extern trial="$lib/libtrial.rlib" --extern rinux="$lib/wrapping/librinux.rlib" "$folder/main.rs"
    fi
}

beside_rust layers host/tests/layers examples
for program in beside release anything keys papers; do
    beside_rust $program host/tests/$program
done
for c in host/tests/header.c examples/board.c; do
    program=$out/$(basename "$c" .c)
    if changed "$program" "$archive" host/gadulnos.h host/gadulnos_board.h "$c"; then
        echo "build $program"
        cc -std=c99 -O1 -Wall -Wextra -Werror -pedantic -I host -o "$program" "$c" "$archive"
    fi
done
if [ "${1:-}" = bench ]; then
    # It needs 1.66, for black_box.
    RUST_FLAGS="${RUST_FLAGS:--O} -A clippy::incompatible_msrv"
    beside_rust bench host/bench
fi
