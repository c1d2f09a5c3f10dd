#!/bin/sh
# The crates of bindings/rust over the library for C, which `make lib` leaves in build/.
#
# `programs` builds dvssh and dvsshd, and leaves them as build/dvssh and build/dvsshd. `test` runs the tests of all crates, the linter and the
# live tests of both programs. The crates below come from Debian's packages, in place of the usual registry: as root on Debian what is missing
# is installed, elsewhere it is said. What is skipped has a line, and the last line counts them.
#
# RUSTC_OLDEST=FOLDER names the folder of an older cargo and rustc, by which all crates are checked too; /usr/bin is taken where it has Rust 1.63.
set -eu
top=$(cd "$(dirname "$0")/.." && pwd)
build=${LIBRARY:-$top/build}
crates=/usr/share/cargo/registry
wanted="base64 tokio nix lexopt getrandom zeroize libc thiserror tracing socket2 ring"
target=$top/build/rust
skipped=0

# Says that what is named $1 was left out, for $2 is not there.
skip() {
    echo "SKIPPED: $1, for $2 is not there"
    skipped=$((skipped + 1))
}

# The packages that are missing.
missing() {
    for each in $wanted; do
        ls -d "$crates/$each"-[0-9]* >/dev/null 2>&1 || printf ' librust-%s-dev' "$each"
    done
}

# Has the packages, or fails.
packages() {
    [ -n "$(missing)" ] || return 0
    if [ "$(id -u)" = 0 ] && command -v apt-get >/dev/null 2>&1; then
        # shellcheck disable=SC2046 # (words)
        DEBIAN_FRONTEND=noninteractive apt-get install -y --no-install-recommends $(missing) >"$top/build/packages.log" 2>&1 || true
    fi
    [ -z "$(missing)" ]
}

# Cargo with the crates of the packages, and nothing from elsewhere.
by_cargo() {
    mkdir -p "$target/cargo"
    printf '[source.crates-io]\nreplace-with = "packages"\n[source.packages]\ndirectory = "%s"\n' "$crates" >"$target/cargo/config.toml"
    (
        export CARGO_HOME="$target/cargo" CARGO_TARGET_DIR="$target" CARGO_NET_OFFLINE=true DIVRELCA_LIB_DIR="$build"
        cd "$top/bindings/rust" && cargo "$@"
    )
}

library() {
    if [ ! -e "$build/libdivrelca.a" ]; then
        echo "error: $build/libdivrelca.a is not there: run \`make lib\` first" >&2
        exit 2
    fi
}

programs() {
    library
    mkdir -p "$top/build"
    if ! cargo --version >/dev/null 2>&1; then
        skip "build/dvssh and build/dvsshd" cargo
    elif ! packages; then
        skip "build/dvssh and build/dvsshd" "what Debian has as$(missing)"
    else
        by_cargo build --quiet --release --package dvssh --package dvsshd
        cp "$target/release/dvssh" "$target/release/dvsshd" "$top/build/"
        echo "The programs are build/dvssh and build/dvsshd"
    fi
}

# The oldest Rust that the crates promise.
by_oldest() {
    folder=${RUSTC_OLDEST:-/usr/bin}
    if "$folder/rustc" --version 2>/dev/null | grep -q '^rustc 1\.63\.'; then
        (PATH="$folder:$PATH" && export PATH && target="$target/oldest" && by_cargo check --quiet --all-targets)
        echo "The crates are those of Rust 1.63 too"
    else
        skip "a check by Rust 1.63" "$folder/rustc of that version"
    fi
}

live() {
    for each in python3 ssh ssh-keygen nc strace; do
        command -v "$each" >/dev/null 2>&1 || skip "live tests of dvssh and dvsshd that want it" "$each"
    done
    command -v python3 >/dev/null 2>&1 && command -v ssh-keygen >/dev/null 2>&1 || return 0
    (
        cd "$top/bindings/rust"
        export DVSSH="$target/debug/dvssh" DVSSHD="$target/debug/dvsshd" PYTHONDONTWRITEBYTECODE=1
        python3 -m unittest discover -s tests -t .
    )
}

tests() {
    library
    mkdir -p "$top/build"
    if ! cargo --version >/dev/null 2>&1; then
        skip "all tests of bindings/rust" cargo
        return
    fi
    if ! packages; then
        skip "all tests of bindings/rust" "what Debian has as$(missing)"
        return
    fi
    by_cargo test --quiet
    by_cargo build --quiet --bins --examples
    if cargo clippy --version >/dev/null 2>&1; then
        by_cargo clippy --quiet --all-targets -- -D warnings
    else
        skip "the linter" clippy
    fi
    by_oldest
    live
    echo "The crates of bindings/rust were tested; skipped: $skipped"
}

case "${1:-}" in
    programs) programs ;;
    test) tests ;;
    *) echo "usage: tools/rust.sh programs|test" >&2; exit 2 ;;
esac
