#!/bin/sh
# Runs the built code of sealing, opening, X25519 and signing under valgrind, with keys, texts and secrets marked undefined, so that each
# branch and each address that depends on one is reported. All is built in a copy of the tree, with a crate that exports what C calls, of
# constant_time/exports.txt. Then it plants such a branch in `picked` of the copy, and fails where that isn't found. Where valgrind, its
# header or a C compiler is missing it says that it was skipped, and ends with status 77, never 0.
#
# It can't see: inputs and paths that weren't run; instructions whose own time depends on their operands; caches and power; what the
# processor does ahead; and code that another compiler makes of the same source. The comparison of tags, whose result is public, isn't run.
set -eu
top=$(cd "$(dirname "$0")/.." && pwd)
. "$top/tools/common.sh"
for tool in valgrind cc; do
    if ! command -v "$tool" >/dev/null 2>&1; then
        echo "SKIPPED: nothing was looked at, for $tool is not there" >&2
        exit 77
    fi
done
if ! echo '#include <valgrind/memcheck.h>' | cc -E - >/dev/null 2>&1; then
    echo "SKIPPED: nothing was looked at, for the header valgrind/memcheck.h is not there" >&2
    exit 77
fi
heap=$(dirname "$(readlink -f "$(command -v "$rt")")")/../c/liblibc_c.a
copy=$(mktemp -d)
trap 'rm -rf "$copy"' EXIT
tree="$copy/tree"
crate="$tree/crates/timing_exports"
mkdir "$tree"
copy_tree "$tree"
mkdir -p "$crate/src"
cp "$top/tools/constant_time/exports.txt" "$crate/src/lib.rt"
echo "timing_exports staticlib: ciphers" >>"$tree/crates.txt"

# Builds the library of the copy and runs it; what it says goes to the file $1. Its status is that of the run.
look() {
    (cd "$crate" && "$rt" lib) >"$1" 2>&1 || {
        cat "$1" >&2
        exit 2
    }
    cc -O1 "$top/tools/constant_time/main.c" "$crate/out/libtiming_exports.a" "$heap" -o "$1.program"
    valgrind --error-limit=no -q "$1.program" >"$1" 2>"$1.reports"
}

if look "$copy/as_it_is"; then
    cat "$copy/as_it_is"
else
    cat "$copy/as_it_is" "$copy/as_it_is.reports" >&2
    echo "error: the code depends on a secret, or other bytes came back" >&2
    exit 1
fi

python3 "$top/tools/constant_time/plant.py" "$tree/crates/ciphers/src/x25519/field.rt"
if look "$copy/found"; then
    cat "$copy/found" >&2
    echo "error: the branch planted in picked was not found" >&2
    exit 1
fi
grep -q '^X25519: depends on a secret' "$copy/found" || {
    cat "$copy/found" "$copy/found.reports" >&2
    echo "error: the branch planted in picked was not found in X25519" >&2
    exit 1
}
echo "A branch planted in picked is found: $(grep '^X25519' "$copy/found")"
