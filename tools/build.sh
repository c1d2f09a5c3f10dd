#!/bin/sh
# Proves the crates of the programs that are named, each NAME with its crate crates/NAME_program or crates/NAME, and leaves the programs as build/NAME at the top of the
# repository. The first time this takes some minutes; after a change only what it touches is proved again. What the toolchain prints goes to
# build/NAME.log, and is shown where a program is not proved.
set -eu
top=$(cd "$(dirname "$0")/.." && pwd)
. "$top/tools/common.sh"
mkdir -p "$top/build"
for program; do
    log=$top/build/$program.log
    crate=${program}_program
    [ -d "$top/crates/$crate" ] || crate=$program
    cd "$top/crates/$crate"
    rm -f "out/$crate" "$top/build/$program"
    echo "Proving $program; build/$program.log says how far it is"
    # `rt run` proves, builds and runs. Without words the program tells its usage and ends with the status of a fault, which says nothing of the proof.
    "$rt" run >"$log" 2>&1 </dev/null || true
    if [ ! -x "out/$crate" ]; then
        cat "$log" >&2
        echo "error: $program is not proved" >&2
        exit 1
    fi
    cp "out/$crate" "$top/build/$program"
    echo "The proved program is build/$program"
done
