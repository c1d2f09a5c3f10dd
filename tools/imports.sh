#!/bin/sh
# Whether a crate cites the proofs of another crate of this repository: it may use the clauses, the specs/ and the laws of those below it alone.
# Prints the lines that do; ends with status 1 where there are any. What the toolchain itself says of a type, in its module TheLaws, is no proof of a crate.
set -eu
top=$(cd "$(dirname "$0")/.." && pwd)
cd "$top/crates"
found=0
for crate in *; do
    others=$(ls | grep -vx "$crate" | paste -sd'|')
    if grep -rnE "Rattle\.($others)\.proofs\." "$crate" --exclude-dir=out --include='*.antt' --include='*.rt' |
        grep -vE "\.TheLaws as [a-z_]+$"; then
        found=1
    fi
done
exit $found
