#!/bin/sh
# Tries wrong bodies: each edit of crates/NAME/falsify/ is applied to a copy of the tree, and the prover has to refuse the
# changed crate. The gate tries those of must-fail/ alone. CRATE=name tries those of one crate. Prints a line an edit, with
# what was not proved, and then how many were refused. Ends with status 1 where one was not.
set -eu
top=$(cd "$(dirname "$0")/.." && pwd)
. "$top/tools/common.sh"
copy=$(mktemp -d)
trap 'rm -rf "$copy"' EXIT
copy_tree "$copy"
cd "$copy"
git init -q .
names=$(for edits in crates/*/falsify; do basename "$(dirname "$edits")"; done)
# shellcheck disable=SC2086 # (one word a crate)
RT="$rt" python3 "$top/tools/falsify.py" ${CRATE:-$names}
