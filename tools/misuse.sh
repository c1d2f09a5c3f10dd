#!/bin/sh
# Keeps the turn that an end showed over the next call of that end, in a copy of the tree: the toolchain has to refuse it, since a turn is a loan of
# the end. It does so before anything is proved, so this is no edit of must-fail/.
set -eu
top=$(cd "$(dirname "$0")/.." && pwd)
. "$top/tools/common.sh"
copy=$(mktemp -d)
trap 'rm -rf "$copy"' EXIT
copy_tree "$copy"
cd "$copy"
git init -q .
file=crates/ssh_toys/src/ends.rt
line='ToyEnd::Client(end) => Ok(end.take(bytes, out)?.used),'
[ "$(grep -cF "$line" "$file")" = 1 ] || {
    echo "error: '$line' does not stand once in $file"
    exit 1
}
kept='ToyEnd::Client(end) => { let turn = end.take(bytes, out)?; end.feed_material([0; 16], [0; 32]); Ok(turn.used) }'
awk -v line="$line" -v kept="$kept" '{ at = index($0, line); if (at) $0 = substr($0, 1, at - 1) kept; print }' "$file" >"$copy/ends" && mv "$copy/ends" "$file"
cd crates/test_plays
if "$rt" try --steps 1 </dev/null >"$copy/said" 2>&1; then
    echo "a turn is kept over the next call: not refused"
    exit 1
fi
grep -q 'error\[borrow-e0499\]' "$copy/said" || {
    cat "$copy/said"
    exit 1
}
echo "a turn is kept over the next call: refused"
