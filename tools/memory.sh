#!/bin/sh
# Runs four parts of a proved program, crates/test_plays, with each allocation refused in turn, until a run meets no refusal. The program says what
# has to become of a run; the allocator under it refuses one allocation. Between the lines `taking` and `taken` of a run none may be refused, and a run
# that met a refusal after its line `playing` may not do all the same. The last part has some 80,000 allocations: its first 50 are refused, and of the others each 499th. Wants a C
# compiler. Ends with status 1 where a run went wrong. PROGRAM=FILE is that program where it is proved already, as the gate leaves it.
set -eu
tools=$(cd "$(dirname "$0")" && pwd)
top=$tools/..
. "$tools/common.sh"
work=$(mktemp -d)
trap 'rm -rf "$work"' EXIT
"${CC:-cc}" -O2 -shared -fPIC -o "$work/fail_alloc.so" "$tools/fail_alloc.c" -ldl
wrong=0
program=${PROGRAM:-}
if [ -z "$program" ]; then
    program=$top/crates/test_plays/out/test_plays
    (cd "$top/crates/test_plays" && "$rt" run -- calls)
fi

# Runs the part $1 so; after its first 50 allocations each one so far from the last as $2 says. Leaves the runs' statuses in a file, and counts those that
# went wrong.
refuse_in_turn() {
    : >"$work/statuses"
    number=0
    while :; do
        if [ "$number" -lt 50 ]; then
            number=$((number + 1))
        else
            number=$((number + $2))
        fi
        status=0
        FAIL_ALLOC=$number LD_PRELOAD=$work/fail_alloc.so "$program" "$1" >"$work/said" 2>&1 || status=$?
        grep -q '^refused$' "$work/said" || break
        if sed -n '/^taking$/,/^taken$/p' "$work/said" | grep -q '^refused$'; then
            status=between
        fi
        if [ "$status" = 0 ] && sed -n '/^playing$/,$p' "$work/said" | grep -q '^refused$'; then
            status=whole
        fi
        echo "$status" >>"$work/statuses"
        case $status in
        0 | 3 | 4) ;;
        *)
            echo "$1, allocation $number: status $status, $(cat "$work/said")"
            wrong=$((wrong + 1))
            ;;
        esac
    done
}
count() { grep -c "^$1$" "$work/statuses" || true; }
total() { wc -l <"$work/statuses"; }

# A part of which no run ends in one of the two ways shows nothing of it.
wants_both() {
    if [ "$(count 3)" -eq 0 ] || [ "$(count 4)" -eq 0 ]; then
        echo "no run ended with status 3, or none with 4"
        wrong=$((wrong + 1))
    fi
}

refuse_in_turn calls 1
echo "$(total) allocations refused in turn: $(count 4) by a call, which left all as it was or was over, $(count 3) by what a call is given, $(count between) by calls that need none, $(count 0) did with less"
wants_both
refuse_in_turn plays 1
echo "$(total) allocations refused in turn: $(count 3) runs answered want of memory, in $(count 4) one end died, $(count 0) did with less before they were played"
wants_both
refuse_in_turn data 1
echo "$(total) allocations refused in turn: $(count 3) before the first of 200 messages was taken, $(count 4) after the last, $(count between) between, $(count 0) did with less"
wants_both
refuse_in_turn sweeping 499
echo "$(total) of its allocations refused to a sweep: $(count 4) times it said so, $(count 3) before it began, $(count 0) did with less"
wants_both
echo "$wrong went wrong"
[ "$wrong" -eq 0 ]
