#!/bin/sh
# What can be seen in a few minutes: the layout of the files, that docs/definitions.md is made of the comments over the
# definitions, that no pinned statement changed, that no crate cites the proofs of another, that no function calls
# itself, that what pages name is there and their commands of ssh_trace print what stands below them, that pages with
# counts and tables are those of this tree, that drawn histories are those of tools/second_reading, that the header for
# C has the structs, numbers, names and texts of the libraries, that the headers of bindings/include are C and C++
# without a warning, that docs/EMBEDDING.md and docs/C.md show their programs as they are, the tests, and the programs.
# Nothing is proved here. As many crates are looked at at once as there are cores, each in a copy of the tree, since
# the toolchain locks the crates that it reads. A copy that is done with one crate takes the next that no other has. A
# crate is compiled with checks and run; the interpreter, which would run it a second time, gets one step.
set -eu
top=$(cd "$(dirname "$0")/.." && pwd)
. "$top/tools/common.sh"
work=$(mktemp -d)
trap 'rm -rf "$work"' EXIT
jobs=$(nproc 2>/dev/null || echo 2)
: >"$work/failed"

# Says that a crate failed, and by what, with what was printed of it.
fail() {
    echo "failed: $1" | tee -a "$work/failed"
    shift
    [ $# -eq 0 ] || cat "$1"
}

# Runs the program of the crate in this folder on its cases.
run_cases() {
    mkdir "$1.cases"
    said=$1
    python3 "$top/tools/cases.py" "$crate" "$said.cases" >"$said.files"
    python3 "$top/tools/printed.py" trace "$said.cases"
    python3 "$top/tools/pictures.py" write "$said.cases"
    set -- --steps 1 --seconds 600 --cases "$said.cases"
    while IFS= read -r file; do set -- "$@" --data "$file"; done <"$said.files"
    "$rt" try "$@" </dev/null >"$said" 2>&1 || fail "$crate: its cases" "$said"
    python3 "$top/tools/pictures.py" printed "$said" >"$said.overlap" || fail "$crate: its pictures" "$said.overlap"
}

# Runs the program of the crate in this folder as the gate does, and compares what it prints. The sweeps of sessions, which take minutes where
# all is checked as it runs, are left to the gate.
run_program() {
    set -- "$1" --
    said=$1
    cp stdout "$said.wanted"
    if [ "$crate" = test_plays ]; then
        set -- "$@" unswept
        grep -v ' runs, ' stdout >"$said.wanted"
    fi
    [ ! -f args ] || while IFS= read -r word; do set -- "$@" "$word"; done <args
    shift
    [ ! -d data ] || for file in data/*; do set -- --data "$(basename "$file")=$file" "$@"; done
    wanted=0
    [ ! -f status ] || wanted=$(cat status)
    given=/dev/null
    [ ! -f stdin ] || given=stdin
    status=0
    "$rt" try --steps 1 --seconds 600 "$@" <"$given" >"$said.printed" 2>"$said" || status=$?
    [ "$status" = "$wanted" ] || fail "$crate: exit status $status" "$said"
    diff "$said.printed" "$said.wanted" >"$said" || fail "$crate: its output" "$said"
}

# The program of docs/EMBEDDING.md, copied into an empty tree out of the page and from its links: it is built there, and without words it tells its usage.
try_page() (
    mkdir "$work/page"
    python3 "$top/tools/embedding.py" tree "$work/page"
    cd "$work/page"
    git init -q .
    cd crates/example_embedding
    "$rt" try --steps 1 </dev/null >"$work/page.said" 2>&1 || true
    grep -q '^error: the words are ' "$work/page.said" || fail "the program of docs/EMBEDDING.md" "$work/page.said"
)

# Looks at the crates of one copy of the tree.
look_at() (
    copy=$1
    shift
    cd "$copy"
    git init -q .
    for crate; do
        mkdir "$work/taken/$crate" 2>/dev/null || continue
        cd "$copy/crates/$crate"
        printed=$("$rt" fmt 2>&1) || fail "$crate: rt fmt"
        [ -z "$printed" ] || fail "$crate: $printed"
        if grep -rq '#\[test\]' src; then
            "$rt" try --test --steps 1 --seconds 300 >"$copy.said" 2>&1 || fail "$crate: tests" "$copy.said"
        fi
        if [ "$crate" = ssh_trace_program ]; then
            run_cases "$copy.said"
        elif [ -f src/main.rt ] && [ -f stdout ]; then
            run_program "$copy.said"
        fi
        echo "$crate"
    done
)

echo "definitions"
python3 -B "$top/tools/definitions.py" check || fail "docs/definitions.md is not made of the comments as they are, or a definition of Protocol/ names no section"
sh "$top/tools/imports.sh" || fail "a crate cites the proofs of another"
python3 "$top/tools/recursion.py" || fail "a function calls itself, as deep as its input says"
python3 -B "$top/tools/believed.py" check || fail "docs/BELIEVED.md is not made of the specs as they are, or Protocol/ has not just what is believed"
python3 -B "$top/tools/pinned.py" check || fail "a pinned statement is another (docs/PINNED.md): if that is meant, run python3 tools/pinned.py write"
python3 "$top/tools/embedding.py" check || fail "docs/EMBEDDING.md or docs/C.md has not its program as it is"
! command -v "${CC:-cc}" >/dev/null || "${CC:-cc}" -std=c11 -Wall -Wextra -Werror -fsyntax-only -I"$top/bindings/include" "$top/bindings/c/hello_client.c" "$top/bindings/c/echo_server.c" || fail "the programs of docs/C.md"
sh "$top/tools/headers.sh" || fail "the headers of bindings/include"
python3 -B "$top/tools/header.py" check || fail "the structs, numbers, names or texts of bindings/include stand otherwise elsewhere"
python3 "$top/tools/stricter.py" check || fail "docs/STRICTER.md is not made of docs/stricter.tsv, or that names what is not there"
python3 "$top/tools/touched.py" check || fail "CONTRIBUTING.md has other counts: run python3 tools/touched.py"
python3 -B "$top/tools/counts.py" check || fail "docs/TIMES.md has other counts: run python3 tools/counts.py"
python3 "$top/tools/printed.py" names || fail "a page names what is not there"
python3 "$top/tools/pictures.py" stored || fail "texts of a stored picture overlap"
python3 -B "$top/tools/second_reading" check || fail "crates/test_histories has other histories: run python3 -B tools/second_reading write"
mkdir "$work/strangers"
python3 "$top/tools/stranger.py" "$work/strangers"
python3 -B "$top/tools/limits.py" "$work/strangers"
for script in "$work"/strangers/*; do
    cmp "$script" "$top/crates/test_plays/data/$(basename "$script")" || fail "tools/stranger.py or tools/limits.py makes another script"
done
try_page &
(sh "$top/tools/misuse.sh" || fail "a call that has to be refused is not") &
(python3 -B "$top/tools/pinned.py" test || fail "tools/pinned.py does not tell of a change") &
# What takes the longest comes first: the files of lines, the stored scripts, the program, and then the crates at the top, which are compiled
# with all below them.
crates="test_lines test_plays ssh_trace_program ssh_bench $(sed 's/#.*//; s/:.*//; s/ .*//' "$top/crates.txt" | grep . | tac)"
mkdir "$work/taken"
number=0
while [ "$number" -lt "$jobs" ]; do
    copy="$work/$number"
    mkdir "$copy"
    copy_tree "$copy"
    # shellcheck disable=SC2086
    look_at "$copy" $crates &
    number=$((number + 1))
done
wait
if [ -s "$work/failed" ]; then
    cat "$work/failed"
    exit 1
fi
echo "all passed"
