#!/bin/sh
# Proves the library for C and leaves it in build/: libdivrelca.a, and beside it libdivrelca.so with no visible names but dv_*, the headers and divrelca.pc. Rattle's own
# compiler makes build/rattle/libdivrelca.a of the same source. What the toolchain prints goes to build/divrelca_c.log. Wants a C compiler and ar; CC, CFLAGS and LDFLAGS are obeyed.
# Where the gate proved the same files in this copy of the repository, and what it left is there, the crates below are not proved again (tools/proved.py).
#
# `test` besides runs bindings/c/session_test.c, asks_test.c, decide_test.c, keys_test.c, calls_test.c, easy_test.c and requests_test.c with the archive of each compiler, as it is, under valgrind, and with the C side
# checked for addresses and undefined behaviour. Where valgrind or the C compiler's checks are missing it says what was skipped; that test is then not run, and all others are. The gate runs it at its end.
set -eu
top=$(cd "$(dirname "$0")/.." && pwd)
. "$top/tools/common.sh"
. "$top/tools/release.sh"
cc=${CC:-cc}
crate=$top/crates/divrelca_c
build=$top/build
log=$build/divrelca_c.log
flags="-std=c11 -O2 -Wall -Wextra -Werror -pthread -I$top/bindings/include ${CFLAGS:-}"
mkdir -p "$build/rattle"
for tool in "$cc" ar; do
    if ! command -v "$tool" >/dev/null 2>&1; then
        echo "error: '$tool' is not there, and the library wants it" >&2
        exit 2
    fi
done

# Says that the library is not proved, and how far it was.
refused() {
    cat "$log" >&2
    echo "error: the library is not proved" >&2
    exit 1
}
# Proves the crate, with all below it, and leaves its archive as $1; further words go to `rt lib`.
archive() {
    to=$1
    shift
    rm -f "$crate/out/libdivrelca_c.a"
    (cd "$crate" && "$rt" lib "$@") >>"$log" 2>&1 </dev/null || refused
    [ -e "$crate/out/libdivrelca_c.a" ] || refused
    cp "$crate/out/libdivrelca_c.a" "$to"
}

rm -f "$build/bare.a" "$build/rattle/bare.a"
echo "Proving the library; build/divrelca_c.log says how far it is"
status=3
if command -v python3 >/dev/null 2>&1; then
    python3 "$top/tools/proved.py" archive "$build/bare.a" "$build/rattle/bare.a" >"$log" 2>&1 && status=0 || status=$?
fi
case $status in
    0) echo "The crates below it are those that the gate proved here" ;;
    3)
        echo "What a gate proved of these files is not here: the crates below it are proved as well"
        archive "$build/bare.a"
        archive "$build/rattle/bare.a" --backend rattle
        ;;
    *) refused ;;
esac
# (proved it is by now: without python3 there is no receipt of it)
receipt=$(python3 "$top/tools/receipt.py" proved "$build/proved.json" 2>/dev/null || echo "proved, without a receipt")
$cc $flags -fPIC -c "$top/bindings/c/heap.c" -o "$build/heap.o"
$cc $flags -fPIC -DDV_RECEIPT="\"$receipt\"" -c "$top/bindings/c/receipt.c" -o "$build/receipt.o"
for folder in "$build" "$build/rattle"; do
    cp "$folder/bare.a" "$folder/libdivrelca.a"
    ar r "$folder/libdivrelca.a" "$build/heap.o" "$build/receipt.o"
done
echo "DIVRELCA_$major { global: dv_*; local: *; };" >"$build/divrelca.map"
# (a name of an older interface must not stay, or what is linked here would take that)
rm -f "$build"/libdivrelca.so*
# shellcheck disable=SC2086 # (words)
$cc -shared -o "$build/libdivrelca.so.$major" -Wl,-soname,"libdivrelca.so.$major" -Wl,-z,text,-z,relro,-z,now,-z,defs -Wl,--version-script="$build/divrelca.map" \
    ${LDFLAGS:-} -Wl,--whole-archive "$build/libdivrelca.a" -Wl,--no-whole-archive
ln -s "libdivrelca.so.$major" "$build/libdivrelca.so"
cp "$top"/bindings/include/divrelca*.h "$build/"
sed -e "s|@prefix@|$build|" -e "s|@includedir@|$build|" -e "s|@libdir@|$build|" -e "s|@rpath@|-Wl,-rpath,$build |" -e "s|@version@|$version|" \
    "$top/bindings/c/divrelca.pc.in" >"$build/divrelca.pc"
echo "The proved library is build/libdivrelca.a and build/libdivrelca.so, with build/divrelca.h, divrelca_easy.h, divrelca_requests.h and divrelca.pc"
[ "${1:-}" = test ] || exit 0

skipped=0
# Says that the test named $1 was left out, for $2 is not there.
skip() {
    echo "SKIPPED: $1, for $2 is not there"
    skipped=$((skipped + 1))
}
has_valgrind=false
has_checks=false
! valgrind -q true >/dev/null 2>&1 || has_valgrind=true
! { echo 'int main(void) { return 0; }' | $cc -fsanitize=address,undefined -x c - -o "$build/checked" && "$build/checked"; } >/dev/null 2>&1 || has_checks=true
# Runs the test $2 with the archive in the folder $1, in each of the three ways.
run_test() {
    source=$top/bindings/c/$2.c
    $cc $flags "$source" "$1/bare.a" -o "$1/$2"
    "$1/$2"
    if $has_valgrind; then
        # (a session takes a quarter of a second there: the session test refuses each eighth allocation alone)
        valgrind -q --error-exitcode=1 --leak-check=full --errors-for-leak-kinds=all "$1/$2" 8
    else
        skip "$2 under valgrind" valgrind
    fi
    if $has_checks; then
        $cc $flags -g -fsanitize=address,undefined -fno-sanitize-recover=all "$source" "$1/bare.a" -o "$1/$2_checked"
        "$1/$2_checked"
    else
        skip "$2 with the C side checked" "address and undefined-behaviour checks of $cc"
    fi
}
for folder in "$build" "$build/rattle"; do
    for test in session_test asks_test decide_test keys_test calls_test easy_test requests_test; do run_test "$folder" "$test"; done
done
names=$(nm -D --defined-only "$build/libdivrelca.so" | awk '$2 != "A" { sub("@.*", "", $3); print $3 }' | sort -u)
visible=$(echo "$names" | grep -v '^dv_' || true)
if [ -n "$visible" ]; then
    echo "error: build/libdivrelca.so shows other names: $visible" >&2
    exit 1
fi
declared=$(sed -n 's/^[a-z0-9_]* \(dv_[a-z_]*\)(.*$/\1/p' "$top/bindings/include/divrelca.h" | sort -u)
if [ "$declared" != "$names" ]; then
    echo "error: the header declares other calls than the library has" >&2
    exit 1
fi
echo "The library for C is tested with the archive of either compiler; $skipped tests were skipped"
