#!/bin/sh
# Installs what `make lib` and `make programs` left in build/: headers, libraries, divrelca.pc, the programs that are there and their manual pages. Nothing is built, and nothing else is
# looked at. `uninstall` removes just these files.
#
# PREFIX (/usr/local) is where they are to be, and DESTDIR stands before it while they are copied. BINDIR, INCLUDEDIR, LIBDIR and MANDIR name folders elsewhere; they are absolute.
# The pages are made by help2man of what each program says when it is asked for help. Where help2man is missing, that is said, and the pages are left out.
set -eu
top=$(cd "$(dirname "$0")/.." && pwd)
build=${LIBRARY:-$top/build}
prefix=${PREFIX:-/usr/local}
bin=${BINDIR:-$prefix/bin}
include=${INCLUDEDIR:-$prefix/include}
lib=${LIBDIR:-$prefix/lib}
man=${MANDIR:-$prefix/share/man}
to=${DESTDIR:-}
. "$top/tools/release.sh"

# The commands of ssh_trace, each of which has a page of its own.
trace_commands="decode play check sweep draw"

# What the program $1 is, for the first line of its page.
about() {
    case $1 in
        dvssh) echo "a client of SSH-2 that takes the words of OpenSSH's ssh" ;;
        dvsshd) echo "a server of SSH-2 for one user" ;;
        ssh_trace*) echo "shows what two ends of SSH do" ;;
    esac
}

# page NAME PROGRAM WORDS..: makes the page NAME.1 of what the program says when it is asked for help with these words before.
page() {
    name=$1
    shift
    # (ssh_trace tells its help on standard error, with a status of its own)
    printf '#!/bin/sh\n[ "$1" = --version ] && echo "%s %s" || %s --help 2>&1 || true\n' "$name" "$version" "$*" >"$build/man/$name"
    chmod +x "$build/man/$name"
    help2man --no-info --section=1 --source="Divrelca $version" --name="$(about "$name")" "$build/man/$name" >"$build/man/$name.1"
    rm "$build/man/$name"
}

pages() {
    rm -rf "$build/man"
    mkdir -p "$build/man"
    if ! command -v help2man >/dev/null 2>&1; then
        echo "SKIPPED: the manual pages, for help2man is not there"
        return
    fi
    for program in dvssh dvsshd ssh_trace; do
        [ ! -x "$build/$program" ] || page "$program" "$build/$program"
    done
    [ -x "$build/ssh_trace" ] || return 0
    for each in $trace_commands; do page "ssh_trace-$each" "$build/ssh_trace" "$each"; done
}

# The files, as lines of a mode, a file of this repository and a place.
files() {
    for each in divrelca divrelca_easy divrelca_requests; do echo "644 $top/bindings/include/$each.h $include/$each.h"; done
    echo "644 $build/libdivrelca.a $lib/libdivrelca.a"
    echo "755 $build/libdivrelca.so.$major $lib/libdivrelca.so.$major.$minor"
    echo "644 $build/installed.pc $lib/pkgconfig/divrelca.pc"
    for program in dvssh dvsshd ssh_trace; do
        [ ! -x "$build/$program" ] || echo "755 $build/$program $bin/$program"
    done
    for each in "$build"/man/*.1; do
        [ ! -e "$each" ] || echo "644 $each $man/man1/$(basename "$each")"
    done
}

links() {
    echo "libdivrelca.so.$major.$minor $lib/libdivrelca.so.$major"
    echo "libdivrelca.so.$major $lib/libdivrelca.so"
}

copy() {
    for each in libdivrelca.a "libdivrelca.so.$major"; do
        [ -e "$build/$each" ] || { echo "error: build/$each is not there: run \`make lib\` first" >&2; exit 2; }
    done
    pages
    # the folders as seen from that of divrelca.pc, so that the whole may be moved
    from() { realpath -ms --relative-to="$lib/pkgconfig" "$1"; }
    sed -e "s|@prefix@|\${pcfiledir}/$(from "$prefix")|" -e "s|@includedir@|\${pcfiledir}/$(from "$include")|" -e "s|@libdir@|\${pcfiledir}/$(from "$lib")|" \
        -e "s|@version@|$version|" -e "s|@rpath@||" "$top/bindings/c/divrelca.pc.in" >"$build/installed.pc"
    files | while read -r mode file place; do
        mkdir -p "$to$(dirname "$place")"
        cp "$file" "$to$place"
        chmod "$mode" "$to$place"
        echo "$place"
    done
    links | while read -r name place; do
        ln -sf "$name" "$to$place"
        echo "$place"
    done
}

case "${1:-}" in
    install) copy ;;
    uninstall)
        files | while read -r _ _ place; do rm -f "$to$place"; done
        links | while read -r _ place; do rm -f "$to$place"; done
        ;;
    *) echo "usage: tools/install.sh install|uninstall" >&2; exit 2 ;;
esac
