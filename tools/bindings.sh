#!/bin/sh
# What stands on the library for C, which `make lib` leaves in build/.
#
# `programs` builds the programs of docs/C.md, build/hello_client and build/echo_server, and by tools/rust.sh build/dvssh and build/dvsshd. `test` runs the second of them with
# OpenSSH's client, the tests of bindings/python, which it installs by pip into a folder of its own too, and by tools/rust.sh those of bindings/rust. It says what is skipped where a tool is missing. The gate runs it at its end.
set -eu
top=$(cd "$(dirname "$0")/.." && pwd)
build=${LIBRARY:-$top/build}
cc=${CC:-cc}

skipped=0
# Says that what is named $1 was left out, for $2 is not there.
skip() {
    echo "SKIPPED: $1, for $2 is not there"
    skipped=$((skipped + 1))
}

# Builds the program $1 of docs/C.md as $2; further words go to the compiler.
of_page() {
    source=$top/bindings/c/$1.c
    program=$2
    shift 2
    $cc -std=c11 -O2 -Wall -Wextra -Werror "$@" -I"$top/bindings/include" "$source" "$build/libdivrelca.a" -o "$program"
}

programs() {
    if [ ! -e "$build/libdivrelca.a" ]; then
        echo "error: $build/libdivrelca.a is not there: run \`make lib\` first" >&2
        exit 2
    fi
    mkdir -p "$top/build"
    for program in hello_client echo_server; do of_page "$program" "$top/build/$program"; done
    echo "The programs of docs/C.md are build/hello_client and build/echo_server"
    LIBRARY="$build" sh "$top/tools/rust.sh" programs
}

# The server of docs/C.md, checked for addresses where the compiler can, with OpenSSH's client: several connections, each of which has back what it sent.
of_c() {
    if ! command -v ssh >/dev/null 2>&1 || ! command -v ssh-keygen >/dev/null 2>&1; then
        skip "the server of docs/C.md" "OpenSSH's client"
        return
    fi
    room=$(mktemp -d)
    of_page echo_server "$room/echo_server" -g -fsanitize=address,undefined -fno-sanitize-recover=all 2>/dev/null || of_page echo_server "$room/echo_server"
    for key in host user; do ssh-keygen -q -t ed25519 -N '' -f "$room/$key"; done
    port=$(python3 -c 'import socket; it = socket.socket(); it.bind(("127.0.0.1", 0)); print(it.getsockname()[1])')
    echo "[127.0.0.1]:$port $(cut -d' ' -f1,2 "$room/host.pub")" >"$room/known"
    head -c 3000000 /dev/urandom >"$room/data"
    "$room/echo_server" "$room/host" "$room/user.pub" me "$port" &
    server=$!
    all=
    for number in 1 2 3 4; do
        ssh -F none -o BatchMode=yes -o ConnectionAttempts=5 -o RekeyLimit=1M -o UserKnownHostsFile="$room/known" -i "$room/user" -p "$port" me@127.0.0.1 x <"$room/data" >"$room/came.$number" &
        all="$all $!"
    done
    failed=0
    for each in $all; do wait "$each" || failed=$((failed + 1)); done
    for number in 1 2 3 4; do cmp "$room/data" "$room/came.$number" || failed=$((failed + 1)); done
    kill -0 "$server" && kill "$server" || failed=$((failed + 1))
    rm -rf "$room"
    if [ "$failed" != 0 ]; then
        echo "error: the server of docs/C.md failed" >&2
        exit 1
    fi
    echo "The server of docs/C.md sends all back, four connections at once"
}

# What is installed and what is handed on: a program that finds the library by pkg-config, and an archive of which a byte is changed.
of_install() {
    room=$(mktemp -d)
    DESTDIR="$room/to" PREFIX=/usr LIBRARY="$build" sh "$top/tools/install.sh" install >"$room/files"
    if command -v pkg-config >/dev/null 2>&1; then
        # shellcheck disable=SC2046 # (words)
        $cc -std=c11 -Wall -Wextra -Werror "$top/bindings/c/hello_client.c" $(PKG_CONFIG_PATH="$room/to/usr/lib/pkgconfig" pkg-config --cflags --libs divrelca) -o "$room/hello"
        status=0
        LD_LIBRARY_PATH="$room/to/usr/lib" "$room/hello" 2>"$room/said" || status=$?
        [ "$status" = 255 ] && grep -q 'the words are' "$room/said" || { echo "error: a program over the installed library does not run" >&2; exit 1; }
    else
        skip "a program over the installed library" pkg-config
    fi
    DESTDIR="$room/to" PREFIX=/usr LIBRARY="$build" sh "$top/tools/install.sh" uninstall
    [ -z "$(find "$room/to" -type f -o -type l)" ] || { echo "error: files of an installation are left" >&2; exit 1; }
    if [ -e "$build/proved.json" ] && command -v xz >/dev/null 2>&1 && command -v objdump >/dev/null 2>&1; then
        DIST="$room/dist" LIBRARY="$build" sh "$top/tools/dist.sh" >"$room/said"
        (cd "$room/dist"/*/ && ./divrelca-receipt check receipt.json "$top" && echo x >>include/divrelca.h && ! ./divrelca-receipt check receipt.json) || { echo "error: a receipt" >&2; exit 1; }
    else
        skip "the archive with a receipt" "build/proved.json of \`make lib\`, xz or objdump"
    fi
    rm -rf "$room"
    echo "The library is installed and removed, and its receipt tells a changed file"
}

of_python() {
    if ! command -v python3 >/dev/null 2>&1; then
        skip "the tests of bindings/python" python3
        return
    fi
    if ! python3 -c 'import ctypes, sys; sys.exit(sys.version_info < (3, 9))' >/dev/null 2>&1; then
        skip "the tests of bindings/python" "python3 of version 3.9, with ctypes,"
        return
    fi
    export DIVRELCA_LIBRARY="$build/libdivrelca.so"
    # (the tests skip themselves where the library does not load: here that is a failure)
    (cd "$top/bindings/python" && PYTHONDONTWRITEBYTECODE=1 python3 -c 'import divrelca' && PYTHONDONTWRITEBYTECODE=1 python3 -m unittest discover -s tests -t .)
    if command -v mypy >/dev/null 2>&1; then
        (cd "$top/bindings/python" && mypy --strict --cache-dir=/dev/null divrelca/*.py)
    else
        skip "the annotations of bindings/python" mypy
    fi
    if ! python3 -m pip --version >/dev/null 2>&1; then
        skip "the installation of bindings/python" pip
        return
    fi
    installed=$(mktemp -d)
    trap 'rm -rf "$installed"' EXIT
    PIP_ROOT_USER_ACTION=ignore python3 -m pip install --quiet --disable-pip-version-check --no-index --no-deps --target "$installed" "$top/bindings/python"
    (cd "$installed" && unset DIVRELCA_LIBRARY && python3 -c 'import divrelca; assert len(divrelca.public_key(bytes(32))) == 32' && python3 -m divrelca.probe list >/dev/null)
    echo "bindings/python is installed by pip, and has the library inside"
}

of_rust() {
    LIBRARY="$build" sh "$top/tools/rust.sh" test
}

tests() {
    if [ ! -e "$build/libdivrelca.a" ] || [ ! -e "$build/libdivrelca.so" ]; then
        skip "the tests of bindings/python and bindings/rust" "$build/libdivrelca.a or libdivrelca.so"
        return
    fi
    of_c
    of_install
    of_python
    of_rust
    echo "What stands on the library was tested as far as its tools are there; skipped besides what bindings/rust skipped: $skipped"
}

case "${1:-}" in
    programs) programs ;;
    test) tests ;;
    *) echo "usage: tools/bindings.sh programs|test" >&2; exit 2 ;;
esac
