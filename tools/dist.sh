#!/bin/sh
# Makes of what `make lib programs` left in build/, and of build/ssh_trace where that is there, an archive for who has no Rattle: dist/divrelca-VERSION-linux-x86_64.tar.xz. It has
#
#   bin lib include share     as tools/install.sh installs them
#   python                    a wheel with the library inside, tagged by the oldest C library that it runs on
#   rust                      the crates of Rust with the archive inside
#   receipt.json              of which sources all this was made, and the sums of its files
#   divrelca-receipt          compares: ./divrelca-receipt check receipt.json [TREE]
#
# DIST names another folder than dist/.
set -eu
top=$(cd "$(dirname "$0")/.." && pwd)
build=${LIBRARY:-$top/build}
. "$top/tools/release.sh"
name=divrelca-$version-linux-$(uname -m)
dist=${DIST:-$top/dist}
room=$dist/$name

# The newest version of the C library that a file asks for, as 2.17.
wants() { objdump -T "$1" | grep -o 'GLIBC_2\.[0-9]*' | sort -Vu | tail -1 | cut -d_ -f2; }

rm -rf "$room"
mkdir -p "$room/python" "$room/rust"
PREFIX=/ DESTDIR="$room" BINDIR=/bin INCLUDEDIR=/include LIBDIR=/lib MANDIR=/share/man LIBRARY="$build" sh "$top/tools/install.sh" install >/dev/null
mkdir -p "$room/share/doc/divrelca"
cp "$top/README.md" "$top/CHANGELOG.md" "$top"/LICENSE* "$room/share/doc/divrelca/"
for page in INSTALL C PYTHON RUST PROBE STRICTER; do cp "$top/docs/$page.md" "$room/share/doc/divrelca/"; done

oldest=$(wants "$build/libdivrelca.so.$major")
wheel=$(cd "$top/bindings/python" && DIVRELCA_LIBRARY="$build/libdivrelca.so" DIVRELCA_PLATFORM="manylinux_$(echo "$oldest" | tr . _)_$(uname -m)" PYTHONDONTWRITEBYTECODE=1 \
    python3 -c "import sys, divrelca_build; print(divrelca_build.build_wheel(sys.argv[1]))" "$room/python")

(cd "$top/bindings/rust" && git ls-files --cached --others --exclude-standard) | while IFS= read -r file; do
    case $file in tests/*) continue ;; esac
    [ ! -e "$top/bindings/rust/$file" ] || (cd "$top/bindings/rust" && cp --parents "$file" "$room/rust/")
done
mkdir -p "$room/rust/divrelca-sys/lib"
cp "$build/libdivrelca.a" "$room/rust/divrelca-sys/lib/"

cp "$top/tools/receipt.py" "$room/divrelca-receipt"
sed -i '1i #!/usr/bin/env python3' "$room/divrelca-receipt"
chmod 755 "$room/divrelca-receipt"
built=$(cd "$room" && find . -type f ! -name receipt.json | sed 's|^\./||' | LC_ALL=C sort | while IFS= read -r file; do echo "$file=$room/$file"; done)
# shellcheck disable=SC2086 # (words, none of which has a space)
python3 "$top/tools/receipt.py" write "$room/receipt.json" "$build/proved.json" $built
sum=$(sed -n 's/^  "sum": "\(.*\)"$/\1/p' "$room/receipt.json")
if [ -z "$sum" ] || ! grep -q "$sum" "$room/lib/libdivrelca.a" "$room/lib/libdivrelca.so.$major.$minor"; then
    echo "error: the libraries have not the sum of this receipt: run \`make lib\` again" >&2
    exit 1
fi
tar -C "$dist" --sort=name --owner=0 --group=0 --numeric-owner --mtime=@0 -cJf "$dist/$name.tar.xz" "$name"
echo "$dist/$name.tar.xz"
echo "the wheel is $wheel; its library runs on a C library of $oldest or newer"
for program in "$room"/bin/*; do echo "$(basename "$program") runs on one of $(wants "$program") or newer"; done
