# Read by scripts of this folder: the version of this release, and that of the library's interface, which its header has.
version=$(sed -n 's/^pub const VERSION.*"\(.*\)".*/\1/p' "$top/crates/divrelca/src/release.rt")
major=$(sed -n 's/^#define DV_VERSION_MAJOR //p' "$top/bindings/include/divrelca.h")
minor=$(sed -n 's/^#define DV_VERSION_MINOR //p' "$top/bindings/include/divrelca.h")
