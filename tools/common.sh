# Read by the scripts of this folder: sets rt to the toolchain's command, or says what is missing and ends.
rt=${RT:-rt}
if ! command -v "$rt" >/dev/null 2>&1; then
    echo "error: the command '$rt' is not there. It is the command of the Rattle toolchain, which proves, builds and runs the" >&2
    echo "crates of this repository; the README says which kit they are proved with. Put it on the PATH, or name it: make RT=/path/to/rt .." >&2
    exit 2
fi

# Copies the work tree, without what git ignores, into the directory $1.
copy_tree() (
    cd "$top"
    git ls-files --cached --others --exclude-standard | while IFS= read -r file; do
        [ ! -e "$file" ] || cp --parents -t "$1" "$file"
    done
)
