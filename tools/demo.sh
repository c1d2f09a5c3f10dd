#!/bin/sh
# Builds ssh_trace without its proofs, leaves it as build/unproved/ssh_trace, and runs it on scripts and packets. The program says of itself
# that it is not proved. Each command stands before what it prints and its exit status. build.sh leaves a proved program.
set -eu
top=$(cd "$(dirname "$0")/.." && pwd)
. "$top/tools/common.sh"
program=build/unproved/ssh_trace
echo "Building ssh_trace without its proofs, which takes a minute or more."
work=$(mktemp -d)
building=
copying=
trap '[ -z "$building" ] || kill $building $copying 2>/dev/null || true; rm -rf "$work"' EXIT
trap 'exit 130' INT TERM

# The crates, with a program that does not say that it is proved.
mkdir -p "$work/tree" "$work/tries" "$top/build/unproved"
(cd "$top" && tar -cf - --exclude=out crates crates.txt HANDLES) | tar -xf - -C "$work/tree"
said=$work/tree/crates/ssh_trace/src/answer.rt
sed -i 's/, proved with {KIT}/, NOT PROVED: built without its proofs/; s/^use divrelca::{KIT, VERSION};/use divrelca::VERSION;/' "$said"

# The toolchain runs such a program and keeps none. This one is copied while it waits for its script.
mkfifo "$work/script"
(
    exec 3>"$work/script"
    cp "$work"/tries/*/*/program "$work/ssh_trace"
    echo "# nothing happens" >&3
) 2>"$work/copied" &
copying=$!
cd "$work/tree/crates/ssh_trace_program"
TMPDIR=$work/tries "$rt" try --steps 1 --seconds 600 -- play "$work/script" >"$work/said" 2>&1 </dev/null &
building=$!
seconds=0
while kill -0 "$building" 2>/dev/null; do
    sleep 1
    seconds=$((seconds + 1))
    [ $((seconds % 10)) != 0 ] || echo "$seconds seconds: compiling ssh_trace with the crates below it"
done
if ! wait "$building" || ! wait "$copying"; then
    cat "$work/said" "$work/copied" >&2
    exit 1
fi
building=
cd "$top"
mv "$work/ssh_trace" "$program"

# Runs a command, and shows it with what it prints and its exit status.
show() {
    printf '\n$ %s\n' "$*"
    status=0
    "$@" 2>&1 || status=$?
    echo "exit status $status"
}
# The same of scripts, each with the comment at its head.
show_script() {
    printf '\n'
    sed -n '/^#/!q;p' "$2"
    show "$program" "$1" "$2"
}

for script in packets_in_order lost_packet repeated_packet recorded_openssh; do
    show_script play "examples/$script.txt"
done
for command in play check; do
    show_script "$command" examples/whole_session.txt
done
for script in docs/pictures/terrapin_unnoticed.txt docs/pictures/terrapin_refused.txt \
    crates/test_plays/data/success_from_the_client.txt crates/test_plays/data/exec_before_login.txt; do
    show_script play "$script"
done
grep -v '^#' examples/clear_packets.txt >"$work/packets"
while read -r packet; do
    show "$program" decode "$packet"
done <"$work/packets"
show "$program" --version
printf '\nThis run was not proved, and %s is not: make build leaves the proved program as build/ssh_trace.\n' "$program"
