# A server of the library for Python that knows nobody beforehand and looks each key and password up, which takes a second: every client waits, and is told
# by which key it was let in. Read by tools/interop.sh, after tools/interop/library_python.sh. A client that is missing is left out.

# by_late NAME WORDS..: a client at that server, with the user's key.
by_late() {
    local name=$1 seen status
    shift
    seen=$(timeout "$limit" "$@" </dev/null 2>log)
    status=$?
    [ "$seen" != "$late_print" ] || seen="its fingerprint"
    row "$name to a server of \`bindings/python\` whose look-up takes a second" "the key that let the user in, exit status" "its fingerprint, status 5" "$seen, status $status"
}

late_to_openssh() {
    local at=reader@127.0.0.1 seen
    local words=(-F none -o BatchMode=yes -o IdentitiesOnly=yes -o UserKnownHostsFile="$work/known_late" -p 40725)
    by_late "client of OpenSSH" ssh "${words[@]}" -i "$work/user" "$at" x
    timeout "$limit" ssh "${words[@]}" -i "$work/other" "$at" x </dev/null >seen 2>log
    row "client of OpenSSH to a server of \`bindings/python\` whose look-up takes a second" "an unknown key" "status 255, denied" "status $?, $(grep -q 'Permission denied' log && echo denied)"
}

late_to_putty() {
    has plink && has puttygen || { absent "plink and puttygen"; return; }
    local version words
    version=$(plink -V | sed -n 's/^plink: Release /plink of PuTTY /p')
    words=(plink -batch -ssh -P 40725 -hostkey "$(ssh-keygen -l -f host.pub | cut -d' ' -f2)" -l reader)
    puttygen user -O private -o user.ppk
    by_late "$version" "${words[@]}" -i user.ppk 127.0.0.1 x
    row "$version to a server of \`bindings/python\` whose look-up takes a second" "a password" "password" "$(timeout "$limit" "${words[@]}" -pwfile password 127.0.0.1 x </dev/null 2>log)"
}

late_to_asyncssh() {
    local version
    version=$("$python" -W ignore -c 'import asyncssh; print(asyncssh.__version__)' 2>/dev/null) || { absent "asyncssh"; return; }
    by_late "client of asyncssh $version" "$python" -W ignore "$tools/interop/late_asyncssh.py" "$work" 40725
}

with_late() {
    local late_pid late_print
    [ -e "$top/build/libdivrelca.so" ] || return
    late_print=$(ssh-keygen -l -f user.pub | cut -d' ' -f2)
    echo "[127.0.0.1]:40725 $(cut -d' ' -f1,2 host.pub)" >known_late
    : >port
    "${package[@]}" "$tools/interop/late_server.py" "$work" 40725 >port 2>late.err &
    late_pid=$!
    [ "$(at_port port)" = listens ] || deaf "the server of bindings/python whose look-up takes a second"
    late_to_openssh
    late_to_putty
    late_to_asyncssh
    kill "$late_pid"
    wait "$late_pid" 2>/dev/null
}
