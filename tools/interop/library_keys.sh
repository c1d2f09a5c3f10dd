# Keys of RSA and ECDSA, which the library does not compute: users' keys at servers of bindings/python and at dvsshd, whose programs judge the signatures; an
# agent that signs for clients of bindings/python and for dvssh; and host keys. Read by tools/interop.sh, after tools/interop/library_late.sh.

kinds="rsa ecdsa ed25519"

# by_keys NAME KIND WORDS..: a client at the server of bindings/python, with a key of this kind.
by_keys() {
    local name=$1 kind=$2 seen status
    shift 2
    seen=$(timeout "$limit" "$@" </dev/null 2>log)
    status=$?
    [ "$seen" != "$(ssh-keygen -l -f "key_$kind.pub" | cut -d' ' -f2)" ] || seen="its fingerprint"
    row "$name to a server of \`bindings/python\` that knows keys of three kinds" "a key of $kind, exit status" "its fingerprint, status 5" "$seen, status $status"
}

keys_to_python() {
    local kind version port=40726
    local words=(-F none -o BatchMode=yes -o IdentitiesOnly=yes -o UserKnownHostsFile="$work/known_keys")
    version=$("$python" -W ignore -c 'import asyncssh; print(asyncssh.__version__)' 2>/dev/null)
    : >port
    "${package[@]}" "$tools/interop/keys_server.py" "$work" "$port" >port 2>keys.err &
    keys_pids+=($!)
    [ "$(at_port port)" = listens ] || deaf "the server of bindings/python that knows keys of three kinds"
    for kind in $kinds; do
        by_keys "client of OpenSSH" "$kind" ssh "${words[@]}" -i "$work/key_$kind" -p "$port" reader@127.0.0.1 x
        [ -z "$version" ] || by_keys "client of asyncssh $version" "$kind" "$python" -W ignore "$tools/interop/keys_asyncssh.py" client "$work" "$port" "key_$kind"
        if has plink && has puttygen; then
            puttygen "key_$kind" -O private -o "key_$kind.ppk"
            by_keys "$(plink -V | sed -n 's/^plink: Release /plink of PuTTY /p')" "$kind" \
                plink -batch -ssh -P "$port" -hostkey "$(ssh-keygen -l -f host.pub | cut -d' ' -f2)" -l reader -i "key_$kind.ppk" 127.0.0.1 x
        fi
    done
    timeout "$limit" ssh "${words[@]}" -i "$work/other" -p "$port" reader@127.0.0.1 x </dev/null >seen 2>log
    row "client of OpenSSH to a server of \`bindings/python\` that knows keys of three kinds" "an unknown key" "status 255, denied" "status $?, $(grep -q 'Permission denied' log && echo denied)"
    [ -n "$version" ] || absent "asyncssh"
    has plink && has puttygen || absent "plink and puttygen"
}

keys_to_dvsshd() {
    local kind port=40727
    listen "$port" "$top/build/dvsshd" -h host -a key_all -p "$port" || deaf '`dvsshd` with keys of three kinds'
    for kind in $kinds; do
        timeout "$limit" ssh -F none -o BatchMode=yes -o IdentitiesOnly=yes -o UserKnownHostsFile="$work/known_keys" -i "$work/key_$kind" -p "$port" "$user@127.0.0.1" 'echo in; exit 3' \
            </dev/null >seen 2>log
        row "client of OpenSSH to \`dvsshd\`" "a key of $kind, exit status" "status 3, in" "status $?, $(cat seen)"
    done
}

# agents_to NAME PORT: clients with an agent that holds one key, at a server of three kinds of keys.
agents_to() {
    local kind seen
    for kind in $kinds; do
        SSH_AUTH_SOCK=$work/agent ssh-add -q -D 2>/dev/null
        SSH_AUTH_SOCK=$work/agent ssh-add -q "key_$kind"
        seen=$(SSH_AUTH_SOCK=$work/agent timeout "$limit" "${package[@]}" "$tools/interop/keys_client.py" "$work" "$user" "$2" ssh-ed25519 2>log)
        row "client of \`bindings/python\` to $1" "a key of $kind by an agent, exit status" "in, status 3" "$seen"
        SSH_AUTH_SOCK=$work/agent timeout "$limit" "$top/build/dvssh" -o BatchMode=yes -o UserKnownHostsFile="$work/known_keys" -p "$2" "$user@127.0.0.1" 'echo in; exit 3' </dev/null >seen 2>log
        row "\`dvssh\` to $1" "a key of $kind by an agent, exit status" "status 3, in" "status $?, $(cat seen)"
    done
}

# hosts_at NAME PORT: a client that asks its program about host keys of other kinds.
hosts_at() {
    local algorithm seen
    for algorithm in rsa-sha2-512 rsa-sha2-256 ecdsa-sha2-nistp256; do
        seen=$(SSH_AUTH_SOCK=$work/agent timeout "$limit" "${package[@]}" "$tools/interop/keys_client.py" "$work" "${3:-$user}" "$2" "$algorithm" 2>log)
        row "client of \`bindings/python\` to $1" "a host key for $algorithm, exit status" "in, status 3" "$seen"
    done
}

keys_to_sshd() {
    local port=40728 kind
    {
        for kind in host key_rsa key_ecdsa; do echo "HostKey $work/$kind"; done
        printf '%s\n' "AuthorizedKeysFile $work/key_all" "UsePAM no" "StrictModes no" "PermitRootLogin yes" "PidFile none" "ListenAddress 127.0.0.1:$port"
    } >keys_config
    listen "$port" "$sshd" -D -e -f "$work/keys_config" || deaf "sshd with keys of three kinds"
    agents_to sshd "$port"
    hosts_at sshd "$port"
}

keys_to_asyncssh() {
    local version
    version=$("$python" -W ignore -c 'import asyncssh; print(asyncssh.__version__)' 2>/dev/null) || return
    : >port
    "$python" -W ignore "$tools/interop/keys_asyncssh.py" server "$work" >port 2>keys.err &
    keys_pids+=($!)
    hosts_at "a server of asyncssh $version" "$(at_port port)" reader
}

with_keys() {
    local kind each keys_pids=()
    [ -e "$top/build/libdivrelca.so" ] && [ -x "$top/build/dvssh" ] && has ssh-agent || { absent "ssh-agent, or what \`make lib programs\` builds"; return; }
    "$python" -c 'import cryptography' 2>/dev/null || { absent "cryptography"; return; }
    for kind in $kinds; do
        rm -f "key_$kind" "key_$kind.pub"
        ssh-keygen -q -t "$kind" -N '' -C "$kind" -f "key_$kind"
    done
    cat key_*.pub >key_all
    echo "* $(cut -d' ' -f1,2 host.pub)" >known_keys
    ssh-agent -D -a "$work/agent" >/dev/null &
    keys_pids+=($!)
    keys_to_python
    keys_to_dvsshd
    agents_to '`dvsshd`' 40727
    [ ! -x "$sshd" ] || [ "$(id -u)" != 0 ] || keys_to_sshd
    keys_to_asyncssh
    for each in "${keys_pids[@]}"; do
        kill "$each"
        wait "$each" 2>/dev/null
    done
}
