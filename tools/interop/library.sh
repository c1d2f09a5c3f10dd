# The programs over the library, `dvssh` and `dvsshd`, against OpenSSH and against each other, on loopback. Read by tools/interop.sh, whose helpers it uses, after
# tools/interop/library_tools.sh. Wants build/dvssh and build/dvsshd (`make lib programs`).

# Starts a server on a port of the loopback that its number makes likely to be free, and waits until it listens.
listen() {
    local port=$1 _
    shift
    "$@" 2>>library.err &
    library_pids+=($!)
    for _ in $(seq 100); do
        kill -0 "${library_pids[-1]}" 2>/dev/null || return 1
        (: <"/dev/tcp/127.0.0.1/$port") 2>/dev/null && break
        sleep 0.1
    done
    # (what listens there may be another's server, which keeps this one from it)
    sleep 0.2
    kill -0 "${library_pids[-1]}" 2>/dev/null
}

# deaf SERVER: says that it does not listen.
deaf() {
    echo "FAILED  $1 does not listen"
    failed=$((failed + 1))
}

# through NAME SHELL PORT: each program through this client, which is one word for programs that want one, to the server on this port.
through() {
    local name=$1 shell=$2 port=$3 at=$user@127.0.0.1
    timeout "$limit" "$shell" -p "$port" "$at" 'cat; echo words >&2; exit 3' <data >answer 2>log
    row "$name" "\`cat\` of $size bytes, error output, exit status" "status 3, same, words" "status $?, $(same "$(hash_of <answer)" "$want"), $(grep -o words log)"
    by_tools
}

# The first program of docs/C.md with `dvsshd`: hello WORDS.. gives it a socket before these words.
hello() { (exec 9<>/dev/tcp/127.0.0.1/40723; timeout "$limit" "$top/build/hello_client" 9 "$@" 2>&1; echo "status $?"); }
first_program() {
    local name='the first program of docs/C.md to `dvsshd`'
    row "$name" "\`uname\`" "Linux status 0" "$(hello host.pub "$user" user | xargs)"
    row "$name" "a wrong host key" "the server is refused: the host is not trusted status 255" "$(hello other.pub "$user" user | sed 's/^hello_client: //' | xargs)"
    row "$name" "an unknown key" "the server does not let the user in status 255" "$(hello host.pub "$user" other | sed 's/^hello_client: //; s/;.*//' | xargs)"
    row "$name" "an unknown user" "the server does not let the user in status 255" "$(hello host.pub nobody_here user | sed 's/^hello_client: //; s/;.*//' | xargs)"
}

with_library() {
    local each missing='' dvsshd_pid sshd_pid=''
    for each in dvssh dvsshd hello_client; do [ -x "$top/build/$each" ] || missing="$missing build/$each"; done
    if [ -n "$missing" ]; then
        absent "${missing# }: \`make lib programs\` builds what is missing"
        return
    fi
    library_pids=()
    : >library.err
    mkdir tree
    cp data tree
    if has git; then
        git -C tree init -q
        git -C tree add data
        git -C tree -c user.email=reader@example.org -c user.name=reader commit -qm data
    fi
    for each in 40722 40723 40724; do echo "[127.0.0.1]:$each $(cut -d' ' -f1,2 host.pub)"; done >known_ports
    printf '#!/bin/sh\nexec "%s" -i "%s/user" -o UserKnownHostsFile="%s/known_ports" "$@"\n' "$top/build/dvssh" "$work" "$work" >by_dvssh
    printf '#!/bin/sh\nexec %s -F none -o BatchMode=yes -o IdentitiesOnly=yes -i "%s/user" -o UserKnownHostsFile="%s/known_ports" "$@"\n' "$(command -v ssh)" "$work" "$work" >by_ssh
    chmod +x by_dvssh by_ssh
    listen 40723 "$top/build/dvsshd" -h host -a authorized -p 40723 || deaf dvsshd
    dvsshd_pid=${library_pids[-1]}
    through "client of OpenSSH to \`dvsshd\`" "$work/by_ssh" 40723
    through "\`dvssh\` to \`dvsshd\`" "$work/by_dvssh" 40723
    first_program
    if [ -x "$sshd" ] && [ "$(id -u)" = 0 ]; then
        listen 40722 "$sshd" -D -e -f "$work/sshd_config" -o Port=40722 -o ListenAddress=127.0.0.1 || deaf sshd
        sshd_pid=${library_pids[-1]}
        through "\`dvssh\` to sshd of OpenSSH" "$work/by_dvssh" 40722
    else
        absent "sshd, or not run as root"
    fi
    with_sessions "$dvsshd_pid" "$sshd_pid"
    with_python
    with_late
    with_keys
    kill "${library_pids[@]}" 2>/dev/null
    wait "${library_pids[@]}" 2>/dev/null
}
