# The library for Python: its client at dvsshd, sshd, asyncssh and Erlang's ssh, and its server with the clients of OpenSSH and Erlang. Read by tools/interop.sh, after
# tools/interop/library.sh. Wants build/libdivrelca.so; asyncssh and Erlang (erlang-ssh on Debian) are left out where they are missing.

# (the package is found through the environment, so that what is begun in the background is the interpreter itself)
package=(env PYTHONDONTWRITEBYTECODE=1 "PYTHONPATH=$top/bindings/python" "$python")

# by_python NAME PORT: the client at a server that runs commands.
by_python() {
    "${package[@]}" "$tools/interop/library_client.py" "$work" "$user" "$2" >answer 2>log
    row "client of \`bindings/python\` to $1" "\`cat\` of $size bytes on three channels at once, keys exchanged after 64 packets, error output, exit statuses, an unknown key" \
        "same same same 0 1 2 words denied" "$(words answer)"
}

# at_port FILE: waits until a server that was begun in the background says its port, or what else it says, in the file.
at_port() {
    local _
    for _ in $(seq 100); do [ -s "$1" ] && break; sleep 0.1; done
    cat "$1"
}

python_to_asyncssh() {
    local version pid
    version=$("$python" -W ignore -c 'import asyncssh; print(asyncssh.__version__)' 2>/dev/null) || { absent "asyncssh"; return; }
    : >port
    "$python" -W ignore "$tools/interop/asyncssh_server.py" "$work" >port 2>serve.err &
    pid=$!
    "${package[@]}" "$tools/interop/library_peers.py" asyncssh "$work" "$(at_port port)" >answer 2>log
    row "client of \`bindings/python\` to a server of asyncssh $version" \
        "\`exec\`, exit status, \`cat\` of $size bytes on two channels at once, password, an unknown key, a wrong password" "echo hello 5 same same echo hello denied denied" "$(words answer)"
    kill "$pid"
    wait "$pid" 2>/dev/null
}

# The folder that Erlang's ssh reads its keys in, as a server and as a client.
erlang_folder() {
    mkdir -p erlang/other
    cp host erlang/ssh_host_ed25519_key
    cp authorized erlang/authorized_keys
    cp user erlang/id_ed25519
    cp other erlang/other/id_ed25519
    cp known_ports erlang/known_hosts
    cp known_ports erlang/other/known_hosts
}

# What kind of Erlang there is, in words; nothing where its ssh is missing.
erlang() {
    has escript && erl -noshell -eval 'application:load(ssh), {ok, V} = application:get_key(ssh, vsn), io:format("Erlang'"'"'s ssh ~s", [V]), halt().' 2>/dev/null
}

python_to_erlang() {
    local pid
    mkfifo erlang_input
    : >port
    escript "$tools/interop/erlang_server.escript" "$work/erlang" <erlang_input >port 2>serve.err &
    pid=$!
    exec 8>erlang_input
    "${package[@]}" "$tools/interop/library_peers.py" erlang "$work" "$(at_port port)" >answer 2>log
    row "client of \`bindings/python\` to a server of $1" "\`exec\`, exit status, 1000000 bytes received, subsystem \`sftp\`, password, an unknown key, a wrong password" \
        "echo hello 0 same 2 echo hello denied denied" "$(words answer)"
    exec 8>&-
    wait "$pid" 2>/dev/null
}

to_python() {
    timeout "$limit" ssh -F none -o BatchMode="${BATCH:-yes}" -o IdentitiesOnly=yes -i "$work/${IDENTITY:-user}" -o UserKnownHostsFile="$work/known_ports" -p 40724 "$@"
}
denied() { grep -o 'Permission denied (.*' "$1" | tr -d '\r'; }

# (the interpreter with the package has 22 MiB; each connection has a window of 2 MiB and what waits for its peer)
stock_to_python() {
    local peer="client of OpenSSH to a server of \`bindings/python\`" seen at=reader@127.0.0.1 each pids=() most=49152
    seen=$(to_python "$at" hello 2>log)
    row "$peer" "\`exec\`, exit status" "hello, status 5" "$seen, status $?"
    to_python "$at" cat <data >answer 2>log
    row "$peer" "\`cat\` of $size bytes, error output, exit status" "status 3, same, words" "status $?, $(same "$(hash_of <answer)" "$want"), $(grep -o words log)"
    to_python -v -o RekeyLimit=$((size / 16)) "$at" cat <data >answer 2>log
    row "$peer" "keys exchanged again by the client, every $((size / 16)) bytes" "same, more than 4 exchanges" "$(same "$(hash_of <answer)" "$want"), $(exchanges log)"
    seen=
    for each in 1 2 3 4 5; do
        to_python "$at" cat <data 2>>log | hash_of >"several.$each" &
        pids+=($!)
    done
    wait "${pids[@]}"
    for each in 1 2 3 4 5; do seen="$seen $(same "$(cat "several.$each")" "$want")"; done
    row "$peer" "\`cat\` of $size bytes on five connections at once" "same same same same same" "${seen# }"
    seen=$(to_python "$at" cat <data 2>>log | (head -c 100000; sleep 3; cat) | hash_of)
    each=$(watched memory "$python_pid")
    if is_at_most "$each" "$most"; then each="at most $((most / 1024)) MiB"; fi
    row "$peer" "the same while the reader sleeps for 3 s; what the server has had in memory" "same, at most $((most / 1024)) MiB" "$(same "$seen" "$want"), $each"
    seen=$(BATCH=no WORD=password SSH_ASKPASS=$work/ask SSH_ASKPASS_REQUIRE=force to_python -o PreferredAuthentications=password "$at" hello 2>log)
    row "$peer" "password" "hello, status 5" "$seen, status $?"
    IDENTITY=other to_python "$at" hello >seen 2>log
    row "$peer" "an unknown key" "status 255, Permission denied (publickey,password)." "status $?, $(denied log)"
}

with_python() {
    local python_pid version
    if [ ! -e "$top/build/libdivrelca.so" ]; then
        absent "build/libdivrelca.so"
        return
    fi
    by_python "\`dvsshd\`" 40723
    [ -z "$sshd_pid" ] || by_python "sshd of OpenSSH" 40722
    python_to_asyncssh
    erlang_folder
    version=$(erlang)
    if [ -n "$version" ]; then python_to_erlang "$version"; else absent "Erlang's ssh"; fi
    : >port
    "${package[@]}" "$tools/interop/library_server.py" "$work" 40724 >port 2>serve.err &
    python_pid=$!
    [ "$(at_port port)" = listens ] || deaf "the server of bindings/python"
    stock_to_python
    if [ -n "$version" ]; then
        escript "$tools/interop/erlang_client.escript" "$work/erlang" 40724 "$work/data" >answer 2>log
        row "client of $version to a server of \`bindings/python\`" "\`cat\` of $size bytes, error output, exit status, an unknown key" "same words status 3 denied" "$(words answer)"
    fi
    kill "$python_pid"
    wait "$python_pid" 2>/dev/null
}
