#!/bin/bash
# Runs ssh_pipe, and what stands on the library for C, against other implementations, as far as they are installed, and writes what was seen to docs/INTEROP.md: the server of
# ssh_pipe, and that of docs/EMBEDDING.md, against the client of OpenSSH, its client against the server of OpenSSH over two FIFOs (`sshd -i`), both against asyncssh, its server
# against the client of PuTTY; Dropbear and paramiko, which have no cipher or no strict key exchange in common with it; and what tools/interop/library*.sh say. Nothing stays
# behind: every process is started here and ended here, and all files stand in a directory that is removed.
#
# Wants ssh, ssh-keygen, python3, and as root sshd. What is missing is said and left out; on Debian it comes by
#   apt-get install openssh-client openssh-server dropbear-bin putty-tools python3-asyncssh python3-paramiko erlang-ssh git rsync lftp sshfs borgbackup restic mercurial unison \
#       pssh ansible-core
# The program is proved and built first; SSH_PIPE=FILE takes another one. SIZE is that of the transfers in bytes, ROUNDS how often each is timed. With perf
# (linux-perf on Debian) it is also sampled where the time of a transfer goes. ONLY=library runs the rows of the library for C alone, over what `make lib programs` left, and
# writes no page.
set -u
tools=$(cd "$(dirname "$0")" && pwd)
top=$(dirname "$tools")
. "$tools/common.sh"
export LC_ALL=C
size=${SIZE:-67108864}
rounds=${ROUNDS:-3}
python=${PYTHON:-/usr/bin/python3}
limit=${LIMIT:-300}
# Keys are exchanged again after so many packets of 32,768 bytes, some 16 times in a transfer: 64 is the least that an end takes.
packets=$((size / 32768 / 16))
[ "$packets" -ge 64 ] || packets=64
only=${ONLY:-}
if [ -z "${SSH_PIPE:-}" ] && [ -z "$only" ]; then
    sh "$tools/build.sh" ssh_trace ssh_pipe example_embedding || exit 2
    SSH_PIPE=$top/build/ssh_pipe
fi
embedding=$top/build/example_embedding
work=$(mktemp -d)
trap 'rm -rf "$work"' EXIT
cd "$work" || exit 2
[ -n "$only" ] || cp "$SSH_PIPE" pipe
failed=0
for each in rows speeds where paces memories idle; do
    declare "$each=$work/$each"
    : >"$work/$each"
done

# ---- what the cases need

# row PEER WHAT WANTED SEEN: a row of the table, and a fault where what was seen is not what was wanted.
row() {
    if [ "$3" = "$4" ]; then
        echo "ok      $1: $2: $4"
        printf '| %s | %s | %s |\n' "$1" "$2" "${4//|/\\|}" >>"$rows"
    else
        echo "FAILED  $1: $2: wanted $3, seen $4"
        printf '| %s | %s | **%s**, and not %s |\n' "$1" "$2" "${4//|/\\|}" "$3" >>"$rows"
        failed=$((failed + 1))
    fi
}

# absent WHAT: what is left out, for it is not there.
absent() {
    echo "SKIPPED not there: $1"
    printf '| %s | left out: not there | |\n' "$1" >>"$rows"
}

# What an end of ssh_pipe says that it has.
methods='this end has curve25519-sha256, ssh-ed25519 and what --cipher names'

has() { command -v "$1" >/dev/null 2>&1; }

hash_of() { sha256sum | cut -d' ' -f1; }

for key in host user other; do ssh-keygen -q -t ed25519 -N '' -C "$key" -f "$key"; done
echo "example.org $(cut -d' ' -f1,2 host.pub)" >known
echo "example.org $(cut -d' ' -f1,2 other.pub)" >known_other
cp user.pub authorized
echo 'secret word' >password
echo 'another word' >wrong
head -c "$size" /dev/urandom >data
want=$(hash_of <data)
pattern=$("$python" -c "import hashlib, sys
n = int(sys.argv[1]); h = hashlib.sha256(); b = bytes(range(251)) * 4000
while n > 0: h.update(b[:n]); n -= len(b)
print(h.hexdigest())" "$size")

# The server over standard input and output, with further options in $SERVER; what goes to it or comes from it has a byte changed at the place $UP or $DOWN.
cat >server <<'END'
#!/bin/bash
# (a client that is done may end its proxy by a signal)
trap '' HUP TERM
cd "$(dirname "$0")"
rm -f server.status
changed() {
    if [ -n "$1" ]; then
        dd bs=1 count="$1" 2>/dev/null
        dd bs=1 count=1 2>/dev/null | tr '\000-\377' '\001-\377\000'
    fi
    exec cat
}
run() {
    ${SAMPLED:-} ./pipe server --host-key host --user reader --authorized-keys authorized --password-file password ${SERVER:-} 2>server.err
    echo $? >status.new
    mv status.new server.status
}
# (what runs the server is a process of its own: a client that kills its proxy does not keep it from telling the status)
if [ -n "${UP:-}${DOWN:-}" ]; then
    { changed "${UP:-}" | run | changed "${DOWN:-}"; } <&0 &
else
    run <&0 &
fi
# (the shell itself keeps neither stream open, so that either end sees the other go)
exec <&- >&-
wait
END
chmod +x server

# What the server said on standard error, line by line, and its exit status.
server_told() {
    local _
    for _ in $(seq 600); do [ -e server.status ] && break; sleep 0.1; done
    echo "$(sed 's/$/, /' server.err | tr -d '\n')status $(cat server.status)"
}

# The same without who came in.
server_said() { server_told | sed 's/^[^,]* is let in by [^,]*, //'; }

# The client of OpenSSH through that server.
stock() {
    timeout -k 5 "$limit" ssh -F /dev/null -o BatchMode="${BATCH:-yes}" -o UserKnownHostsFile="$work/${KNOWN:-known}" -o GlobalKnownHostsFile=/dev/null \
        -o StrictHostKeyChecking=yes -o IdentitiesOnly=yes -i "$work/${IDENTITY:-user}" -o ProxyCommand="${PROXY:-$work/server}" "$@"
}

# What a password is asked by.
printf '#!/bin/sh\ncat "%s/$WORD"\n' "$work" >ask
chmod +x ask
by_password() {
    BATCH=no SSH_ASKPASS=$work/ask SSH_ASKPASS_REQUIRE=force stock -o NumberOfPasswordPrompts=1 -o PreferredAuthentications=password "$@"
}

# ---- the server, and the client of OpenSSH

stock_client() {
    local peer="client of $(ssh -V 2>&1 | cut -d, -f1)"
    local seen
    seen=$(stock -vvv reader@example.org echo hello 2>log)
    row "$peer" "key of ssh-ed25519, \`exec\`" "hello, status 0" "$seen, status $?"
    row "$peer" "strict key exchange" "curve25519-sha256, strict, aes128-gcm@openssh.com both ways" "$(
        sed -n 's/.*kex: algorithm: //p' log | tr -d '\r' | tr '\n' ','
        grep -q 'strict KEX ordering' log && printf ' strict,'
    ) $(grep -c 'cipher: aes128-gcm@openssh.com' log | sed 's/^2$/aes128-gcm@openssh.com both ways/')"
    stock reader@example.org exit 7 2>log
    row "$peer" "exit status" "7" "$?"
    seen=$(WORD=password by_password reader@example.org echo hello 2>log)
    row "$peer" "password" "hello, status 0" "$seen, status $?"
    seen=$(WORD=wrong by_password reader@example.org echo hello 2>log)
    row "$peer" "a wrong password" "status 255, Permission denied (publickey,password)." "${seen}status $?, $(grep -o 'Permission denied (.*' log | tr -d '\r')"
    IDENTITY=other stock reader@example.org echo hello >seen 2>log
    row "$peer" "an unknown key" "status 255, Permission denied (publickey,password)." "status $?, $(grep -o 'Permission denied (.*' log | tr -d '\r')"
    row "$peer" "\`sha256sum\` of $size bytes sent" "same" "$(same "$(stock reader@example.org sha256sum <data 2>log | cut -d' ' -f1)" "$want")"
    row "$peer" "\`source\`: $size bytes received" "same" "$(same "$(stock reader@example.org source "$size" 2>log | hash_of)" "$pattern")"
    row "$peer" "\`cat\`: $size bytes there and back" "same" "$(same "$(stock reader@example.org cat <data 2>log | hash_of)" "$want")"
    seen=$(SERVER='--window 4096' stock reader@example.org sha256sum 2>log < <(head -c 1000000 data) | cut -d' ' -f1)
    row "$peer" "1,000,000 bytes through a window of 4,096" "same" "$(same "$seen" "$(head -c 1000000 data | hash_of)")"
    seen=$(stock -v -o RekeyLimit=$((size / 16)) reader@example.org cat <data 2>log | hash_of)
    row "$peer" "keys exchanged again by the client, every $((size / 16)) bytes" "same, more than 4 exchanges" "$(same "$seen" "$want"), $(exchanges log)"
    seen=$(SERVER="--rekey-after $packets" stock -v reader@example.org cat <data 2>log | hash_of)
    row "$peer" "by the server, every $packets packets" "same, more than 4 exchanges" "$(same "$seen" "$want"), $(exchanges log)"
    several "$peer"
    stays_alive "$peer"
    server_tells "$peer"
    stock_refusals "$peer"
}

# Who came in, by what, and how the session ended, as the server tells it; and its messages by -v.
server_tells() {
    local done='the peer ended the connection: disconnected by user (reason 11), status 0'
    stock reader@example.org true >seen 2>log
    row "$1" "what the server tells of a key" "reader is let in by the key $(ssh-keygen -l -f user.pub | cut -d' ' -f2), $done" "$(server_told)"
    WORD=password by_password reader@example.org true >seen 2>log
    row "$1" "of a password" "reader is let in by the password, $done" "$(server_told)"
    # (the client ends at once and says nothing)
    {
        timeout --foreground -s KILL 3 ssh -F /dev/null -o BatchMode=yes -o UserKnownHostsFile="$work/known" -o GlobalKnownHostsFile=/dev/null \
            -o IdentitiesOnly=yes -i "$work/user" -o ProxyCommand="$work/server" reader@example.org source 1000000000000 >/dev/null
    } 2>log
    row "$1" "of a client that is killed" "error: the connection broke off while a channel was open, status 1" "$(server_said)"
    SERVER=-v WORD=password by_password reader@example.org echo hello >seen 2>log
    server_told >told
    row "$1" "\`-v\`, password, \`exec\`" "took 50 USERAUTH_REQUEST, sent 52 USERAUTH_SUCCESS, took 90 CHANNEL_OPEN, sent 94 CHANNEL_DATA" "$(
        tr ',' '\n' <told | grep -o -e 'took 50 .*' -e 'sent 52 .*' -e 'took 90 .*' -e 'sent 94 .*' | uniq | tail -4 | paste -sd, | sed 's/,/, /g')"
    row "$1" "of the password and the data \`-v\` shows" "nothing" "$(grep -o -e secret -e hello told || echo nothing)"
}

same() { if [ "$1" = "$2" ]; then echo same; else echo "another hash, $1"; fi; }

exchanges() {
    local count
    count=$(grep -c 'SSH2_MSG_NEWKEYS sent' "$1")
    if [ "$count" -gt 4 ]; then echo "more than 4 exchanges"; else echo "$count exchanges"; fi
}

# Three commands at a time, on channels of one connection.
several() {
    local part each seen=
    stock -M -S "$work/socket" -N -f reader@example.org 2>log || true
    part=$((size / 8))
    for each in 1 2 3; do
        head -c "$part" data | timeout -k 5 "$limit" ssh -F /dev/null -S "$work/socket" reader@example.org sha256sum 2>>log | cut -d' ' -f1 >"several.$each" &
        several_pids[each]=$!
    done
    wait "${several_pids[@]}"
    ssh -F /dev/null -S "$work/socket" -O exit reader@example.org 2>>log
    part=$(head -c "$part" data | hash_of)
    for each in 1 2 3; do seen="$seen $(same "$(cat "several.$each")" "$part")"; done
    row "$1" "three commands at a time, on channels of one connection" "same same same" "${seen# }"
}

# The server of docs/EMBEDDING.md, which is asked for a sign of life each second, and has to give it: the client gives up after two without.
stays_alive() {
    local seen status answers
    [ -x "$embedding" ] || { absent "build/example_embedding"; return; }
    seen=$( (sleep 10; echo alive) | PROXY="$embedding server $work/host reader $work/authorized" \
        stock -vvv -o ServerAliveInterval=1 -o ServerAliveCountMax=2 reader@example.org cat 2>log)
    status=$?
    answers=$(grep -c 'receive packet: type 82' log)
    [ "$answers" -gt 7 ] && answers="more than 7"
    row "$1" "the server of docs/EMBEDDING.md for ten seconds, asked by \`keepalive@openssh.com\` each second" "alive, status 0, more than 7 answers" "$seen, status $status, $answers answers"
}

# What either end refuses. The server's own words stand in server.err.
stock_refusals() {
    KNOWN=known_other stock reader@example.org echo hello >seen 2>log
    row "$1" "a wrong host key" "status 255, Host key verification failed." "status $?, $(grep -o 'Host key verification failed.' log)"
    UP=100000 stock reader@example.org sink <data >seen 2>log
    row "$1" "a byte to the server changed" "error: the peer is refused: a packet's MAC does not verify (refusal 5 BadTag), status 1" "$(server_said)"
    DOWN=100000 stock reader@example.org source "$size" >seen 2>log
    row "$1" "a byte from the server changed" "message authentication code incorrect" "$(grep -o 'message authentication code incorrect' log | head -1)"
    stock -c aes256-ctr reader@example.org echo hello >seen 2>log
    row "$1" "another cipher alone" "error: the peer is refused: the two ends have no algorithm in common (refusal 8 NoCommon): $methods, status 1" "$(server_said)"
}

# ---- the client, and the server of OpenSSH

sshd=$(command -v sshd || echo /usr/sbin/sshd)
user=$(id -un)
cat >sshd_config <<END
HostKey $work/host
AuthorizedKeysFile $work/authorized
UsePAM no
StrictModes no
PermitRootLogin yes
PidFile none
Subsystem sftp internal-sftp
END

# Gives a server that speaks on standard input and output to the client, over two FIFOs: SERVE is its command. What goes to it or comes from it has a byte
# changed at the place $UP or $DOWN.
changed() {
    if [ -n "$1" ]; then
        dd bs=1 count="$1" 2>/dev/null
        dd bs=1 count=1 2>/dev/null | tr '\000-\377' '\001-\377\000'
    fi
    cat
}
between() {
    local ended
    rm -f up down
    mkfifo up down
    if [ -n "${UP:-}${DOWN:-}" ]; then
        (changed "${UP:-}" <up | timeout -k 5 "$limit" $SERVE 2>serve.err | changed "${DOWN:-}" >down) &
    else
        timeout -k 5 "$limit" $SERVE <up >down 2>serve.err &
    fi
    timeout -k 5 "$limit" ${SAMPLED:-} ./pipe client "$@" >up <down
    ended=$?
    wait
    return "$ended"
}
via_sshd() { SERVE="$sshd -i -e -f $work/sshd_config ${SSHD:-}" between --user "$user" --host-key "${HOST:-host.pub}" "$@"; }
not_let_in='error: the server does not let the user in'
reason() { sed 's/ (methods: .*//' "$1"; }
words() { tr '\n' ' ' <"$1" | sed 's/ $//'; }

stock_server() {
    local peer="sshd of $(ssh -V 2>&1 | cut -d, -f1)"
    via_sshd --identity user --output answer 'echo hello; echo words >&2; exit 3' 2>log
    status=$?
    row "$peer" "key, \`exec\`, error output, exit status" "hello, words, status 3" "$(words answer), $(words log), status $status"
    SSHD='-o LogLevel=DEBUG3' via_sshd --identity user --output answer true 2>log
    row "$peer" "strict key exchange" "curve25519-sha256, strict, aes128-gcm@openssh.com both ways" "$(
        sed -n 's/.*kex: algorithm: \([^ ]*\).*/\1/p' serve.err | tr -d '\r' | tr '\n' ','
        grep -q 'strict KEX ordering' serve.err && printf ' strict,'
    ) $(grep -c 'cipher: aes128-gcm@openssh.com' serve.err | sed 's/^2$/aes128-gcm@openssh.com both ways/')"
    HOST=known via_sshd --host example.org --identity user --output answer 'echo hello' 2>log
    row "$peer" "the host key from known_hosts" "hello" "$(words answer)"
    via_sshd --password-file wrong true 2>log
    row "$peer" "a wrong password" "status 255, $not_let_in" "status $?, $(reason log)"
    via_sshd --identity other true 2>log
    row "$peer" "an unknown key" "status 255, $not_let_in" "status $?, $(reason log)"
    # (it answers only while its input is open)
    mkfifo init
    (printf '\0\0\0\5\1\0\0\0\3'; sleep 1) >init &
    via_sshd --identity user --subsystem --input init --output answer sftp 2>log
    row "$peer" "subsystem \`sftp\`: SSH_FXP_INIT is answered by SSH_FXP_VERSION 3" "status 0, 2" "status $?, $(od -An -tu1 -j4 -N1 answer | tr -d ' ')"
    via_sshd --identity user --input data --output answer sha256sum 2>log
    row "$peer" "\`sha256sum\` of $size bytes sent" "same" "$(same "$(cut -d' ' -f1 answer)" "$want")"
    via_sshd --identity user --output answer "cat $work/data" 2>log
    row "$peer" "$size bytes received" "same" "$(same "$(hash_of <answer)" "$want")"
    via_sshd --identity user --input data --output answer cat 2>log
    row "$peer" "\`cat\`: $size bytes there and back" "same" "$(same "$(hash_of <answer)" "$want")"
    SSHD="-o LogLevel=DEBUG1 -o RekeyLimit=$((size / 16))" via_sshd --identity user --input data --output answer cat 2>log
    row "$peer" "keys exchanged again by the server, every $((size / 16)) bytes" "same, more than 4 exchanges" "$(same "$(hash_of <answer)" "$want"), $(exchanges serve.err)"
    SSHD='-o LogLevel=DEBUG1' via_sshd --identity user --input data --output answer --rekey-after $packets cat 2>log
    row "$peer" "by the client, every $packets packets" "same, more than 4 exchanges" "$(same "$(hash_of <answer)" "$want"), $(exchanges serve.err)"
    SERVE="timeout 3 $sshd -i -e -f $work/sshd_config" between --user "$user" --host-key host.pub --identity user --output /dev/null 'cat /dev/zero' 2>log
    row "$peer" "a server that is ended" "status 255, error: the server closed the connection" "status $?, $(words log)"
    server_refusals "$peer"
}

# Both ends are ssh_pipe, with all defaults.
both_ends() {
    SERVE="./pipe server --host-key host --user reader --authorized-keys authorized" between --user reader --host-key host.pub --identity user --input data --output answer cat 2>log
    row "\`ssh_pipe\`, all defaults at both ends" "\`cat\`: $size bytes there and back" "same" "$(same "$(hash_of <answer)" "$want")"
}

server_refusals() {
    HOST=other.pub via_sshd --identity user true 2>log
    row "$1" "a wrong host key" "status 255, error: the peer is refused: the host is not trusted (refusal 11 BadHost)" "status $?, $(grep '^error' log)"
    DOWN=100000 via_sshd --identity user --output answer "cat $work/data" 2>log
    row "$1" "a byte from the server changed" "status 255, error: the peer is refused: a packet's MAC does not verify (refusal 5 BadTag)" "status $?, $(words log)"
    UP=100000 via_sshd --identity user --input data --output answer cat 2>log
    row "$1" "a byte to the server changed" "message authentication code incorrect" "$(grep -o 'message authentication code incorrect' serve.err | head -1)"
}

# ---- other implementations

unexpected='error: the peer is refused: a message came that may not come here (refusal 7 Unexpected)'

# A server on the loopback, which prints its port and is ended by its number.
with_asyncssh() {
    local peer version pid port
    version=$("$python" -W ignore -c 'import asyncssh; print(asyncssh.__version__)' 2>/dev/null) || { absent "asyncssh"; return; }
    peer="asyncssh $version"
    "$python" -W ignore "$tools/interop/asyncssh_server.py" "$work" >port 2>serve.err &
    pid=$!
    for _ in $(seq 100); do [ -s port ] && break; sleep 0.1; done
    port=$(cat port)
    over_socket() { timeout -k 5 "$limit" ./pipe client --user reader --host-key host.pub "$@" <>"/dev/tcp/127.0.0.1/$port" >&0; }
    over_socket --identity user --output answer 'echo hello' 2>log
    status=$?
    row "server of $peer" "key, \`exec\`, exit status" "echo hello, status 5" "$(words answer), status $status"
    over_socket --password-file password --output answer 'echo hello' 2>log
    status=$?
    row "server of $peer" "password" "echo hello, status 5" "$(words answer), status $status"
    over_socket --password-file wrong --output answer 'echo hello' 2>log
    row "server of $peer" "a wrong password" "status 255, $not_let_in" "status $?, $(reason log)"
    over_socket --identity user --input data --output answer cat 2>log
    row "server of $peer" "\`cat\`: $size bytes there and back" "same" "$(same "$(hash_of <answer)" "$want")"
    # (it may go on with data after its KEXINIT, which RFC 4253 section 7.1 forbids, and is then refused; where it does not, keys have to be exchanged)
    over_socket --identity user --input data --output answer --rekey-after "$packets" -v cat 2>told
    status=$?
    grep -vE '(took|sent) [0-9]+ ' told >log
    wanted="$unexpected, status 255"
    seen="$(words log), status $status"
    if [ "$status" = 0 ]; then
        count=$(grep -c 'sent 20 KEXINIT' told)
        if [ "$count" -gt 4 ]; then count="more than 4"; fi
        wanted="same, more than 4 exchanges"
        seen="$(same "$(hash_of <answer)" "$want"), $count exchanges"
    fi
    row "server of $peer" "keys exchanged again while it sends: refused where CHANNEL_DATA comes after its KEXINIT" "$wanted" "$seen"
    kill "$pid"
    wait "$pid" 2>/dev/null
    "$python" -W ignore "$tools/interop/asyncssh_client.py" "$work" "$size" >answer 2>log
    row "client of $peer" "key, password, \`exec\`, exit status, $size bytes there and back, a wrong password" "hello hello 7 same denied" "$(words answer)"
    "$python" -W ignore "$tools/interop/asyncssh_client.py" "$work" "$size" $((size / 16)) >answer 2>log
    row "client of $peer" "keys exchanged again while it sends: CHANNEL_DATA comes after its KEXINIT" "$unexpected, status 1" "$(server_said)"
}

# The client of PuTTY, which takes a fingerprint for the host key and has a format of its own for the user's.
with_putty() {
    local peer print seen
    has plink && has puttygen || { absent "plink and puttygen"; return; }
    peer=$(plink -V | sed -n 's/^plink: Release /plink of PuTTY /p')
    print=$(ssh-keygen -l -f host.pub | cut -d' ' -f2)
    puttygen user -O private -o user.ppk
    by_plink() { timeout -k 5 "$limit" plink -batch -ssh -proxycmd "$work/server" -hostkey "$print" -l reader "$@"; }
    seen=$(by_plink -i user.ppk example.org echo hello </dev/null 2>log)
    row "$peer" "key, \`exec\`" "hello, status 0" "$seen, status $?"
    seen=$(by_plink -pwfile password example.org exit 7 </dev/null 2>log)
    row "$peer" "password, exit status" "7" "$?"
    by_plink -pwfile wrong example.org echo hello </dev/null >seen 2>log
    row "$peer" "a wrong password" "status 1" "status $?"
    seen=$(by_plink -i user.ppk example.org sha256sum <data 2>log | cut -d' ' -f1)
    row "$peer" "\`sha256sum\` of $size bytes sent" "same" "$(same "$seen" "$want")"
    seen=$(by_plink -i user.ppk example.org source "$size" </dev/null 2>log | hash_of)
    row "$peer" "\`source\`: $size bytes received" "same" "$(same "$seen" "$pattern")"
    print=$(ssh-keygen -l -f other.pub | cut -d' ' -f2)
    by_plink -i user.ppk example.org echo hello </dev/null >seen 2>log
    row "$peer" "a wrong host key" "status 1" "status $?"
}

# Implementations with which nothing is in common: each is refused, and says so.
without_common() {
    local version
    if has dbclient; then
        version="dbclient of $(dbclient -V 2>&1 | head -1)"
        timeout 20 dbclient -y -y -J "$work/server" reader@example.org echo hello </dev/null >seen 2>log
        row "$version" "no cipher in common" "$no_common, status 1" "$(server_said)"
    else
        absent "dbclient of Dropbear"
    fi
    if [ -x /usr/sbin/dropbear ] && has dropbearkey; then
        version="$(/usr/sbin/dropbear -V 2>&1 | head -1) as a server"
        dropbearkey -t ed25519 -f dropbear_key >/dev/null 2>&1
        SERVE="/usr/sbin/dropbear -i -E -r $work/dropbear_key" between --user "$user" --host-key host.pub --identity user true 2>log
        status=$?
        row "$version" "no cipher in common: it closes the connection" "error: the server closed the connection, status 255" "$(words log), status $status"
    else
        absent "Dropbear as a server"
    fi
    version=$("$python" -W ignore -c 'import paramiko; print(paramiko.__version__)' 2>/dev/null) || { absent paramiko; return; }
    "$python" -W ignore "$tools/interop/paramiko_client.py" "$work" >seen 2>log
    row "client of paramiko $version" "no strict key exchange" "$not_strict, status 1" "$(server_said)"
}
not_strict='error: the peer is refused: the peer does not offer strict key exchange (refusal 9 NotStrict)'
no_common="error: the peer is refused: the two ends have no algorithm in common (refusal 8 NoCommon): $methods"

# ---- how long transfers take

# The fastest of some runs of a command, in seconds.
fastest() {
    local best= took begin each
    for each in $(seq "$rounds"); do
        begin=$(date +%s%N)
        "$@" >/dev/null 2>&1 </dev/null || return 1
        took=$(($(date +%s%N) - begin))
        if [ -z "$best" ] || [ "$took" -lt "$best" ]; then best=$took; fi
    done
    echo "$best"
}
# speed WHAT NANOSECONDS OTHER: of ssh_pipe, and of the same between ends of OpenSSH. The ratio is our time divided by that of OpenSSH.
speed() {
    awk -v what="$1" -v ours="$2" -v stock="$3" -v size="$size" 'BEGIN {
        printf "| %s | %.1f MB/s | %.1f MB/s | %.2f |\n", what, size * 1e3 / ours, size * 1e3 / stock, ours / stock }' | tee -a "$speeds"
}
cat >sshd_proxy <<END
#!/bin/sh
exec "$sshd" -i -f "$work/sshd_config"
END
chmod +x sshd_proxy
plain() {
    timeout -k 5 "$limit" ssh -F /dev/null -o BatchMode=yes -o UserKnownHostsFile="$work/known" -o GlobalKnownHostsFile=/dev/null -o StrictHostKeyChecking=yes \
        -o IdentitiesOnly=yes -i "$work/user" -c aes128-gcm@openssh.com -o ProxyCommand="$work/sshd_proxy" "$user@example.org" "$@"
}
up_to_server() { stock reader@example.org sink <data; }
down_from_server() { stock reader@example.org source "$size"; }
up_from_client() { via_sshd --identity user --input data 'cat >/dev/null'; }
down_to_client() { via_sshd --identity user --output /dev/null "cat $work/data"; }
plain_up() { plain 'cat >/dev/null' <data; }
plain_down() { plain "cat $work/data"; }

timings() {
    local up down
    up=$(fastest plain_up) && down=$(fastest plain_down) || { echo "FAILED  OpenSSH by itself"; failed=$((failed + 1)); return; }
    speed "client of OpenSSH to the server \`ssh_pipe\`" "$(fastest up_to_server)" "$up"
    speed "server \`ssh_pipe\` to the client of OpenSSH" "$(fastest down_from_server)" "$down"
    speed "client \`ssh_pipe\` to sshd" "$(fastest up_from_client)" "$up"
    speed "sshd to the client \`ssh_pipe\`" "$(fastest down_to_client)" "$down"
}

# ---- where the time goes

# sampled NAME COMMAND..: the shares of the time that ssh_pipe took in this transfer, as the sampler saw it, in a file of that name, a line for each part.
sampled() {
    local name=$1
    shift
    rm -f server.status
    SAMPLED="perf record -q -e cpu-clock -o $work/samples" "$@" >/dev/null 2>log || echo "FAILED  $name, sampled"
    for _ in $(seq 100); do pgrep -f "$work/samples" >/dev/null || break; sleep 0.1; done
    perf report -i samples --stdio --no-children -F overhead,symbol 2>/dev/null | awk '
        !/%/ { next }
        { part = "copies and memory" }
        /\[k\]/ { part = "the system: reading and writing" }
        /ssh_[a-z]*::|ssh_transport_[a-z]*::/ { part = "packets, messages, ends: all other crates of the core" }
        /ssh_pipe(_[a-z]*)?::|divrelca::/ { part = "the program and its commands" }
        /sha2::|x25519::|ed25519::/ { part = "the exchange of keys" }
        /aes_gcm::|divrelca::parts::packet_key/ { part = "AES-128-GCM" }
        { share[part] += $1 }
        END { for (part in share) printf "%s\t%.1f\n", part, share[part] }' >"$name"
}
where_the_time_goes() {
    local part name
    has perf && perf record -q -e cpu-clock -o samples true 2>/dev/null || { echo "SKIPPED not there: perf"; echo "perf was not there." >"$where"; return; }
    sampled server_takes up_to_server
    sampled server_sends down_from_server
    sampled client_sends up_from_client
    sampled client_takes down_to_client
    {
        echo "| Part | the server takes | the server sends | the client sends | the client takes |"
        echo "|---|---|---|---|---|"
        for part in "AES-128-GCM" "the program and its commands" "packets, messages, ends: all other crates of the core" "the exchange of keys" "copies and memory" \
            "the system: reading and writing"; do
            printf '| %s |' "$part"
            for name in server_takes server_sends client_sends client_takes; do
                awk -F'\t' -v part="$part" '$1 == part { share = $2 } END { printf " %.1f %% |", share }' "$name"
            done
            echo
        done
    } | tee -a "$where"
}

# ---- all of it

for each in library_tools library library_sessions library_python library_late library_keys; do . "$tools/interop/$each.sh"; done
[ -d /run/sshd ] || [ "$(id -u)" != 0 ] || mkdir /run/sshd
if [ -n "$only" ]; then
    with_library
    echo "$failed failed"
    [ "$failed" = 0 ]
    exit
fi
stock_client
both_ends
if [ -x "$sshd" ] && [ "$(id -u)" = 0 ]; then
    stock_server
    timings
    where_the_time_goes
else
    absent "sshd, or not run as root"
fi
with_putty
with_asyncssh
without_common
with_library
# The commands that README, docs and help print, with the programs in build/.
if [ -x "$top/build/ssh_pipe" ]; then
    python3 "$tools/printed.py" proved || failed=$((failed + 1))
fi
if [ -n "${PAGE:-}" ]; then
    sed -e "s/@date@/$(date '+%-d %B %Y')/; s/@cores@/$(nproc)/" -e "/^@rows@$/{r $rows
d}" -e "/^@speeds@$/{r $speeds
d}" -e "/^@where@$/{r $where
d}" -e "/^@paces@$/{r $paces
d}" -e "/^@memories@$/{r $memories
d}" -e "/^@idle@$/{r $idle
d}" "$tools/interop/page.md" >"$PAGE"
fi
echo "$failed failed"
[ "$failed" = 0 ]
