# `dvssh` and `dvsshd` where a session is more than a command: a terminal, many connections, long transfers and slow readers, a peer that is killed, half of
# a connection that is at its end; and how long they take beside OpenSSH. Read by tools/interop.sh, after tools/interop/library.sh, which starts the servers.

copies=${COPIES:-16}
# The most that a program may have in memory, in KiB. It is the program with the C library; 2 MiB of window for what came and is not written yet; 2 MiB that wait for the peer; and as
# much again while one of both is copied as it grows.
most_memory=16384

# The most that one idle connection may take in memory, in KiB: an end of the library, and what the driver keeps of it.
most_idle=192

watched() { timeout -k 5 "$limit" "$python" "$tools/interop/library_sessions.py" "$@" 2>>log; }

# is_at_most SEEN BOUND: whether one number is at most another.
is_at_most() { awk -v seen="$1" -v bound="$2" 'BEGIN { exit !(seen != "" && seen <= bound) }'; }

# remembers WHAT PART KIB KIB: a line of the table of memory, of one of our programs and of what stands in its place where both ends are of OpenSSH.
remembers() {
    awk -v what="$1" -v part="$2" -v ours="$3" -v stock="$4" 'BEGIN { printf "| %s | `%s` | %.1f MiB | %.1f MiB |\n", what, part, ours / 1024, stock / 1024 }' | tee -a "$memories"
}

# in_a_terminal NAME COMMAND..
in_a_terminal() {
    local name=$1
    shift
    row "$name" "a shell in a terminal of 40 lines and 100 columns, then 50 and 132; \`cat\`, an interrupt, \`exit 7\`" \
        "40 100, 50 132, twice, 130, status 7, the terminal as before" "$(watched terminal "$@")"
}

# transferred NAME WAY COPIES PAUSE LISTENER PART COMMAND..: one transfer, the hash of what came, and the memory of our end, which is the client or the server.
transferred() {
    local name=$1 way=$2 times=$3 pause=$4 listener=$5 part=$6 seen bound what
    shift 6
    # shellcheck disable=SC2207 # (words)
    seen=($(watched transfer "$way" "$times" "$pause" "$work/data" "$listener" "$@"))
    if [ "$part" = client ]; then memory=${seen[2]:-}; else memory=${seen[3]:-}; fi
    bound="at most $((most_memory / 1024)) MiB"
    is_at_most "$memory" "$most_memory" || bound="$memory KiB"
    [ "$memory" != 0 ] || bound="its memory was not seen"
    what=received
    [ "$way" = down ] || what=sent
    [ "$pause" = 0 ] || what="$what, while the reader sleeps for $pause s"
    row "$name" "$((times * size)) bytes $what; what the $part has in memory" "same, status 0, at most $((most_memory / 1024)) MiB" "${seen[0]:-nothing}, status ${seen[1]:-none}, $bound"
}

# loads NAME LISTENER COMMAND..: many connections to dvsshd, at once and one after another.
loads() {
    local name=$1 listener=$2
    shift 2
    row "$name" "50 connections at once" "50 at once, 50 of status 0, nothing left" "$(watched crowd 50 "$listener" "$work/crowd.$RANDOM" "$@")"
    row "$name" "100 connections one after another" "100 of status 0, nothing left" "$(watched queue 100 "$listener" "$@")"
}

# halves NAME COMMAND..: one half of the session is at its end, and the other one goes on.
halves() {
    local name=$1 seen statuses
    shift
    seen=$(printf early | timeout "$limit" "$@" 'cat; sleep 1; echo " late"; exit 3' 2>>log)
    row "$name" "standard input is at its end, and output comes later" "early late, status 3" "$seen, status $?"
    rm -f half
    (sleep 1; cat data) | timeout "$limit" "$@" "exec >&- 2>&-; cat >$work/half; exit 3" >seen 2>>log
    statuses=("${PIPESTATUS[@]}")
    row "$name" "a command closes its output, and takes $size bytes later" "same, status 3" "$(same "$(hash_of <half)" "$want"), status ${statuses[1]}"
}

# The four long transfers, and what the same took in memory between both ends of OpenSSH.
long_transfers() {
    local way what stock
    for way in up down; do
        what="$((copies * size)) bytes sent"
        [ $way = up ] || what="$((copies * size)) bytes received"
        # shellcheck disable=SC2207 # (words)
        stock=($(watched transfer $way "$copies" 0 "$work/data" "$sshd_pid" "$work/by_ssh" -p 40722 "$at"))
        transferred "$to_sshd" $way "$copies" 0 "$sshd_pid" client "$work/by_dvssh" -p 40722 "$at"
        remembers "$what by the client" dvssh "$memory" "${stock[2]:-0}"
        transferred "$to_dvsshd" $way "$copies" 0 "$dvsshd_pid" server "$work/by_ssh" -p 40723 "$at"
        remembers "$what by the client" dvsshd "$memory" "${stock[3]:-0}"
    done
}

# idles NAME COUNT PORT LISTENER: so many idle connections to a server, as a line of their table. Leaves the proportional set of one in $memory.
idles() {
    local seen
    # shellcheck disable=SC2207 # (words)
    seen=($("${package[@]}" "$tools/interop/idle_connections.py" "$work" "$user" "$3" "$4" "$2" 2>>log))
    memory=${seen[2]:-}
    echo "| $1 | ${seen[0]:-none} | ${seen[1]:-not seen} KiB | ${memory:-not seen} KiB |" | tee -a "$idle"
}
idle_connections() {
    local bound
    idles "\`dvsshd\`" 1000 40723 "$dvsshd_pid"
    bound="at most $most_idle KiB for each"
    is_at_most "$memory" "$most_idle" || bound="${memory:-none} KiB for each"
    row "client of \`bindings/python\` to \`dvsshd\`" "1000 idle connections at once; their memory" "at most $most_idle KiB for each" "$bound"
    [ -z "$sshd_pid" ] || idles "sshd of OpenSSH" 100 40722 "$sshd_pid"
}

slow_readers() {
    local way
    for way in up down; do
        transferred "$to_sshd" $way 1 3 "$sshd_pid" client "$work/by_dvssh" -p 40722 "$at"
        transferred "$to_dvsshd" $way 1 3 "$dvsshd_pid" server "$work/by_ssh" -p 40723 "$at"
    done
}

# beside WHAT BOUND OURS STOCK UNIT: a line of the table of times, and a row that fails where ours is more than the bound times that of OpenSSH.
beside() {
    local ratio
    ratio=$(awk -v ours="$3" -v stock="$4" 'BEGIN { if (ours > 0 && stock > 0) printf "%.2f", ours / stock }')
    awk -v what="$1" -v bound="$2" -v ours="$3" -v stock="$4" -v ratio="$ratio" -v of="$5" 'BEGIN {
        unit = of ? "MB/s" : "a second"; a = of ? of / 1e6 : 1
        if (ratio != "") printf "| %s | %.1f %s | %.1f %s | %s | %s |\n", what, a / ours, unit, a / stock, unit, ratio, bound }' | tee -a "$paces"
    if is_at_most "$ratio" "$2"; then ratio="at most $2"; fi
    row "\`dvssh\` and \`dvsshd\`" "time of $1, as a ratio to that of OpenSSH" "at most $2" "$ratio"
}

# without_login WHAT OURS STOCK OUR_LOGIN STOCK_LOGIN SIZE: a line of the table of times, of a transfer less the session of `true` of the same programs.
without_login() {
    awk -v what="$1" -v ours="$2" -v stock="$3" -v our_login="$4" -v login="$5" -v of="$6" 'BEGIN {
        a = ours - our_login; b = stock - login
        if (a > 0 && b > 0) printf "| %s, without the login | %.1f MB/s | %.1f MB/s | %.2f | |\n", what, of / 1e6 / a, of / 1e6 / b, a / b
        else printf "| %s, without the login | not measured | | | |\n", what }' | tee -a "$paces"
}
# transfer_times WAY FROM_HERE TO_THERE TIMES..: the lines of a transfer to sshd and of one to dvsshd, with the login and without. TIMES are those of the three
# transfers and of the three fastest sessions of `true`: dvssh to sshd, ssh to dvsshd, ssh to sshd.
transfer_times() {
    local first=$1 second=$2
    shift 2
    beside "$size bytes $first" 1.6 "${1:-}" "${3:-}" "$size"
    without_login "$size bytes $first" "${1:-0}" "${3:-0}" "${4:-0}" "${6:-0}" "$size"
    beside "$size bytes $second" 1.6 "${2:-}" "${3:-}" "$size"
    without_login "$size bytes $second" "${2:-0}" "${3:-0}" "${5:-0}" "${6:-0}" "$size"
}

# The wall time of transfers and of sessions, each tried in turn with those of OpenSSH.
paces() {
    local by="-c aes128-gcm@openssh.com -p" seen logins
    local here="$work/by_dvssh $by 40722 $at" there="$work/by_ssh $by 40723 $at" stock="$work/by_ssh $by 40722 $at"
    # shellcheck disable=SC2207 # (words)
    logins=($(watched times fastest 20 "exec $here true" "exec $there true" "exec $stock true"))
    # shellcheck disable=SC2207
    seen=($(watched times fastest "$rounds" "exec $here 'cat >/dev/null' <data" "exec $there 'cat >/dev/null' <data" "exec $stock 'cat >/dev/null' <data"))
    transfer_times "from \`dvssh\` to sshd" "from ssh to \`dvsshd\`" "${seen[0]:-}" "${seen[1]:-}" "${seen[2]:-}" "${logins[@]}"
    # shellcheck disable=SC2207
    seen=($(watched times fastest "$rounds" "exec $here 'cat $work/data' >/dev/null" "exec $there 'cat $work/data' >/dev/null" "exec $stock 'cat $work/data' >/dev/null"))
    transfer_times "from sshd to \`dvssh\`" "from \`dvsshd\` to ssh" "${seen[0]:-}" "${seen[1]:-}" "${seen[2]:-}" "${logins[@]}"
    # shellcheck disable=SC2207
    seen=($(watched times median 20 "exec $here true" "exec $there true" "exec $stock true"))
    beside "a session of \`true\` from \`dvssh\` to sshd" 1.0 "${seen[0]:-}" "${seen[2]:-}" 0
    beside "a session of \`true\` from ssh to \`dvsshd\`" 0.5 "${seen[1]:-}" "${seen[2]:-}" 0
    # (a shell of a remote login may read a start file, which takes as long at either server)
    seen=$(watched times median 20 "exec env -i HOME='$HOME' SSH_CLIENT='127.0.0.1 1 22' PATH=/usr/bin:/bin $(getent passwd "$user" | cut -d: -f7) -c true")
    echo "| of each session of \`true\`: the user's shell by itself | ${seen:-not seen} s | ${seen:-not seen} s | | |" | tee -a "$paces"
}

# with_sessions DVSSHD SSHD: with the listening processes of both servers; without sshd only what needs none.
with_sessions() {
    local dvsshd_pid=$1 sshd_pid=$2 at=$user@127.0.0.1 memory
    local to_dvsshd="client of OpenSSH to \`dvsshd\`" to_sshd="\`dvssh\` to sshd of OpenSSH" both="\`dvssh\` to \`dvsshd\`"
    : >log
    in_a_terminal "$to_dvsshd" "$work/by_ssh" -tt -p 40723 "$at"
    loads "$to_dvsshd" "$dvsshd_pid" "$work/by_ssh" -p 40723 "$at"
    loads "$both" "$dvsshd_pid" "$work/by_dvssh" -p 40723 "$at"
    row "$to_dvsshd" "a client that is killed in the middle" "another session goes on, nothing left" "$(watched killed client "$dvsshd_pid" "$work/by_ssh" -p 40723 "$at")"
    if listen 40724 "$top/build/dvsshd" -h host -a authorized -p 40724; then
        row "$both" "a server that is killed in the middle" "status 255, dvssh: the connection was lost, nothing left" \
            "$(watched ended "${library_pids[-1]}" "$work/by_dvssh" -p 40724 "$at")"
    else
        deaf dvsshd
    fi
    halves "$to_dvsshd" "$work/by_ssh" -p 40723 "$at"
    "$work/by_dvssh" -o ForwardX11=yes -p 40723 "$at" true 2>seen
    row "\`dvssh\`" "a word that it does not take" "status 255, dvssh: the option ForwardX11=yes is not known" "status $?, $(cat seen)"
    [ -n "$sshd_pid" ] || return 0
    in_a_terminal "$to_sshd" "$work/by_dvssh" -p 40722 "$at"
    row "$to_sshd" "a server that is killed in the middle" "status 255, dvssh: the connection was lost, another session goes on, nothing left" \
        "$(watched killed server "$sshd_pid" "$work/by_dvssh" -p 40722 "$at")"
    halves "$to_sshd" "$work/by_dvssh" -p 40722 "$at"
    idle_connections
    # (what its allocator kept of many connections is not what a transfer takes)
    kill "$dvsshd_pid"
    wait "$dvsshd_pid" 2>/dev/null
    listen 40723 "$top/build/dvsshd" -h host -a authorized -p 40723 || deaf dvsshd
    dvsshd_pid=${library_pids[-1]}
    slow_readers
    long_transfers
    paces
}
