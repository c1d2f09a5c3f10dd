# Programs that run a client of SSH as their own, each there and back, through the client $shell, which is one word, to the server on $port. Read by tools/interop.sh, before
# tools/interop/library.sh, which sets these, $at, $name and the folder `tree`. A program that is not installed is left out.

programs_of_ssh="git rsync scp sftp tar lftp sshfs borg restic hg unison parallel-ssh ansible"

by_git() {
    git init -q --bare work.git
    git -C tree push -q "ssh://$at:$port$work/work.git" HEAD:refs/heads/main 2>log
    timeout "$limit" git clone -q -b main "ssh://$at:$port$work/work.git" clone 2>>log
    row "$name" "\`git push\`, and \`git clone\` of the same" "same" "$(same "$(hash_of <clone/data)" "$want")"
}
by_rsync() {
    timeout "$limit" rsync -e "$shell -p $port" -a tree/ "$at:$work/copy/" 2>log
    timeout "$limit" rsync -e "$shell -p $port" -a "$at:$work/copy/" back/ 2>>log
    row "$name" "\`rsync\` there and back" "same" "$(diff -r tree back >/dev/null && echo same)"
}
by_sftp() {
    printf 'put data put\nget put got\n' | timeout "$limit" sftp -q -S "$shell" -P "$port" -b - "$at:$work" >log 2>&1
    row "$name" "\`sftp\`, put and get" "same same" "$(same "$(hash_of <put)" "$want") $(same "$(hash_of <got)" "$want")"
}
by_scp() {
    timeout "$limit" scp -q -S "$shell" -P "$port" data "$at:$work/sent" 2>log
    timeout "$limit" scp -q -O -S "$shell" -P "$port" "$at:$work/sent" came 2>>log
    row "$name" "\`scp\` by sftp there, and by the older protocol back" "same same" "$(same "$(hash_of <sent)" "$want") $(same "$(hash_of <came)" "$want")"
}
by_tar() {
    mkdir piped
    tar -C tree -cf - data | timeout "$limit" "$shell" -p "$port" "$at" "tar -C $work/piped -xf -" 2>log
    row "$name" "\`tar\` through a pipe" "same" "$(same "$(hash_of <piped/data)" "$want")"
}
by_lftp() {
    timeout "$limit" lftp -e "set sftp:connect-program '$shell -p $port'; set sftp:auto-confirm yes; get -O $work $work/data -o fetched; quit" "sftp://$user:@127.0.0.1" >log 2>&1
    row "$name" "\`lftp\`, get" "same" "$(same "$(hash_of <fetched)" "$want")"
}
by_sshfs() {
    mkdir -p mounted
    if ! sshfs -o ssh_command="$shell" -p "$port" "$at:$work/tree" mounted 2>log; then
        if grep -q fuse log; then absent "sshfs, for FUSE is not there"; else row "$name" "\`sshfs\`, a file read" "same" "not mounted: $(head -c 100 log)"; fi
        return
    fi
    row "$name" "\`sshfs\`, a file read" "same" "$(same "$(hash_of <mounted/data)" "$want")"
    fusermount3 -u mounted 2>>log || fusermount -u mounted
}
by_borg() {
    export BORG_RSH="$shell -p $port" BORG_UNKNOWN_UNENCRYPTED_REPO_ACCESS_IS_OK=yes BORG_RELOCATED_REPO_ACCESS_IS_OK=yes BORG_BASE_DIR=$work/borg.home
    timeout "$limit" borg init -e none "ssh://$at$work/repository.borg" >log 2>&1
    timeout "$limit" borg create "ssh://$at$work/repository.borg::one" tree/data >>log 2>&1
    timeout "$limit" borg extract --stdout "ssh://$at$work/repository.borg::one" >extracted 2>>log
    row "$name" "\`borg\`: an archive made, and a file of it" "same" "$(same "$(hash_of <extracted)" "$want")"
}
by_restic() {
    export RESTIC_PASSWORD=word RESTIC_CACHE_DIR=$work/restic.cache
    local where=(-o sftp.command="$shell -p $port $at -s sftp" -r "sftp:$at:$work/repository.restic")
    timeout "$limit" restic "${where[@]}" init >log 2>&1
    timeout "$limit" restic "${where[@]}" backup tree/data >>log 2>&1
    timeout "$limit" restic "${where[@]}" dump latest "/tree/data" >restored 2>>log
    row "$name" "\`restic\` over sftp: a backup, and a file of it" "same" "$(same "$(hash_of <restored)" "$want")"
}
by_hg() {
    hg init origin.hg
    (cd origin.hg && cp ../tree/data data && hg -q add data && hg -q commit -u reader -m data) 2>log
    timeout "$limit" hg clone -q --config ui.ssh="$shell -p $port" "ssh://$at/$work/origin.hg" clone.hg 2>>log
    row "$name" "\`hg clone\`" "same" "$(same "$(hash_of <clone.hg/data)" "$want")"
}
by_unison() {
    # (unison knows what it brought to a folder before, so it is another one each time)
    local there=there.$RANDOM$RANDOM
    mkdir here
    cp data here/data
    UNISON=$work/unison.home timeout "$limit" unison -batch -auto -sshcmd "$shell" -sshargs "-p $port" here "ssh://$at/$work/$there" >log 2>&1
    row "$name" "\`unison\`, a folder to an empty one" "same" "$(same "$(hash_of <"$there/data")" "$want")"
}
by_parallel_ssh() {
    PATH=$work/bin:$PATH timeout "$limit" parallel-ssh -i -H "$at:$port" 'echo in parallel' >answer 2>log
    row "$name" "\`parallel-ssh\`" "in parallel" "$(grep -o 'in parallel' answer)"
}
by_ansible() {
    printf '[all]\n127.0.0.1 ansible_port=%s ansible_user=%s ansible_ssh_executable=%s ansible_python_interpreter=%s\n' "$port" "$user" "$shell" "$python" >inventory
    LC_ALL=C.UTF-8 ANSIBLE_HOME=$work/ansible.home ANSIBLE_HOST_KEY_CHECKING=False ANSIBLE_PIPELINING=True timeout "$limit" ansible -i inventory -m ping all >answer 2>log
    row "$name" "\`ansible -m ping\`, piped" "pong" "$(grep -o pong answer)"
}

# by_tools: each of them.
by_tools() {
    local each
    export GIT_SSH_COMMAND=$shell GIT_SSH_VARIANT=ssh
    rm -rf work.git clone copy back put got sent came piped fetched mounted repository.* extracted restored *.hg here there.* borg.home restic.cache unison.home bin
    # (for a program that takes what is called ssh)
    mkdir bin
    ln -s "$shell" bin/ssh
    for each in $programs_of_ssh; do
        if has "$each"; then "by_${each//-/_}"; else absent "$each, through $name"; fi
    done
}
