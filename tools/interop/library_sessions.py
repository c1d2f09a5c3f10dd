"""Sessions that a program has to watch, for tools/interop/library_sessions.sh. What was seen is printed in words.

    terminal COMMAND..                      types at a shell in a terminal: the terminal's size, a change of it, an interrupt, and the end
    crowd COUNT LISTENER FOLDER COMMAND..   so many sessions at once
    queue COUNT LISTENER COMMAND..          so many sessions one after another
    transfer WAY COPIES PAUSE DATA LISTENER COMMAND..    sends (up) or takes (down) a file so many times over, to or from one that sleeps before it goes on
    killed WHO LISTENER COMMAND..           kills the client, or the server's process for it, in the middle of a transfer, while another session goes on
    ended LISTENER COMMAND..                kills a server that is one process for all its connections, in the middle of a transfer
    memory NUMBER                           the largest resident set of a process, in KiB
    times HOW ROUNDS COMMAND COMMAND..      the fastest or the median time of each command of a shell, tried in turn

COMMAND.. is a client with all its words up to the host; LISTENER is the process of the server that listens. Nothing is left where no process of either is, none that a session
began, and the listener has the descriptors that it had."""

import fcntl
import hashlib
import os
import pty
import re
import select
import signal
import statistics
import struct
import subprocess
import sys
import termios
import threading
import time
from pathlib import Path

LIMIT = 120.0
PIECE = 1 << 16


# ---- processes


def status_of(number):
    """The state and the parent of a process, or none."""
    try:
        fields = Path(f"/proc/{number}/stat").read_text().rpartition(")")[2].split()
    except OSError:
        return None
    return fields[0], int(fields[1])


def processes():
    """The numbers of all processes."""
    return [int(it.name) for it in Path("/proc").glob("[0-9]*")]


def children(parent):
    """The processes that a process began, those too that ended and are not waited for."""
    return [it for it in processes() if (status_of(it) or ("", 0))[1] == parent]


def named(words):
    """The processes on whose command line these words stand."""
    found = []
    for it in processes():
        try:
            line = Path(f"/proc/{it}/cmdline").read_bytes().replace(b"\0", b" ").decode(errors="replace")
        except OSError:
            continue
        if words in line and it != os.getpid():
            found.append(it)
    return found


def descriptors(number):
    """What a process holds open."""
    return {it: os.readlink(f"/proc/{number}/fd/{it}") for it in os.listdir(f"/proc/{number}/fd")}


def high_water(number):
    """The largest resident set of a process so far, in KiB; 0 where it is gone."""
    try:
        found = re.search(r"VmHWM:\s*(\d+)", Path(f"/proc/{number}/status").read_text())
    except OSError:
        return 0
    return int(found[1]) if found else 0


def comes_true(what, seconds=20.0):
    """Waits until something holds, and returns whether it came to."""
    end = time.monotonic() + seconds
    while not what():
        if time.monotonic() > end:
            return False
        time.sleep(0.05)
    return True


def serving(listener):
    """The processes that serve connections: those that the listener began, or the listener where it serves all by itself."""
    is_alone = Path(f"/proc/{listener}/comm").read_text().strip() == "dvsshd"
    return [listener] if is_alone else children(listener)


class Server:
    """A server's listening process, and what it had before the sessions."""

    def __init__(self, listener):
        self.listener = int(listener)
        self.held = descriptors(self.listener)

    def left(self, words):
        """What is left of sessions with these words on their command lines."""
        if not comes_true(lambda: not children(self.listener) and not named(words)):
            return f"{len(children(self.listener))} processes of the server and {len(named(words))} of its commands left"
        if descriptors(self.listener) != self.held:
            return "other descriptors than before"
        return "nothing left"


class Watch(threading.Thread):
    """Looks each 50 ms at how much memory a client, and the server's process for it, have had at most."""

    def __init__(self, client, listener):
        super().__init__(daemon=True)
        self.client, self.listener = client, listener
        self.of_client = self.of_server = 0
        # (what a server had in earlier sessions is not counted)
        Path(f"/proc/{listener}/clear_refs").write_text("5")
        self.start()

    def run(self):
        seen, looked = [], 0.0
        while self.client.poll() is None:
            if time.monotonic() - looked > 1:
                seen, looked = serving(self.listener), time.monotonic()
            self.of_client = max(self.of_client, high_water(self.client.pid))
            self.of_server = max([self.of_server, *map(high_water, seen)])
            time.sleep(0.05)


# ---- a terminal


class Terminal:
    """A client in a terminal of its own, at which this program types."""

    def __init__(self, command, rows, columns):
        self.master, self.slave = pty.openpty()
        self.resize(rows, columns)
        self.before = termios.tcgetattr(self.slave)
        self.seen = b""
        streams = dict.fromkeys(("stdin", "stdout", "stderr"), self.slave)
        self.client = subprocess.Popen(command, start_new_session=True, preexec_fn=lambda: fcntl.ioctl(0, termios.TIOCSCTTY, 0), **streams)

    def resize(self, rows, columns):
        fcntl.ioctl(self.master, termios.TIOCSWINSZ, struct.pack("HHHH", rows, columns, 0, 0))

    def types(self, text):
        """Types, and forgets what was seen before."""
        self.seen = b""
        os.write(self.master, text)

    def reads(self, seconds):
        """Reads what comes within this time; False where nothing does."""
        ready, _, _ = select.select([self.master], [], [], seconds)
        if ready:
            self.seen += os.read(self.master, PIECE)
        return bool(ready)

    def is_quiet(self):
        """Waits until something was seen and nothing more comes."""
        return comes_true(lambda: not self.reads(0.4) and bool(self.seen))

    def sees(self, pattern, seconds=20.0):
        """Waits for a text, and returns what of it stands in brackets, or what was seen in its place."""
        comes_true(lambda: self.reads(0.1) and re.search(pattern, self.seen), seconds)
        found = re.search(pattern, self.seen)
        return found[1].decode() if found else f"{self.seen[-80:]!r}"


def terminal(*command):
    it = Terminal(command, 40, 100)
    it.is_quiet()
    it.types(b"stty size\r")
    first = it.sees(rb"\b(40 100)\b")
    it.resize(50, 132)
    for _ in range(20):
        it.types(b"stty size\r")
        second = it.sees(rb"\b(50 132)\b", 0.5)
        if second == "50 132":
            break
    it.types(b"cat\r")
    it.is_quiet()
    it.types(b"twice\r")
    twice = it.sees(rb"(twice)\r\ntwice\r\n")
    it.types(b"\x03")
    it.is_quiet()
    it.types(b"echo status=$?\r")
    interrupted = it.sees(rb"status=(\d+)")
    it.types(b"exit 7\r")
    over = threading.Thread(target=it.client.wait, daemon=True)
    over.start()
    comes_true(lambda: not it.reads(0.1) and not over.is_alive())
    is_same = termios.tcgetattr(it.slave) == it.before
    print(f"{first}, {second}, {twice}, {interrupted}, status {it.client.returncode}, the terminal {'as before' if is_same else 'changed'}")


# ---- many sessions


def crowd(count, listener, folder, *command):
    server, folder = Server(listener), Path(folder)
    folder.mkdir()
    wait = f"touch {folder}/$$; until [ -e {folder}/go ]; do sleep 0.2; done; echo done"
    clients = [subprocess.Popen([*command, wait], stdin=subprocess.DEVNULL, stdout=subprocess.PIPE, stderr=subprocess.DEVNULL) for _ in range(int(count))]
    at_once = comes_true(lambda: len(list(folder.iterdir())) == len(clients), LIMIT)
    most = len(list(folder.iterdir()))
    (folder / "go").touch()
    said = [it.communicate(timeout=LIMIT)[0] for it in clients]
    good = sum(it.returncode == 0 and out == b"done\n" for it, out in zip(clients, said))
    print(f"{most if at_once else f'only {most}'} at once, {good} of status 0, {server.left(f'{folder}/go')}")


def queue(count, listener, *command):
    server = Server(listener)
    words = [*command, "echo alive; true after others"]
    ran = [subprocess.run(words, stdin=subprocess.DEVNULL, stdout=subprocess.PIPE, stderr=subprocess.DEVNULL, timeout=LIMIT) for _ in range(int(count))]
    good = sum(it.returncode == 0 and it.stdout == b"alive\n" for it in ran)
    print(f"{good} of status 0, {server.left('true after others')}")


# ---- transfers


def feed(client, body, copies):
    """Gives a client its input."""
    try:
        for _ in range(copies):
            client.stdin.write(body)
        client.stdin.close()
    except OSError:
        pass


def taken(client, pause):
    """The hash of what a client writes, taken by a reader that sleeps after the first piece."""
    digest, piece = hashlib.sha256(), client.stdout.read(PIECE)
    time.sleep(pause)
    while piece:
        digest.update(piece)
        piece = client.stdout.read(PIECE)
    return digest.hexdigest()


def transfer(way, copies, pause, data, listener, *command):
    body, copies, wanted = Path(data).read_bytes(), int(copies), hashlib.sha256()
    for _ in range(copies):
        wanted.update(body)
    up = f"sleep {pause}; sha256sum"
    down = f"i=0; while [ $i -lt {copies} ]; do cat {data}; i=$((i+1)); done"
    begun = time.monotonic()
    client = subprocess.Popen([*command, up if way == "up" else down], stdin=subprocess.PIPE, stdout=subprocess.PIPE)
    watch = Watch(client, int(listener))
    if way == "up":
        threading.Thread(target=feed, args=(client, body, copies), daemon=True).start()
        digest = client.stdout.read().split()[:1]
        digest = digest[0].decode() if digest else "none"
    else:
        client.stdin.close()
        digest = taken(client, float(pause))
    status = client.wait(LIMIT)
    took = time.monotonic() - begun
    watch.join()
    print("same" if digest == wanted.hexdigest() else "other", status, watch.of_client, watch.of_server, f"{took:.2f}")


def echoes(client, word):
    """Whether a session of `cat` sends a word back."""
    client.stdin.write(word)
    client.stdin.flush()
    return client.stdout.read(len(word)) == word


def killed(who, listener, *command):
    server = Server(listener)
    other = subprocess.Popen([*command, "cat"], stdin=subprocess.PIPE, stdout=subprocess.PIPE)
    goes_on = echoes(other, b"before")
    kept = children(server.listener)
    client = subprocess.Popen([*command, "cat /dev/zero"], stdin=subprocess.DEVNULL, stdout=subprocess.PIPE, stderr=subprocess.PIPE)
    client.stdout.read(1 << 22)
    for it in [client.pid] if who == "client" else set(children(server.listener)) - set(kept):
        os.kill(it, signal.SIGKILL)
    _, said = client.communicate(timeout=LIMIT)
    goes_on = echoes(other, b"after") and goes_on
    other.stdin.close()
    goes_on = other.wait(LIMIT) == 0 and goes_on
    told = f"status {client.returncode}, {said.decode(errors='replace').strip()}, " if who == "server" else ""
    print(f"{told}{'another session goes on' if goes_on else 'another session ends too'}, {server.left('cat /dev/zero')}")


def ended(listener, *command):
    client = subprocess.Popen([*command, "cat /dev/zero"], stdin=subprocess.DEVNULL, stdout=subprocess.PIPE, stderr=subprocess.PIPE)
    client.stdout.read(1 << 22)
    os.kill(int(listener), signal.SIGKILL)
    _, said = client.communicate(timeout=LIMIT)
    is_over = comes_true(lambda: not named("cat /dev/zero"))
    print(f"status {client.returncode}, {said.decode(errors='replace').strip()}, {'nothing left' if is_over else 'a command left'}")


def times(how, rounds, *commands):
    taken_by = {it: [] for it in commands}
    for _ in range(int(rounds)):
        for it in commands:
            begun = time.monotonic()
            subprocess.run(it, shell=True, stdin=subprocess.DEVNULL, check=True, timeout=LIMIT)
            taken_by[it].append(time.monotonic() - begun)
    choose = {"fastest": min, "median": statistics.median}[how]
    print(*(f"{choose(taken_by[it]):.4f}" for it in commands))


def memory(number):
    print(high_water(int(number)))


ALL = {it.__name__: it for it in (terminal, crowd, queue, transfer, killed, ended, memory, times)}

if __name__ == "__main__":
    ALL[sys.argv[1]](*sys.argv[2:])
