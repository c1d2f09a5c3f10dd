"""What dvssh does where a client can go wrong: names, descriptors, signals, full disks, keys and words."""

import os
import pty
import re
import signal
import socket
import subprocess
import threading
import time
import unittest
from pathlib import Path

from tests.common import DVSSH, Live, free_port, until, waited


class Client(Live):
    def test_names_that_a_shell_reads(self):
        seen = self.client("-o", "ProxyCommand=nc -w1 %h %p", "root@$(touch${IFS}pwned)", "true")
        self.assertEqual((seen[0], os.path.exists("pwned")), (255, False), seen)
        seen = self.client("-o", "ProxyCommand=echo %r", "-l", "`touch pwned`", "127.0.0.1", "true")
        self.assertEqual((seen[0], os.path.exists("pwned")), (255, False), seen)

    def test_a_proxy(self):
        self.wants("nc")
        self.assertEqual(self.client("-o", "ProxyCommand=nc %h %p", self.at, "echo by proxy")[:2], (0, b"by proxy\n"))

    def test_closed_standard_output(self):
        self.wants("strace")
        seen = self.shell("strace -f -e trace=write,socket,sendto,writev -o trace $dvssh \"echo PLAIN''TEXT\" >&-")
        trace = Path("trace").read_text()
        sockets = re.findall(r"socket\(AF_INET.*= (\d+)$", trace, re.M)
        self.assertTrue(sockets, seen)
        for fd in sockets:
            self.assertGreater(int(fd), 2)
            self.assertNotIn(f'write({fd}, "PLAIN', trace)
            self.assertNotIn(f'sendto({fd}, "PLAIN', trace)

    def test_closed_standard_input(self):
        self.assertEqual(self.shell("$dvssh 'cat | wc -c' <&-")[:2], (0, b"0\n"))

    def test_a_full_disk(self):
        for command in ("head -c 1000000 /dev/zero", "echo one; sleep 0.3"):
            status, _, error = self.shell(f"$dvssh '{command}' > /dev/full")
            self.assertEqual((status, b"space" in error), (255, True), error)

    def test_a_signal_ends_a_flood(self):
        for name in (signal.SIGINT, signal.SIGTERM):
            client = subprocess.Popen([*self.words, self.at, "cat /dev/zero"], stdout=subprocess.DEVNULL, stderr=subprocess.PIPE)
            time.sleep(1)
            client.send_signal(name)
            self.assertEqual(client.wait(5), 255)
            client.stderr.close()

    def test_a_broken_pipe(self):
        for command, line in (("yes", b"y"), ("'echo; sleep 0.3; while echo; do sleep 0.1; done'", b"")):
            seen = self.shell(f"$dvssh {command} | head -1; echo ${{PIPESTATUS[0]}}")
            self.assertEqual(seen[1], line + b"\n255\n", seen)

    def test_stars_and_nonsense_in_known_hosts(self):
        key = " ".join(Path("host.pub").read_text().split()[:2])
        stars = "*" * 200000 + " ssh-ed25519 AAAA\n" + "*a" * 12 + f" {key}\nnonsense\n"
        Path("stars").write_text(stars + Path("known").read_text())
        seen = self.run_words(DVSSH, "-i", "user", "-o", "UserKnownHostsFile=stars", "-p", self.port, self.at, "echo fine")
        self.assertEqual(seen[:2], (0, b"fine\n"), seen)

    def test_a_host_that_is_not_known(self):
        Path("nobody").write_text("nonsense\n")
        nowhere = ("-o", "UserKnownHostsFile=nobody", "-o", "GlobalKnownHostsFile=none")
        status, _, error = self.run_words(DVSSH, "-i", "user", *nowhere, "-p", self.port, self.at, "true")
        self.assertEqual((status, b"no key of ssh-ed25519 is known" in error, b"passed over" in error), (255, True, True), error)
        Path("wrong").write_text("* " + " ".join(Path("other.pub").read_text().split()[:2]) + "\n")
        wrong = ("-o", "UserKnownHostsFile=wrong", "-o", "GlobalKnownHostsFile=none")
        status, _, error = self.run_words(DVSSH, "-i", "user", *wrong, "-p", self.port, self.at, "true")
        self.assertEqual((status, b"BadHost" in error), (255, True), error)

    def test_a_key_that_others_may_read(self):
        Path("open").write_bytes(Path("user").read_bytes())
        os.chmod("open", 0o644)
        words = ("-o", "UserKnownHostsFile=known", "-o", "BatchMode=yes", "-p", self.port)
        status, _, error = self.run_words(DVSSH, "-i", "open", *words, self.at, "true")
        self.assertEqual((status, b"others may read this key" in error), (255, True), error)

    def test_statuses(self):
        self.assertEqual(self.client(self.at, "exit 3")[0], 3)
        status, _, error = self.client(self.at, "kill -9 $$")
        self.assertEqual((status, b"signal KILL" in error), (255, True), error)
        self.assertIsNone(self.client("-N", self.at, limit=2)[0])

    def test_words_that_are_refused_by_name(self):
        for words, named in ((["-o", "ForwardX11=yes"], b"ForwardX11=yes"), (["-o", "Tunnel=yes"], b"Tunnel=yes"), (["-w", "0"], b"-w")):
            status, _, error = self.client(*words, self.at, "true")
            self.assertEqual((status, named in error), (255, True), error)

    def test_a_command_that_is_too_long(self):
        status, _, error = self.client(self.at, "x" * 100000)
        self.assertEqual((status, b"too long" in error), (255, True), error)

    def test_output_both_ways_at_once(self):
        self.assertEqual(self.shell("head -c 20000000 /dev/zero | $dvssh cat | wc -c", 90)[1], b"20000000\n")


class Ways(Live):
    """Ports, hosts to jump over, configurations and -f."""

    def echo(self):
        """A port here that sends back what it gets, once for each connection."""
        listener = socket.create_server(("127.0.0.1", 0))

        def serve():
            while True:
                try:
                    peer, _ = listener.accept()
                except OSError:
                    return
                with peer:
                    while piece := peer.recv(65536):
                        peer.sendall(piece)

        threading.Thread(target=serve, daemon=True).start()
        self.addCleanup(listener.close)
        return listener.getsockname()[1]

    def asks(self, port, greeting=b"", answer=b""):
        """What comes back from a port, once it is there."""
        end = time.monotonic() + 10
        while True:
            try:
                with socket.create_connection(("127.0.0.1", port), 10) as peer:
                    peer.sendall(greeting)
                    for piece in (answer[:2], answer[2:]) if answer else ():
                        self.assertEqual(peer.recv(len(piece), socket.MSG_WAITALL), piece)
                    peer.sendall(b"hello" * 20000)
                    peer.shutdown(socket.SHUT_WR)
                    got = b""
                    while piece := peer.recv(65536):
                        got += piece
                    return got == b"hello" * 20000
            except ConnectionRefusedError:
                if time.monotonic() > end:
                    raise
                time.sleep(0.1)

    def held(self, *words):
        client = subprocess.Popen([*self.words, *words, "-N", self.at], stdin=subprocess.DEVNULL, stderr=subprocess.PIPE)
        self.addCleanup(client.stderr.close)
        self.addCleanup(client.wait)
        self.addCleanup(client.kill)
        return client

    def test_ports_there(self):
        here, there = free_port(), self.echo()
        self.held("-L", f"{here}:127.0.0.1:{there}")
        self.assertTrue(self.asks(here))

    def test_ports_here(self):
        here, there = self.echo(), free_port()
        self.held("-R", f"{there}:127.0.0.1:{here}")
        self.assertTrue(self.asks(there))

    def test_socks(self):
        here, there = free_port(), self.echo().to_bytes(2, "big")
        self.held("-D", str(here))
        greeting = b"\x05\x01\x00\x05\x01\x00\x01\x7f\x00\x00\x01" + there
        self.assertTrue(self.asks(here, greeting, b"\x05\x00\x05\x00\x00\x01" + bytes(6)))

    def test_standard_input_and_output(self):
        done = self.client("-W", f"127.0.0.1:{self.echo()}", self.at, input=b"hello", stdin=None)
        self.assertEqual(done[:2], (0, b"hello"), done)

    def test_a_host_to_jump_over(self):
        seen = self.client("-J", f"{self.at}:{self.port},{self.at}:{self.port}", self.at, "echo over two")
        self.assertEqual(seen[:2], (0, b"over two\n"), seen)

    def test_a_configuration(self):
        Path("config").write_text(f"Host box\n  HostName 127.0.0.1\n  Port {self.port}\n  User {self.me}\n  IdentityFile user\n")
        seen = self.run_words(DVSSH, "-F", "config", "-o", "UserKnownHostsFile=known", "box", "echo by name")
        self.assertEqual(seen[:2], (0, b"by name\n"), seen)

    def test_the_background(self):
        seen = self.client("-f", self.at, "sleep 1; touch behind", limit=10, stdout=subprocess.DEVNULL, stderr=subprocess.DEVNULL)
        home = os.path.expanduser("~")
        self.assertEqual((seen[0], os.path.exists(f"{home}/behind")), (0, False))
        time.sleep(2.5)
        self.assertTrue(os.path.exists(f"{home}/behind"))
        os.remove(f"{home}/behind")
        self.assertEqual(self.run_words(DVSSH, "-f", "-p", self.port, "-o", "UserKnownHostsFile=none", self.at, "true")[0], 255)


class Terminals(Live):
    def start(self, *words):
        pid, fd = pty.fork()
        if not pid:
            os.execvp(DVSSH, [DVSSH, *words])
        self.addCleanup(os.close, fd)
        return pid, fd

    def test_a_password(self):
        Path("word").write_text("geheim\n")
        port = self.serve("-P", "word")
        words = ("-o", "UserKnownHostsFile=known", "-o", "PubkeyAuthentication=no", "-p", str(port), self.at, "true")
        pid, fd = self.start(*words)
        self.assertIn(b"password: ", until(fd, b"password: "))
        time.sleep(0.3)
        os.write(fd, b"\x03")
        self.assertEqual(waited(pid), 255)
        pid, fd = self.start(*words)
        for word in (b"falsch\n", b"geheim\n"):
            until(fd, b"password: ")
            time.sleep(0.3)
            os.write(fd, word)
        self.assertEqual(waited(pid), 0)
        pid, fd = self.start(*words)
        for _ in range(3):
            until(fd, b"password: ")
            time.sleep(0.3)
            os.write(fd, b"falsch\n")
        self.assertIn(b"not let in", until(fd, b"not let in"))
        self.assertEqual(waited(pid), 255)

    def test_a_shell(self):
        import fcntl
        import struct
        import termios

        pid, fd = self.start(*self.words[1:], self.at)
        fcntl.ioctl(fd, termios.TIOCSWINSZ, struct.pack("HHHH", 30, 100, 0, 0))
        time.sleep(1.5)
        os.write(fd, b"stty size; echo $((40+2))\n")
        self.assertIn(b"30 100", until(fd, b"42"))
        fcntl.ioctl(fd, termios.TIOCSWINSZ, struct.pack("HHHH", 33, 111, 0, 0))
        time.sleep(0.5)
        os.write(fd, b"stty size\n")
        self.assertIn(b"33 111", until(fd, b"33 111"))
        os.write(fd, b"sleep 100\n")
        time.sleep(0.5)
        os.write(fd, b"\x03echo $((50+3))\n")
        self.assertIn(b"53", until(fd, b"53"))
        os.write(fd, b"exit 9\n")
        until(fd, b"\0", 2)
        self.assertEqual(waited(pid), 9)


if __name__ == "__main__":
    unittest.main()
