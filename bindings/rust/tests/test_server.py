"""What dvsshd does where a server can go wrong: what commands inherit, silent connections, and options of keys."""

import os
import resource
import signal
import socket
import subprocess
import time
import unittest
from pathlib import Path

from tests.common import DVSSH, DVSSHD, Live


class Server(Live):
    @classmethod
    def serve(cls, *words, **more):
        inherited = os.open("host.pub", os.O_RDONLY)
        os.set_inheritable(inherited, True)
        more = {"close_fds": False, "env": dict(os.environ, SECRET_OF_THE_SERVER="x"), **more}
        port = super().serve(*words, **more)
        os.close(inherited)
        return port

    def test_what_a_command_inherits(self):
        seen = self.shell("(sleep 2 | $ssh -tt cat >/dev/null 2>&1) & sleep 1; $dvssh 'ls /proc/self/fd | wc -l; env'; wait")
        self.assertTrue(seen[1].startswith(b"4\n"), seen)
        self.assertNotIn(b"SECRET", seen[1])
        for name in (b"SSH_CONNECTION=127.0.0.1 ", b"SSH_CLIENT=127.0.0.1 "):
            self.assertIn(name, seen[1])
        seen = self.shell("$ssh -tt 'ls /proc/self/fd | wc -l; echo $SSH_TTY; tty'")
        lines = seen[1].split(b"\r\n")
        self.assertEqual((lines[0], lines[1][:9], lines[1]), (b"4", b"/dev/pts/", lines[2]), seen)

    def test_signals_that_the_server_ignores(self):
        port = self.serve("-a", "authorized", preexec_fn=lambda: signal.signal(signal.SIGINT, signal.SIG_IGN))
        words = [DVSSH, "-i", "user", "-o", "UserKnownHostsFile=known", "-p", port]
        seen = self.run_words(*words, self.at, "grep SigIgn /proc/self/status")
        self.assertEqual((seen[0], seen[1][:8]), (0, b"SigIgn:\t"), seen)
        # the C library keeps 32 and 33 for its threads and lets no program set them, so what the tests were started with stays
        of_the_library = 1 << 32 - 1 | 1 << 33 - 1
        self.assertEqual(int(seen[1].split()[1], 16) & ~of_the_library, 0, seen)

    def test_silent_connections_shut_nobody_out(self):
        silent = [socket.create_connection(("127.0.0.1", self.port)) for _ in range(150)]
        time.sleep(0.5)
        seen = self.client(self.at, "echo in")
        for each in silent:
            each.close()
        self.assertEqual(seen[:2], (0, b"in\n"), seen)

    def test_a_line_for_each_connection_that_failed(self):
        before = len(Path(f"log.{self.port}").read_bytes())
        words = ("-o", "UserKnownHostsFile=known", "-o", "BatchMode=yes", "-p", self.port)
        self.run_words(DVSSH, "-i", "other", *words, self.at, "true")
        time.sleep(0.3)
        lines = Path(f"log.{self.port}").read_bytes()[before:].splitlines()
        failed = [it for it in lines if b"nobody is let in" in it]
        self.assertEqual(len(failed), 1, lines)
        self.assertIn(b"dvsshd: 127.0.0.1:", failed[0])
        self.assertIn(b"by publickey", failed[0])

    def test_keys_are_checked_at_the_start(self):
        for words in (["-h", "user.none", "-a", "authorized"], ["-h", "host", "-a", "none"], ["-h", "host", "-a", "/dev/null"], ["-h", "host"]):
            status, _, error = self.run_words(os.environ.get("DVSSHD", "dvsshd"), *words, "-p", 1)
            self.assertEqual(status, 255, error)

    def test_many_descriptors(self):
        def few():
            resource.setrlimit(resource.RLIMIT_NOFILE, (64, resource.getrlimit(resource.RLIMIT_NOFILE)[1]))

        port = self.serve("-a", "authorized", preexec_fn=few)
        words = [DVSSH, "-i", "user", "-o", "UserKnownHostsFile=known", "-p", str(port), self.at]
        command = "touch here.$$; until [ -e go ]; do sleep 0.1; done; ulimit -Sn"
        many = [subprocess.Popen([*words, f"cd {self.folder}; {command}"], stdin=subprocess.DEVNULL, stdout=subprocess.PIPE) for _ in range(40)]
        end = time.monotonic() + 30
        while len(list(Path().glob("here.*"))) < len(many) and time.monotonic() < end:
            time.sleep(0.1)
        Path("go").touch()
        self.assertEqual([it.communicate(timeout=60)[0] for it in many], [b"64\n"] * 40)

    def test_many_connections_at_once(self):
        many = [subprocess.Popen([*self.words, self.at, "echo in"], stdin=subprocess.DEVNULL, stdout=subprocess.PIPE) for _ in range(20)]
        self.assertEqual([it.communicate(timeout=60)[0] for it in many], [b"in\n"] * 20)


    def test_help(self):
        for program in (DVSSH, DVSSHD):
            status, out, _ = self.run_words(program, "--help")
            self.assertEqual((status, out[:6]), (0, b"Usage:"))


class Options(Live):
    """The options of authorized_keys, each with a server of its own."""

    def runs(self, options, *words, command="echo plain; tty", client=None):
        key = " ".join(Path("authorized").read_text().split()[:2])
        Path("options").write_text(f"{options} {key}\n")
        port = self.serve("-a", "options")
        use = client or [DVSSH, "-i", "user", "-o", "UserKnownHostsFile=known", "-o", "BatchMode=yes", "-p"]
        return self.run_words(*use, port, *words, self.at, command), port

    def test_a_command(self):
        seen, port = self.runs('command="echo forced: $SSH_ORIGINAL_COMMAND",no-port-forwarding', command="ls \\x")
        self.assertEqual(seen[:2], (0, b"forced: ls \\x\n"), seen)
        words = [DVSSH, "-i", "user", "-o", "UserKnownHostsFile=known", "-p", port]
        self.assertEqual(self.run_words(*words, "-s", self.at, "sftp")[1][:8], b"forced: ")
        self.assertEqual(self.run_words(*words, "-W", f"127.0.0.1:{port}", self.at)[0], 255)

    def test_no_terminal(self):
        for options in ("no-pty", "restrict"):
            seen, _ = self.runs(options, "-tt")
            self.assertIn(b"not a tty", seen[1])
        seen, _ = self.runs("restrict,pty", "-tt")
        self.assertIn(b"/dev/pts/", seen[1])

    def test_addresses(self):
        self.assertEqual(self.runs('from="10.0.0.0/8,!127.0.0.1,*.example.org"')[0][0], 255)
        self.assertEqual(self.runs('from="127.0.0.0/8"')[0][0], 1)  # (tty ends with 1)

    def test_times(self):
        self.assertEqual(self.runs('expiry-time="20010203"')[0][0], 255)
        self.assertEqual(self.runs('expiry-time="99991231"')[0][0], 1)

    def test_an_option_that_is_not_known_refuses_its_line(self):
        Path("word").write_text("geheim\n")
        key = " ".join(Path("authorized").read_text().split()[:2])
        Path("options").write_text(f"# keys\ncert-authority {key}\n")
        port = self.serve("-a", "options", "-P", "word")
        words = [DVSSH, "-i", "user", "-o", "UserKnownHostsFile=known", "-o", "BatchMode=yes", "-p", port]
        self.assertEqual(self.run_words(*words, self.at, "true")[0], 255)
        self.assertIn(b"options, line 2, lets nobody in: the option cert-authority is not known", Path(f"log.{port}").read_bytes())
        # the file is read for each connection anew
        Path("options").write_text(f"{key}\n")
        self.assertEqual(self.run_words(*words, self.at, "true")[0], 0)


if __name__ == "__main__":
    unittest.main()
