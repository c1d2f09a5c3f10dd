"""Keys of RSA, ECDSA and Ed25519: at dvsshd, from OpenSSH's ssh and from dvssh with an agent; and from dvssh with an agent at OpenSSH's sshd."""

import os
import shutil
import socket
import struct
import subprocess
import threading
import time
import unittest
from pathlib import Path

from tests.common import DVSSH, Live, free_port

SSHD = shutil.which("sshd") or "/usr/sbin/sshd"
KINDS = {"rsa": ["rsa", "-b", "2048"], "p256": ["ecdsa", "-b", "256"], "p384": ["ecdsa", "-b", "384"], "edwards": ["ed25519"]}


class Keys(Live):
    @classmethod
    def setUpClass(cls):
        super().setUpClass()
        for name, kind in KINDS.items():
            subprocess.run(["ssh-keygen", "-q", "-t", *kind, "-N", "", "-C", name, "-f", name], check=True)
        Path("all").write_bytes(b"".join(Path(f"{name}.pub").read_bytes() for name in KINDS))
        Path("word").write_text("a word\n")
        cls.all = cls.serve("-a", "all", "-P", "word")
        cls.socket = f"{cls.folder}/agent.socket"
        if shutil.which("ssh-agent") and shutil.which("ssh-add"):
            cls.servers.append(subprocess.Popen(["ssh-agent", "-D", "-a", cls.socket], stdout=subprocess.DEVNULL))
            end = time.monotonic() + 10
            while not os.path.exists(cls.socket) and time.monotonic() < end:
                time.sleep(0.05)

    def setUp(self):
        self.env = {**os.environ, "SSH_AUTH_SOCK": self.socket}

    def holds(self, *names):
        """Has the agent hold these keys."""
        self.wants("ssh-add")
        subprocess.run(["ssh-add", "-q", "-D"], env=self.env, check=True, stderr=subprocess.DEVNULL)
        for name in names:
            subprocess.run(["ssh-add", "-q", name], env=self.env, check=True)

    def log(self, port):
        return Path(f"log.{port}").read_text()

    def dvssh(self, port, *words, limit=30):
        given = [DVSSH, "-o", "UserKnownHostsFile=known", "-o", "BatchMode=yes", "-p", port, *words, self.at, "echo in"]
        return self.run_words(*given, env=self.env, limit=limit)

    def openssh_with(self, port, name, command="echo in"):
        given = ["ssh", "-F", "none", "-o", "UserKnownHostsFile=known", "-o", "BatchMode=yes", "-o", "IdentitiesOnly=yes", "-o", "IdentityAgent=none"]
        return self.run_words(*given, "-i", name, "-p", port, self.at, command)

    def test_openssh_at_dvsshd(self):
        for line, name in enumerate(KINDS, 1):
            self.assertEqual(self.openssh_with(self.all, name)[:2], (0, b"in\n"), name)
            self.assertIn(f"the key of line {line}\n", self.log(self.all))
        self.assertEqual(self.openssh_with(self.all, "other")[0], 255)

    def test_a_password_beside_them(self):
        env = {**os.environ, "DVSSH_PASSWORD": "a word"}
        given = [DVSSH, "-o", "UserKnownHostsFile=known", "-o", "IdentityAgent=none", "-o", "PubkeyAuthentication=no", "-p", self.all]
        self.assertEqual(self.run_words(*given, self.at, "echo in", env=env)[:2], (0, b"in\n"))
        self.assertEqual(self.run_words(*given, self.at, "echo in", env={**env, "DVSSH_PASSWORD": "another"})[0], 255)
        self.assertEqual(self.run_words(*given, "nobody@127.0.0.1", "echo in", env=env)[0], 255)

    def test_options_of_such_a_key(self):
        key = " ".join(Path("rsa.pub").read_text().split()[:2])
        Path("options").write_text(f'command="echo another",no-pty {key}\n{Path("edwards.pub").read_text()}')
        port = self.serve("-a", "options")
        self.assertEqual(self.openssh_with(port, "rsa")[:2], (0, b"another\n"))
        self.assertEqual(self.openssh_with(port, "edwards")[:2], (0, b"in\n"))
        Path("options").write_text(f'from="10.0.0.0/8" {key}\n{Path("edwards.pub").read_text()}')
        self.assertEqual(self.openssh_with(port, "rsa")[0], 255)

    def test_keys_that_are_none(self):
        small = ["ssh-keygen", "-q", "-t", "rsa", "-b", "1024", "-N", "", "-f", "small"]
        subprocess.run(small, check=True)
        name = Path("p256.pub").read_text().split()[1]
        Path("none").write_text(f"{Path('small.pub').read_text()}ssh-rsa {name}\nssh-rsa\necdsa-sha2-nistp521 AAAA\n{Path('edwards.pub').read_text()}")
        port = self.serve("-a", "none")
        for line in (2, 3, 4):
            self.assertIn(f"line {line}, lets nobody in", self.log(port))
        self.assertEqual(self.openssh_with(port, "small")[0], 255)
        self.assertEqual(self.openssh_with(port, "p256")[0], 255)
        self.assertEqual(self.openssh_with(port, "edwards")[0], 0)

    def test_an_agent_at_dvsshd(self):
        for line, name in enumerate(KINDS, 1):
            self.holds("other", name)
            before = self.log(self.all).count(f"the key of line {line}\n")
            status, out, error = self.dvssh(self.all)
            self.assertEqual((status, out), (0, b"in\n"), error)
            self.assertEqual(self.log(self.all).count(f"the key of line {line}\n"), before + 1)

    def test_which_keys_of_the_agent(self):
        self.holds("other", "rsa", "p256")
        only = ["-o", "IdentitiesOnly=yes"]
        self.assertEqual(self.dvssh(self.all, *only)[0], 255)
        self.assertEqual(self.dvssh(self.all, *only, "-i", "other")[0], 255)
        for name in ("p256", "p256.pub"):
            before = self.log(self.all).count("the key of line 2\n")
            self.assertEqual(self.dvssh(self.all, *only, "-i", name)[:2], (0, b"in\n"), name)
            # a key that a file names is offered first
            self.assertEqual(self.dvssh(self.all, "-i", name)[:2], (0, b"in\n"), name)
            self.assertEqual(self.log(self.all).count("the key of line 2\n"), before + 2)
        for words in (["-o", "IdentityAgent=none"], ["-o", "PubkeyAuthentication=no"], ["-o", "PreferredAuthentications=password"]):
            self.assertEqual(self.dvssh(self.all, *words)[0], 255, words)

    def test_the_file_comes_after_the_agent(self):
        self.holds("other")
        self.assertEqual(self.dvssh(self.port, "-i", "user")[:2], (0, b"in\n"))

    def played(self, name, answers):
        """An agent that answers by these functions of a request, and then is silent."""
        path = f"{self.folder}/{name}"
        listening = socket.socket(socket.AF_UNIX)
        listening.bind(path)
        listening.listen()
        self.addCleanup(listening.close)

        def serve():
            while True:
                there, _ = listening.accept()
                (count,) = struct.unpack(">I", there.recv(4, socket.MSG_WAITALL))
                there.sendall(answers(there.recv(count, socket.MSG_WAITALL)))
                there.close()

        threading.Thread(target=serve, daemon=True).start()
        return ["-o", f"IdentityAgent={path}"]

    def test_agents_that_fail(self):
        text = lambda it: struct.pack(">I", len(it)) + it
        blob = subprocess.check_output(["sh", "-c", "cut -d' ' -f2 rsa.pub | base64 -d"])
        holds = text(b"\x0c\0\0\0\1" + text(blob) + text(b"a\x1bb"))
        for name, answers in {
            "silent": lambda _: b"",
            "short": lambda _: b"\0\0\0\x09\x0c\0",
            "endless": lambda _: struct.pack(">I", 1 << 31),
            "empty": lambda _: text(b""),
            "no": lambda it: holds if it[0] == 11 else text(b"\5"),
            "nothing": lambda it: holds if it[0] == 11 else text(b"\x0e" + text(b"")),
            "long": lambda it: holds if it[0] == 11 else text(b"\x0e" + text(bytes(4097))),
            "untyped": lambda _: text(b"\x0c\0\0\0\2" + text(b"") + text(b"") + text(text(b"x" * 65)) + text(b"")),
            "wrong": lambda it: holds if it[0] == 11 else text(b"\x0e" + text(text(b"rsa-sha2-512") + text(bytes(256)))),
        }.items():
            words = self.played(name, answers)
            status, out, error = self.dvssh(self.all, *words)
            self.assertEqual((status, out), (255, b""), name)
            self.assertNotIn(b"\x1b", error)
            # what comes after the agent is still tried
            self.assertEqual(self.dvssh(self.all, *words, "-i", "edwards")[:2], (0, b"in\n"), name)

    @unittest.skipUnless(os.path.exists(SSHD) and os.getuid() == 0, "sshd is not there, or this is not root")
    def test_an_agent_at_sshd(self):
        os.makedirs("/run/sshd", exist_ok=True)
        for name in KINDS:
            port = free_port()
            lines = ["HostKey {0}/host", f"AuthorizedKeysFile {{0}}/{name}.pub", "UsePAM no", "StrictModes no", "PermitRootLogin yes", "PidFile none"]
            Path("config").write_text("\n".join(lines).format(self.folder) + "\nListenAddress 127.0.0.1\n")
            self.servers.append(subprocess.Popen([SSHD, "-D", "-f", f"{self.folder}/config", "-p", str(port)], stderr=subprocess.DEVNULL))
            time.sleep(1)
            self.holds("other", name)
            status, out, error = self.dvssh(port)
            self.assertEqual((status, out), (0, b"in\n"), error)


if __name__ == "__main__":
    unittest.main()
