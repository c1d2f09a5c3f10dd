"""The user's agent, offered by dvssh and by OpenSSH's ssh to commands at dvsshd and at OpenSSH's sshd."""

import os
import shutil
import subprocess
import tempfile
import time
import unittest
from pathlib import Path

from tests.common import DVSSH, Live, free_port

SSHD = shutil.which("sshd") or "/usr/sbin/sshd"
SSHD_CONFIG = """HostKey {0}/host
AuthorizedKeysFile {0}/authorized
UsePAM no
StrictModes no
PermitRootLogin yes
PidFile none
ListenAddress 127.0.0.1
AllowAgentForwarding {1}
"""


class Agent(Live):
    @classmethod
    def setUpClass(cls):
        super().setUpClass()
        if shutil.which("ssh-agent") is None or shutil.which("ssh-add") is None:
            raise unittest.SkipTest("ssh-agent and ssh-add are not there")
        cls.socket = f"{cls.folder}/agent.socket"
        cls.servers.append(subprocess.Popen(["ssh-agent", "-D", "-a", cls.socket], stdout=subprocess.DEVNULL))
        end = time.monotonic() + 10
        while not os.path.exists(cls.socket) and time.monotonic() < end:
            time.sleep(0.05)
        cls.env = {**os.environ, "SSH_AUTH_SOCK": cls.socket}
        subprocess.run(["ssh-add", "-q", "other"], env=cls.env, check=True)
        cls.key = Path("other.pub").read_text().split()[1].encode()

    def with_agent(self, *words):
        return self.run_words(*words, env=self.env)

    def folders(self):
        return {it for it in os.listdir("/tmp") if it.startswith("dvsshd-")}

    def test_at_dvsshd(self):
        before = self.folders()
        command = 'ssh-add -L; ssh-add -L; stat -c "%a %F" $SSH_AUTH_SOCK; stat -c "%a %F" $(dirname $SSH_AUTH_SOCK)'
        for client in (self.words, self.openssh):
            status, out, error = self.with_agent(*client, "-A", self.at, command)
            self.assertEqual((status, out.count(self.key)), (0, 2), (out, error))
            self.assertEqual(out.splitlines()[2:], [b"600 socket", b"700 directory"])
        self.assertEqual(self.folders() - before, set())

    def test_many_at_once(self):
        command = "for i in 1 2 3 4 5 6 7 8 9 10; do ssh-add -L & done; wait"
        pipes = {"stdin": subprocess.DEVNULL, "stdout": subprocess.PIPE}
        many = [subprocess.Popen([*self.words, "-A", self.at, command], env=self.env, **pipes) for _ in range(5)]
        self.assertEqual([it.communicate(timeout=60)[0].count(self.key) for it in many], [10] * 5)

    def test_none_without_being_asked_for(self):
        for words in ([], ["-a"], ["-o", "ForwardAgent=no"], ["-A", "-o", "IdentityAgent=none"]):
            seen = self.with_agent(*self.words, *words, self.at, "echo .$SSH_AUTH_SOCK")
            self.assertEqual(seen[:2], (0, b".\n"), seen)
        env = {name: value for name, value in os.environ.items() if name != "SSH_AUTH_SOCK"}
        self.assertEqual(self.run_words(*self.words, "-A", self.at, "echo .$SSH_AUTH_SOCK", env=env)[:2], (0, b".\n"))

    def test_options_of_keys(self):
        key = " ".join(Path("authorized").read_text().split()[:2])
        for options, is_there in (("no-agent-forwarding", False), ("restrict", False), ("restrict,agent-forwarding", True)):
            Path("options").write_text(f"{options} {key}\n")
            port = self.serve("-a", "options")
            words = [DVSSH, "-i", "user", "-o", "UserKnownHostsFile=known", "-A", "-p", port, self.at, "echo $SSH_AUTH_SOCK"]
            status, out, error = self.with_agent(*words)
            self.assertEqual((status, b"/dvsshd-" in out, b"not forwarded" in error), (0, is_there, not is_there), error)

    def test_an_agent_that_is_gone(self):
        env = {**os.environ, "SSH_AUTH_SOCK": f"{self.folder}/nowhere"}
        status, out, error = self.run_words(*self.words, "-A", self.at, "ssh-add -L; echo goes on", env=env)
        self.assertEqual((status, out, b"nowhere: No such file" in error), (0, b"goes on\n", True), error)

    def sshd(self, allows):
        if not os.path.exists(SSHD) or os.getuid() != 0:
            self.skipTest("sshd is not there, or this is not root")
        os.makedirs("/run/sshd", exist_ok=True)
        port = free_port()
        config = tempfile.NamedTemporaryFile("w", dir=self.folder, delete=False)
        config.write(SSHD_CONFIG.format(self.folder, allows))
        config.close()
        self.servers.append(subprocess.Popen([SSHD, "-D", "-f", config.name, "-p", str(port)], stderr=subprocess.DEVNULL))
        time.sleep(1)
        return port

    def test_at_sshd(self):
        port = self.sshd("yes")
        words = [DVSSH, "-i", "user", "-o", "UserKnownHostsFile=known", "-p", port]
        status, out, error = self.with_agent(*words, "-A", self.at, "ssh-add -L; ssh-add -L")
        self.assertEqual((status, out.count(self.key)), (0, 2), (out, error))
        self.assertEqual(self.with_agent(*words, self.at, "echo .$SSH_AUTH_SOCK")[:2], (0, b".\n"))
        # over a first host to a second one, by the agent's key there
        hop = f"{self.me}@127.0.0.1:{self.port}"
        status, out, error = self.with_agent(*words, "-A", "-J", hop, self.at, "ssh-add -L")
        self.assertEqual((status, out.count(self.key)), (0, 1), error)
        port = self.sshd("no")
        words = [DVSSH, "-i", "user", "-o", "UserKnownHostsFile=known", "-p", port]
        status, out, error = self.with_agent(*words, "-A", self.at, "echo .$SSH_AUTH_SOCK")
        self.assertEqual((status, out, b"not forwarded" in error), (0, b".\n", True), error)


if __name__ == "__main__":
    unittest.main()
