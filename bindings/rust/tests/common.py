"""A server and what clients of it need, for the live tests. DVSSH and DVSSHD name the programs."""

import os
import select
import shutil
import signal
import socket
import subprocess
import tempfile
import time
import unittest
from pathlib import Path

DVSSH = os.environ.get("DVSSH", "dvssh")
DVSSHD = os.environ.get("DVSSHD", "dvsshd")
LIMIT = 30


def free_port():
    with socket.socket() as probe:
        probe.bind(("127.0.0.1", 0))
        return probe.getsockname()[1]


def until(fd, what, seconds=10):
    """Reads from a terminal until these bytes came, or it ended, or the time is over."""
    got, end = b"", time.monotonic() + seconds
    while what not in got and time.monotonic() < end:
        if select.select([fd], [], [], 0.2)[0]:
            try:
                piece = os.read(fd, 4096)
            except OSError:
                break
            if not piece:
                break
            got += piece
    return got


def waited(pid, seconds=10):
    """The exit status of a child, which is killed where it does not end."""
    end = time.monotonic() + seconds
    while time.monotonic() < end:
        done, status = os.waitpid(pid, os.WNOHANG)
        if done:
            return os.waitstatus_to_exitcode(status)
        time.sleep(0.05)
    os.kill(pid, signal.SIGKILL)
    os.waitpid(pid, 0)
    return None


class Live(unittest.TestCase):
    """A folder with keys, and a dvsshd with them."""

    @classmethod
    def setUpClass(cls):
        cls.before = os.getcwd()
        cls.folder = tempfile.mkdtemp()
        os.chdir(cls.folder)
        for name in ("user", "host", "other"):
            subprocess.run(["ssh-keygen", "-q", "-t", "ed25519", "-N", "", "-f", name], check=True)
        kind_and_key = " ".join(Path("host.pub").read_text().split()[:2])
        Path("known").write_text(f"* {kind_and_key}\n")
        os.rename("user.pub", "authorized")
        cls.me = subprocess.check_output(["id", "-un"], text=True).strip()
        cls.at = f"{cls.me}@127.0.0.1"
        cls.servers = []
        cls.port = cls.serve("-a", "authorized", "-g", "20")
        cls.words = [DVSSH, "-i", "user", "-o", "UserKnownHostsFile=known", "-p", str(cls.port)]
        cls.openssh = ["ssh", "-F", "none", "-i", "user", "-o", "UserKnownHostsFile=known", "-p", str(cls.port)]

    @classmethod
    def serve(cls, *words, **more):
        """Starts a dvsshd, and answers its port."""
        port = free_port()
        with open(f"log.{port}", "wb") as log:
            more = {"stdin": subprocess.DEVNULL, "stderr": log, **more}
            cls.servers.append(subprocess.Popen([DVSSHD, "-h", "host", "-p", str(port), *words], **more))
        end = time.monotonic() + 10
        while b"listens" not in Path(f"log.{port}").read_bytes() and time.monotonic() < end:
            time.sleep(0.05)
        return port

    @classmethod
    def tearDownClass(cls):
        for server in cls.servers:
            server.kill()
            server.wait()
        os.chdir(cls.before)
        shutil.rmtree(cls.folder, ignore_errors=True)

    def run_words(self, *words, limit=LIMIT, **more):
        """The exit status, output and errors of a program; status None where it hangs."""
        more = {"stdin": subprocess.DEVNULL, "stdout": subprocess.PIPE, "stderr": subprocess.PIPE, **more}
        try:
            done = subprocess.run([str(it) for it in words], timeout=limit, **more)
        except subprocess.TimeoutExpired:
            return None, b"", b""
        return done.returncode, done.stdout, done.stderr

    def client(self, *words, **more):
        return self.run_words(*self.words, *words, **more)

    def shell(self, text, limit=LIMIT):
        """A line of bash, in which $dvssh and $ssh are the clients with all words up to the host."""
        env = {**os.environ, "dvssh": " ".join([*self.words, self.at]), "ssh": " ".join([*self.openssh, self.at])}
        return self.run_words("bash", "-c", text, limit=limit, env=env)

    def wants(self, program):
        if shutil.which(program) is None:
            self.skipTest(f"{program} is not there")
