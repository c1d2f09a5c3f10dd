"""Keys of other algorithms than ssh-ed25519: an ssh-agent that signs for a client, and signatures that a server's program judges, by the package and with OpenSSH."""

import asyncio
import base64
import getpass
import hashlib
import os
import pathlib
import shutil
import signal
import socket
import struct
import subprocess
import tempfile
import threading
import time
import unittest

from .common import HOST_SEED, USER_SEED

from divrelca import BadArgument, Code, Kind, Shown, Wanted, WantedKind, public_key, signatures, to_blob
from divrelca.agent import Agent, AgentFailed, AgentKey, Identity, identities
from divrelca.aio import PermissionDenied, connect, serve
from divrelca.signatures import verify

if signatures.IS_THERE:
    from cryptography.hazmat.primitives import hashes, serialization
    from cryptography.hazmat.primitives.asymmetric import ec, ed25519, padding, rsa
    from cryptography.hazmat.primitives.asymmetric.utils import decode_dss_signature

SSHD = shutil.which("sshd") or "/usr/sbin/sshd"
KINDS = ("ed25519", "rsa", "ecdsa")
TEXT = b"what is signed"


def text(value):
    return struct.pack(">I", len(value)) + value


def number(value):
    return text(value.to_bytes(value.bit_length() // 8 + 1, "big"))


def blob_of(public):
    form = public.public_bytes(serialization.Encoding.OpenSSH, serialization.PublicFormat.OpenSSH)
    return base64.b64decode(form.split()[1])


@unittest.skipUnless(signatures.IS_THERE, "SKIPPED: signatures are judged by cryptography, which is not installed")
class Verify(unittest.TestCase):
    def signed_by_rsa(self, name, bits=2048):
        private = rsa.generate_private_key(65537, bits)
        hash = {b"rsa-sha2-256": hashes.SHA256, b"rsa-sha2-512": hashes.SHA512}[name]()
        return blob_of(private.public_key()), text(name) + text(private.sign(TEXT, padding.PKCS1v15(), hash))

    def signed_by_curve(self, curve, hash, name):
        private = ec.generate_private_key(curve)
        r, s = decode_dss_signature(private.sign(TEXT, ec.ECDSA(hash)))
        return blob_of(private.public_key()), text(name) + text(number(r) + number(s))

    def judges(self, name, key, signature):
        """It is right of this text alone, by this key, under this name, and in no other form."""
        self.assertTrue(verify(name, key, TEXT, signature))
        self.assertFalse(verify(name, key, TEXT + b".", signature))
        other = b"ssh-ed25519" if name != b"ssh-ed25519" else b"ssh-rsa"
        self.assertFalse(verify(other, key, TEXT, signature))
        for at in range(0, len(signature), 7):
            self.assertFalse(verify(name, key, TEXT, signature[:at]), at)
            self.assertFalse(verify(name, key, TEXT, signature[:at] + bytes([signature[at] ^ 1]) + signature[at + 1 :]), at)
        for at in range(0, len(key), 7):
            self.assertFalse(verify(name, key[:at], TEXT, signature), at)
            self.assertFalse(verify(name, key[:at] + bytes([key[at] ^ 1]) + key[at + 1 :], TEXT, signature), at)
        self.assertFalse(verify(name, key + b"\0", TEXT, signature))
        self.assertFalse(verify(name, key, TEXT, signature + b"\0"))

    def test_rsa(self):
        for name in (b"rsa-sha2-256", b"rsa-sha2-512"):
            self.judges(name, *self.signed_by_rsa(name))
        key, signature = self.signed_by_rsa(b"rsa-sha2-256")
        self.assertFalse(verify(b"rsa-sha2-512", key, TEXT, signature))
        self.assertFalse(verify(b"ssh-rsa", key, TEXT, signature))
        self.assertFalse(verify(b"rsa-sha2-256", *[(k, TEXT, s) for k, s in [self.signed_by_rsa(b"rsa-sha2-256", 1024)]][0]))

    def test_curves(self):
        for curve, hash, name in (
            (ec.SECP256R1(), hashes.SHA256(), b"ecdsa-sha2-nistp256"),
            (ec.SECP384R1(), hashes.SHA384(), b"ecdsa-sha2-nistp384"),
            (ec.SECP521R1(), hashes.SHA512(), b"ecdsa-sha2-nistp521"),
        ):
            self.judges(name, *self.signed_by_curve(curve, hash, name))

    def test_ed25519(self):
        private = ed25519.Ed25519PrivateKey.from_private_bytes(USER_SEED)
        self.judges(b"ssh-ed25519", to_blob(public_key(USER_SEED)), text(b"ssh-ed25519") + text(private.sign(TEXT)))

    def by_security_key(self, flags):
        """What a security key signs, which is played here (PROTOCOL.u2f)."""
        said = hashlib.sha256(b"ssh:").digest() + bytes([flags]) + struct.pack(">I", 7) + hashlib.sha256(TEXT).digest()
        rest = bytes([flags]) + struct.pack(">I", 7)
        of_edwards, of_curve = ed25519.Ed25519PrivateKey.generate(), ec.generate_private_key(ec.SECP256R1())
        name = b"sk-ssh-ed25519@openssh.com"
        point = of_edwards.public_key().public_bytes(serialization.Encoding.Raw, serialization.PublicFormat.Raw)
        yield name, text(name) + text(point) + text(b"ssh:"), text(name) + text(of_edwards.sign(said)) + rest
        name = b"sk-ecdsa-sha2-nistp256@openssh.com"
        point = of_curve.public_key().public_bytes(serialization.Encoding.X962, serialization.PublicFormat.UncompressedPoint)
        r, s = decode_dss_signature(of_curve.sign(said, ec.ECDSA(hashes.SHA256())))
        yield name, text(name) + text(b"nistp256") + text(point) + text(b"ssh:"), text(name) + text(number(r) + number(s)) + rest

    def test_security_keys(self):
        for name, key, signature in self.by_security_key(1):
            self.judges(name, key, signature)
        for name, key, signature in self.by_security_key(0):
            self.assertFalse(verify(name, key, TEXT, signature))

    def test_what_is_announced_is_judged(self):
        self.assertEqual(set(signatures.ALGORITHMS), set(signatures.JUDGES))


class PlayedAgent:
    """An agent that answers each request by these bytes, or ends the connection."""

    def __init__(self, folder, answer):
        self.path, self.asked = f"{folder}/played", []
        self._listening = socket.socket(socket.AF_UNIX)
        self._listening.bind(self.path)
        self._listening.listen()
        self._answer = answer
        threading.Thread(target=self._serve, daemon=True).start()

    def _serve(self):
        while True:
            try:
                there, _ = self._listening.accept()
            except OSError:
                return
            with there:
                (count,) = struct.unpack(">I", there.recv(4, socket.MSG_WAITALL))
                self.asked.append(there.recv(count, socket.MSG_WAITALL))
                there.sendall(self._answer(self.asked[-1]))

    def close(self):
        self._listening.close()
        os.unlink(self.path)


class AgentAnswers(unittest.TestCase):
    def setUp(self):
        folder = tempfile.TemporaryDirectory()
        self.addCleanup(folder.cleanup)
        self.folder = folder.name

    def test_answers_that_are_none(self):
        for answer in (b"", b"\0\0", text(b""), text(b"\5"), text(b"\x0c\0\0\0\1"), text(b"\x0c\0\0\0\0x"), struct.pack(">I", 1 << 30), text(b"\x0c")[:-1]):
            played = PlayedAgent(self.folder, lambda _, answer=answer: answer)
            with self.assertRaises(AgentFailed, msg=repr(answer)):
                Agent(played.path).keys()
            with self.assertRaises(AgentFailed, msg=repr(answer)):
                Agent(played.path).sign(b"key", b"data", b"ssh-ed25519")
            played.close()

    def test_there_is_none(self):
        for path in ("", f"{self.folder}/nowhere"):
            with self.assertRaises(AgentFailed):
                Agent(path).keys()

    def test_flags(self):
        played = PlayedAgent(self.folder, lambda _: text(b"\x0e" + text(b"signature")))
        self.addCleanup(played.close)
        for algorithm, flags in ((b"rsa-sha2-512", 4), (b"rsa-sha2-256", 2), (b"ssh-ed25519", 0), (b"rsa-sha2-512-cert-v01@openssh.com", 4)):
            self.assertEqual(Agent(played.path).sign(b"key", b"data", algorithm), b"signature")
            self.assertEqual(played.asked[-1], b"\x0d" + text(b"key") + text(b"data") + struct.pack(">I", flags))

    def test_algorithms(self):
        self.assertEqual(AgentKey(text(b"ssh-rsa") + b"x").algorithms, (b"rsa-sha2-512", b"rsa-sha2-256"))
        self.assertEqual(AgentKey(text(b"ssh-ed25519")).algorithms, (b"ssh-ed25519",))
        for blob in (b"", b"\0\0\0\0", b"\0\0\0\7ssh"):
            self.assertEqual(AgentKey(blob).algorithms, ())


async def handle(process):
    process.stdout.write(process.user)
    process.stderr.write(base64.b64encode(process.blob or b""))
    return 0


@unittest.skipUnless(shutil.which("ssh-agent") and shutil.which("ssh-keygen"), "SKIPPED: logins by an agent, for ssh-agent is not there")
class Live(unittest.IsolatedAsyncioTestCase):
    @classmethod
    def setUpClass(cls):
        folder = tempfile.TemporaryDirectory()
        cls.addClassCleanup(folder.cleanup)
        cls.folder = pathlib.Path(folder.name)
        cls.socket = str(cls.folder / "agent")
        agent = subprocess.Popen(["ssh-agent", "-D", "-a", cls.socket], stdout=subprocess.DEVNULL)
        cls.addClassCleanup(agent.wait)
        cls.addClassCleanup(agent.terminate)
        end = time.monotonic() + 10
        while not os.path.exists(cls.socket) and time.monotonic() < end:
            time.sleep(0.02)
        cls.env = {**os.environ, "SSH_AUTH_SOCK": cls.socket}
        for kind in (*KINDS, "host"):
            how = ["-t", "rsa", "-b", "2048"] if kind == "rsa" else ["-t", "ed25519" if kind == "host" else kind]
            subprocess.run(["ssh-keygen", "-q", *how, "-N", "", "-f", cls.folder / kind], check=True)
        cls.blobs = {kind: base64.b64decode((cls.folder / f"{kind}.pub").read_text().split()[1]) for kind in (*KINDS, "host")}

    def add(self, *kinds):
        subprocess.run(["ssh-add", "-q", "-D"], env=self.env, check=True, stderr=subprocess.DEVNULL)
        for kind in kinds:
            subprocess.run(["ssh-add", "-q", self.folder / kind], env=self.env, check=True)

    async def serve(self, authorize, **settings):
        server = await serve(handle, port=0, host_seed=HOST_SEED, authorize=authorize, **settings)
        self.addCleanup(server.close)
        self.port = server.sockets[0].getsockname()[1]

    def connect(self, **settings):
        given = {"host_key": public_key(HOST_SEED), "user": "me", "agent": self.socket, "keys": []}
        return connect("127.0.0.1", self.port, **{**given, **settings})

    def test_an_agent_signs(self):
        self.add(*KINDS)
        held = Agent(self.socket).keys()
        self.assertEqual([it.blob for it in held], [self.blobs[kind] for kind in KINDS])
        for key in held:
            for algorithm in key.algorithms:
                signature = Agent(self.socket).sign(key.blob, TEXT, algorithm)
                if signatures.IS_THERE:
                    self.assertTrue(verify(algorithm, key.blob, TEXT, signature), algorithm)
        with self.assertRaises(AgentFailed):
            Agent(self.socket).sign(self.blobs["host"], TEXT, b"ssh-ed25519")

    async def test_each_key_lets_in(self):
        if not signatures.IS_THERE:
            self.skipTest("SKIPPED: signatures are judged by cryptography, which is not installed")
        for kind in KINDS:
            self.add(*KINDS)
            asked = []

            def authorize(wanted):
                asked.append(wanted)
                return wanted.kind == WantedKind.KEY and wanted.key == self.blobs[kind]

            await self.serve(authorize)
            async with await self.connect() as connection:
                done = await connection.run("x")
            self.assertEqual((done.stdout, base64.b64decode(done.stderr)), (b"me", self.blobs[kind]))
            self.assertEqual([it.kind for it in asked[:1]], [WantedKind.ADMISSION])
            self.assertEqual([it.key for it in asked[1:]], [self.blobs[it] for it in KINDS[: KINDS.index(kind) + 1]])

    async def test_yes_to_a_key_lets_nobody_in(self):
        self.add("rsa")
        asked = []

        def no(wanted):
            asked.append(wanted)
            return False

        await self.serve(lambda it: it.kind == WantedKind.KEY, verify=no, user_algorithms=b"rsa-sha2-512")
        with self.assertRaises(PermissionDenied):
            await self.connect()
        (wanted,) = asked
        self.assertEqual((wanted.kind, wanted.user, wanted.algorithm, wanted.key), (WantedKind.SIGNATURE, b"me", b"rsa-sha2-512", self.blobs["rsa"]))
        self.assertEqual(wanted.text[36:], b"\x32" + text(b"me") + text(b"ssh-connection") + text(b"publickey") + b"\1" + text(b"rsa-sha2-512") + text(wanted.key))
        if signatures.IS_THERE:
            self.assertTrue(verify(wanted.algorithm, wanted.key, wanted.text, wanted.signature))

    async def test_a_signature_of_something_else(self):
        self.add("rsa")
        agent = Agent(self.socket)
        lying = Identity(b"rsa-sha2-512", self.blobs["rsa"], lambda data: agent.sign(self.blobs["rsa"], data + b".", b"rsa-sha2-512"))
        await self.serve(lambda it: it.kind == WantedKind.KEY)
        with self.assertRaises(PermissionDenied):
            await self.connect(agent=False, offers=[lying])

    async def test_a_key_that_does_not_sign(self):
        """The next one is tried."""
        self.add("ed25519")

        def fails(data):
            raise OSError("the token is not there")

        async def slow(data):
            await asyncio.sleep(0.2)
            return Agent(self.socket).sign(self.blobs["ed25519"], data, b"ssh-ed25519")

        await self.serve(lambda it: it.kind == WantedKind.KEY)
        offers = [
            Identity(b"ecdsa-sha2-nistp256", self.blobs["ecdsa"], fails),
            Identity(b"rsa-sha2-512", self.blobs["rsa"], lambda _: b""),
            Identity(b"rsa-sha2-512", self.blobs["rsa"], lambda _: bytes(4097)),
            Identity(b"x" * 40000, b"too long", fails),
            Identity(b"ssh-ed25519", self.blobs["ed25519"], slow),
        ]
        async with await self.connect(agent=False, offers=offers) as connection:
            self.assertEqual(base64.b64decode((await connection.run("x")).stderr), self.blobs["ed25519"])

    async def test_the_password_comes_after_the_agent(self):
        self.add(*KINDS)
        await self.serve(lambda it: it.password == b"word")
        async with await self.connect(password="word") as connection:
            self.assertEqual((await connection.run("x")).stdout, b"me")

    def sshd(self, *lines):
        port = socket.socket()
        port.bind(("127.0.0.1", 0))
        self.port = port.getsockname()[1]
        port.close()
        settings = [f"HostKey {self.folder}/{it}" for it in ("host", "rsa", "ecdsa")]
        settings += [f"AuthorizedKeysFile {self.folder}/authorized", "UsePAM no", "StrictModes no", "PermitRootLogin yes", "PidFile none", *lines]
        (self.folder / "config").write_text("\n".join([*settings, f"ListenAddress 127.0.0.1:{self.port}", ""]))
        os.makedirs("/run/sshd", exist_ok=True)
        server = subprocess.Popen([SSHD, "-D", "-e", "-f", self.folder / "config"], stderr=subprocess.DEVNULL)
        self.addCleanup(server.wait)
        self.addCleanup(server.send_signal, signal.SIGTERM)
        for _ in range(100):
            with socket.socket() as there:
                if not there.connect_ex(("127.0.0.1", self.port)):
                    return
            time.sleep(0.05)

    @unittest.skipUnless(os.path.exists(SSHD) and os.getuid() == 0, "SKIPPED: logins at OpenSSH's server, for it is not there or this is not root")
    async def test_at_openssh(self):
        for kind in KINDS:
            (self.folder / "authorized").write_bytes((self.folder / f"{kind}.pub").read_bytes())
            self.sshd()
            self.add(*KINDS)
            async with await self.connect(host_key=self.blobs["host"][-32:], user=getpass.getuser()) as connection:
                self.assertEqual((await connection.run("echo $((6 * 7))")).stdout, b"42\n", kind)

    @unittest.skipUnless(os.path.exists(SSHD) and os.getuid() == 0, "SKIPPED: host keys of OpenSSH's server, for it is not there or this is not root")
    async def test_host_keys_of_openssh(self):
        if not signatures.IS_THERE:
            self.skipTest("SKIPPED: signatures are judged by cryptography, which is not installed")
        (self.folder / "authorized").write_bytes((self.folder / "ed25519.pub").read_bytes())
        self.sshd()
        self.add("ed25519")
        for algorithm, kind in ((b"rsa-sha2-512", "rsa"), (b"rsa-sha2-256", "rsa"), (b"ecdsa-sha2-nistp256", "ecdsa")):
            asked = []

            def trust(wanted):
                asked.append(wanted)
                return wanted.key == self.blobs[kind]

            words = {"host_key": [], "user": getpass.getuser(), "trust": trust, "host_algorithms": [algorithm]}
            async with await self.connect(**words) as connection:
                self.assertEqual((await connection.run("echo it")).stdout, b"it\n")
            self.assertEqual([(it.kind, it.algorithm) for it in asked], [(WantedKind.HOST_KEY, algorithm)])
            with self.assertRaises(ConnectionError):
                await self.connect(**{**words, "verify": lambda _: False})
            with self.assertRaises(ConnectionError):
                await self.connect(**{**words, "trust": lambda _: False})

    @unittest.skipUnless(shutil.which("ssh"), "SKIPPED: OpenSSH's client, for it is not there")
    async def test_openssh_logs_in(self):
        if not signatures.IS_THERE:
            self.skipTest("SKIPPED: signatures are judged by cryptography, which is not installed")
        await self.serve(lambda it: it.kind == WantedKind.KEY and it.key in self.blobs.values())
        words = ["ssh", "-F", "none", "-p", str(self.port), "-o", "StrictHostKeyChecking=no", "-o", "UserKnownHostsFile=/dev/null", "-o", "BatchMode=yes"]
        for kind in KINDS:
            ssh = await asyncio.create_subprocess_exec(
                *words, "-o", "IdentitiesOnly=yes", "-i", self.folder / kind, "me@127.0.0.1", "x", stdout=subprocess.PIPE, stderr=subprocess.PIPE
            )
            out, err = await asyncio.wait_for(ssh.communicate(), 30)
            self.assertEqual((ssh.returncode, out, base64.b64decode(err.split()[-1])), (0, b"me", self.blobs[kind]), err)
