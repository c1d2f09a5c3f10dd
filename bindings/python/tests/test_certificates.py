"""Certificates of users, which the library does not read: the program does, and OpenSSH's client logs in by them."""

import asyncio
import base64
import pathlib
import shutil
import subprocess
import tempfile
import time
import unittest

from .common import HOST_SEED

from divrelca import WantedKind, signatures
from divrelca.aio import serve

if signatures.IS_THERE:
    from cryptography.exceptions import InvalidSignature, UnsupportedAlgorithm
    from cryptography.hazmat.primitives import serialization

SUFFIX = b"-cert-v01@openssh.com"
ALGORITHMS = {"ed25519": b"ssh-ed25519" + SUFFIX, "rsa": b"rsa-sha2-512" + SUFFIX, "ecdsa": b"ecdsa-sha2-nistp256" + SUFFIX}


def blob_of(public):
    form = public.public_bytes(serialization.Encoding.OpenSSH, serialization.PublicFormat.OpenSSH)
    return base64.b64decode(form.split()[1])


class Authority:
    """Whoever has a certificate by this key is let in, if it is for this user and of today (OpenSSH's PROTOCOL.certkeys)."""

    def __init__(self, blob):
        self.blob = blob

    def certificate(self, wanted):
        name = wanted.algorithm.replace(b"rsa-sha2-512", b"ssh-rsa")
        if not name.endswith(SUFFIX):
            return None
        try:
            found = serialization.load_ssh_public_identity(name + b" " + base64.b64encode(wanted.key))
            found.verify_cert_signature()
        except (InvalidSignature, UnsupportedAlgorithm, ValueError):
            return None
        is_of_use = (
            blob_of(found.signature_key()) == self.blob
            and found.type == serialization.SSHCertificateType.USER
            and wanted.user in found.valid_principals
            and found.valid_after <= time.time() < found.valid_before
            and not found.critical_options
        )
        return found if is_of_use else None

    def authorize(self, wanted):
        return wanted.kind == WantedKind.KEY and self.certificate(wanted) is not None

    def verify(self, wanted):
        found = self.certificate(wanted)
        algorithm = wanted.algorithm.removesuffix(SUFFIX)
        return found is not None and signatures.verify(algorithm, blob_of(found.public_key()), wanted.text, wanted.signature)


@unittest.skipUnless(signatures.IS_THERE, "SKIPPED: certificates are read by cryptography, which is not installed")
@unittest.skipUnless(shutil.which("ssh") and shutil.which("ssh-keygen"), "SKIPPED: certificates of OpenSSH, for it is not there")
class Certificates(unittest.IsolatedAsyncioTestCase):
    async def asyncSetUp(self):
        room = tempfile.TemporaryDirectory()
        self.addCleanup(room.cleanup)
        self.folder = pathlib.Path(room.name)
        self.keygen("-t", "ed25519", "-N", "", "-f", self.folder / "authority")
        authority = Authority(base64.b64decode((self.folder / "authority.pub").read_text().split()[1]))
        self.asked = []

        async def handle(process):
            process.stdout.write(process.user + b" in")

        def authorize(wanted):
            self.asked.append(wanted.algorithm)
            return authority.authorize(wanted)

        # OpenSSH's client looks for the name of the signature too, where the key is of RSA
        announced = b",".join([*ALGORITHMS.values(), b"rsa-sha2-512"])
        self.server = await serve(
            handle, "127.0.0.1", 0, host_seed=HOST_SEED, authorize=authorize, verify=authority.verify, user_algorithms=announced
        )
        self.port = self.server.sockets[0].getsockname()[1]

    async def asyncTearDown(self):
        self.server.close()
        await self.server.wait_closed()

    def keygen(self, *words):
        subprocess.run(["ssh-keygen", "-q", *words], check=True, stdout=subprocess.DEVNULL, stderr=subprocess.DEVNULL)

    def certified(self, name, kind="ed25519", by="authority", principals="me", *words):
        self.keygen("-t", kind, "-N", "", "-f", self.folder / name)
        self.keygen("-s", self.folder / by, "-I", name, "-n", principals, *words, self.folder / f"{name}.pub")

    async def login(self, name):
        words = ["ssh", "-F", "none", "-p", str(self.port), "-o", "StrictHostKeyChecking=no", "-o", "UserKnownHostsFile=/dev/null", "-o", "BatchMode=yes"]
        words += ["-o", "IdentitiesOnly=yes", "-o", "IdentityAgent=none", "-i", str(self.folder / name)]
        ssh = await asyncio.create_subprocess_exec(*words, "me@127.0.0.1", "x", stdout=subprocess.PIPE, stderr=subprocess.PIPE)
        out, err = await asyncio.wait_for(ssh.communicate(), 30)
        return out if ssh.returncode == 0 else err.split(b": ")[-1].strip()

    async def test_a_certificate_lets_in(self):
        for kind, algorithm in ALGORITHMS.items():
            self.certified(kind, kind)
            self.assertEqual(await self.login(kind), b"me in", kind)
            self.assertIn(algorithm, self.asked)

    async def test_another_certificate_does_not(self):
        self.keygen("-t", "ed25519", "-N", "", "-f", self.folder / "stranger")
        self.certified("by_a_stranger", by="stranger")
        self.certified("of_somebody_else", principals="you")
        self.certified("of_the_past", "ed25519", "authority", "me", "-V", "20200101:20200201")
        self.certified("for_one_command", "ed25519", "authority", "me", "-O", "force-command=true")
        self.certified("of_a_host", "ed25519", "authority", "me", "-h")
        for name in ("by_a_stranger", "of_somebody_else", "of_the_past", "for_one_command", "of_a_host"):
            self.assertIn(b"Permission denied", await self.login(name), name)
