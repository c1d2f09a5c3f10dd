"""The tester: its oracle, its crypto, its reports, and whether it finds what is planted."""

import contextlib
import importlib.util
import io
import json
import os
import pathlib
import shlex
import socket
import sys
import tempfile
import threading
import unittest
import xml.etree.ElementTree

from . import common  # noqa: F401 (skips where the library is missing)
from .planted import BUGS, Planted

from divrelca import public_key
from divrelca.probe import ROLES, SERVER, Key, Settings, Target, aes, curves, machine, page, report, run
from divrelca.probe.__main__ import main
from divrelca.probe.judgement import HERE, LEVELS, numbers
from divrelca.probe.links import Closed, SocketLink
from divrelca.probe.peers import Server, crash_of
from divrelca.probe.run import judged, oracle_results

KEYS = [Key(bytes([it] * 32)) for it in (1, 2, 3)]
TARGET = Target(b"prober", *KEYS, by_password=True, password=b"secret word", hold=b"hold")
ALLOWED = ("equal", "allowed", "untried")
# Without it each packet is sealed in Python, which takes ten times as long.
QUICK = importlib.util.find_spec("cryptography") is not None


class PlantedPeer:
    """Sessions with a planted server, each in a thread of its own."""

    def __init__(self, bug):
        self.bug = bug

    @contextlib.contextmanager
    def session(self):
        here, there = socket.socketpair()
        thread = threading.Thread(target=Planted(SocketLink(there), TARGET, self.bug).serve, daemon=True)
        thread.start()
        try:
            yield SocketLink(here), lambda: None
        finally:
            here.close()
            thread.join(0.1)


def probed(bug, only):
    """The levels of the probes that have a text, by their titles."""
    found = run("planted", SERVER, TARGET, PlantedPeer(bug), Settings(2, 2.0), only)
    return {it.probe.title: it for it in found.verdicts}


class Oracle(unittest.TestCase):
    """The proved ends alone."""

    @classmethod
    def setUpClass(cls):
        cls.found = {}
        for role in ROLES.values():
            probes = role.probes()
            cls.found[role.name] = (probes, oracle_results(role, TARGET, probes))

    def test_sizes(self):
        sizes = {name: (len(role.states), len(role.messages), len(role.specials)) for name, role in ROLES.items()}
        self.assertEqual(sizes, {"server": (16, 44, 197), "client": (13, 44, 86)})

    def test_signs_of_life(self):
        for probes, results in self.found.values():
            for probe, result in zip(probes, results):
                if probe.group == "nothing":
                    self.assertEqual(result.end, "goes on", probe.title)
                self.assertIn(result.end, ("goes on", "ended"), (probe.title, result.why))
                self.assertEqual(result.faults, (), probe.title)

    def test_each_refusal_has_a_section_or_a_row(self):
        for name, (probes, results) in self.found.items():
            judge, _ = judged(ROLES[name], probes, results, results)
            for probe, result in zip(probes, results):
                if probe.group != "nothing":
                    section = judge.section(probe, result).section
                    self.assertRegex(section, r"^(own|strict|\d{4}( [\d.]+)?(, \d{4}( [\d.]+)?)*)$", (probe.title, result.refused))

    def test_the_same_twice(self):
        shown = lambda result: (result.end, result.got, result.note, result.faults, result.refused)  # noqa: E731
        for name, (probes, results) in self.found.items():
            some = slice(None, None, 5)
            again = oracle_results(ROLES[name], TARGET, probes[some])
            self.assertEqual([shown(it) for it in results[some]], [shown(it) for it in again])


class Judgement(unittest.TestCase):
    """The table of what differences mean."""

    def test_rows(self):
        rows = [line.split("\t") for line in (HERE / "judgement.tsv").read_text().splitlines()[1:]]
        specials = {(role.name, it.group, it.name) for role in ROLES.values() for it in role.specials}
        for row in rows:
            self.assertEqual(len(row), 8, row)
            self.assertIn(row[0], ("server", "client", "both"))
            self.assertIn(row[3], ("strict", "plain", "any"))
            self.assertIn(row[5], [*LEVELS, "-"])
            self.assertRegex(row[6], r"^(-|own|strict|\d{4}( [\d.]+)?(, \d{4}( [\d.]+)?)*)$", row)
        named = {(row[0], row[1], row[2]) for row in rows}
        self.assertEqual(specials - named, set(), "each special probe has a row")

    def test_numbers(self):
        self.assertEqual(numbers("2 to 4 7"), {2, 3, 4, 7})
        self.assertIn(19, numbers("unknown"))
        self.assertEqual(len(numbers("all")), 256)


@unittest.skipUnless(QUICK, "the score of planted bugs wants the package cryptography")
class Planting(unittest.TestCase):
    """Each planted bug is found, or listed as not to be seen from outside."""

    def test_score(self):
        texts = sorted({text for _, text in BUGS.values() if text})
        plain = {text: probed(None, text) for text in texts}
        for text, found in plain.items():
            self.assertTrue(found, text)
            for title, it in found.items():
                self.assertIn(it.level, ALLOWED, (title, it.got, it.wanted, it.why))
        missed = [bug for bug, (_, text) in BUGS.items() if text and all(it.level in ALLOWED for it in probed(bug, text).values())]
        self.assertEqual(missed, [])

    def test_two_runs(self):
        shown = lambda found: {title: (it.level, it.got) for title, it in found.items()}  # noqa: E731
        self.assertEqual(shown(probed(None, "authed")), shown(probed(None, "authed")))


class Reports(unittest.TestCase):
    """The command, its reports and its exit statuses, with planted servers on loopback."""

    def command(self, bug, *words):
        """The exit status and what was printed, of the command `server` with these words."""
        with socket.create_server(("127.0.0.1", 0)) as listener, tempfile.TemporaryDirectory() as folder:
            threading.Thread(target=self.serve, args=(listener, bug), daemon=True).start()
            password = pathlib.Path(folder) / "password"
            password.write_bytes(TARGET.password + b"\n")
            usual = ["server", f"127.0.0.1:{listener.getsockname()[1]}", "--user", "prober", "--hold", "hold"]
            usual += ["--password-file", str(password)]
            out, err = io.StringIO(), io.StringIO()
            with contextlib.redirect_stdout(out), contextlib.redirect_stderr(err):
                status = main([*usual, "--seconds", "1", *words])
            listener.shutdown(socket.SHUT_RDWR)
        return status, out.getvalue()

    @staticmethod
    def serve(listener, bug):
        with contextlib.suppress(OSError):
            while True:
                link = SocketLink(listener.accept()[0])
                threading.Thread(target=Planted(link, TARGET, bug).serve, daemon=True).start()

    def test_statuses(self):
        self.assertEqual(self.command(None, "--only", "authed 50")[0], 0)
        self.assertEqual(self.command("unknown_ends", "--only", "authed 79")[0], 1)
        self.assertEqual(self.command("unknown_ends", "--only", "authed 79", "--fail-on", "guard")[0], 0)
        self.assertEqual(self.command("success_of_the_client", "--only", "52 SUCCESS, then")[0], 3)
        with contextlib.redirect_stderr(io.StringIO()) as error:
            self.assertEqual(main(["server", "127.0.0.1:1", "--password-file", os.devnull, "--only", "authed 50"]), 2)
        self.assertIn("127.0.0.1 port 1", error.getvalue())

    def test_a_wrong_signature_is_a_login_passed_by(self):
        levels = {it.level for it in probed("any_signature", "signature spoilt").values()}
        self.assertEqual(levels, {"breach"})

    def test_server_that_dies(self):
        with socket.create_server(("127.0.0.1", 0)) as listener:
            port = listener.getsockname()[1]
        program = f"import os, socket; socket.create_server(('127.0.0.1', {port})).accept(); os.abort()"
        peer = Server("127.0.0.1", port, shlex.join([sys.executable, "-c", program]))
        try:
            for _ in range(2):
                with peer.session() as (link, crash):
                    self.assertRaises(Closed, link.read, 30)
                    self.assertEqual(crash(), "the server died")
        finally:
            peer.close()
        self.assertEqual([crash_of(it) for it in (-11, 139, 0, 1, -9)], ["SIGSEGV", "SIGSEGV", None, None, None])

    def test_accepted(self):
        with tempfile.TemporaryDirectory() as folder:
            file = pathlib.Path(folder) / "known"
            file.write_text("# known\nauthed | 79 unassigned\n")
            self.assertEqual(self.command("unknown_ends", "--only", "authed 79", "--accept", str(file))[0], 0)

    def test_files(self):
        with tempfile.TemporaryDirectory() as folder:
            files = {name: str(pathlib.Path(folder) / name) for name in ("html", "json", "junit")}
            words = [word for name, file in files.items() for word in (f"--{name}", file)]
            status, text = self.command("unknown_ends", "--only", "authed", *words)
            page_, object_, suite = (pathlib.Path(it).read_text() for it in files.values())
        self.assertEqual(status, 1)
        self.assertIn("must    ", text)
        self.assertNotIn("<script", page_)
        self.assertIn("prefers-color-scheme: dark", page_)
        self.check_object(json.loads(object_))
        cases = xml.etree.ElementTree.fromstring(suite).findall("testcase")
        self.assertEqual(len(cases), json.loads(object_)["counts"] and len(json.loads(object_)["probes"]))
        self.assertTrue(any(case.find("failure") is not None for case in cases))

    def check_object(self, found):
        """An object has what SCHEMA requires, and nothing else."""
        self.assertEqual(set(machine.SCHEMA["required"]), set(found))
        form = machine.SCHEMA["properties"]["probes"]["items"]
        for it in found["probes"]:
            self.assertLessEqual(set(form["required"]), set(it))
            self.assertLessEqual(set(it), set(form["properties"]))
            self.assertIn(it["level"], form["properties"]["level"]["enum"])
            self.assertTrue(all(len(pair) == 2 for pair in it["transcript"]))

    def test_show_and_list(self):
        with contextlib.redirect_stdout(io.StringIO()) as out:
            self.assertEqual(main(["list"]), 0)
        self.assertEqual(len(out.getvalue().splitlines()), sum(len(role.probes()) for role in ROLES.values()))
        found = run("planted", SERVER, TARGET, PlantedPeer(None), Settings(1, 1.0, 0), "reply 2 IGNORE")
        self.assertRegex(report.show(found), r"sends 2 clear 2 IGNORE, 6 bytes +\| sends 2 clear 2 IGNORE, 6 bytes")

    def test_text_of_a_peer_in_a_page(self):
        self.assertEqual(page.escaped("<b>\x1b[31m"), "&lt;b&gt;\ufffd[31m")


class Crypto(unittest.TestCase):
    """The tester's own ciphers and curves, by vectors of the standards."""

    def test_x25519(self):
        secret = bytes.fromhex("a546e36bf0527c9d3b16154b82465edd62144c0ac1fc5a18506a2244ba449ac4")
        point = bytes.fromhex("e6db6867583030db3594c1a424b15f7c726624ec26b3353b10a903a6d0ab1c4c")
        self.assertEqual(curves.x25519(secret, point).hex(), "c3da55379de9c6908e94ea4df28d084f32eccf03491c71f754b4075577a28552")

    def test_ed25519(self):
        seed = bytes.fromhex("4ccd089b28ff96da9db6c346ec114e0f5b8a319f35aba624da8cf6ed4fb8a6fb")
        key = public_key(seed)
        self.assertEqual(key.hex(), "3d4017c3e843895a92b70aa74d1b7ebc9c982ccf2ec4968cc0cd55f12af4660c")
        signature = curves.sign(seed, key, b"\x72")
        self.assertEqual(signature.hex()[:32], "92a009a9f0d4cab8720e820b5f642540")
        self.assertTrue(curves.is_signed(key, b"\x72", signature))
        self.assertFalse(curves.is_signed(key, b"\x73", signature))
        self.assertFalse(curves.is_signed(key, b"\x72", signature[:-1] + b"\xff"))

    def test_aes(self):
        block = aes.Aes(bytes(range(16))).block(bytes.fromhex("00112233445566778899aabbccddeeff"))
        self.assertEqual(block.hex(), "69c4e0d86a7b0430d8cdb78070b4c55a")
        counters = aes.Aes(bytes.fromhex("2b7e151628aed2a6abf7158809cf4f3c")).stream(bytes(range(0xF0, 0x100)), 20)
        self.assertEqual(counters.hex()[:32], "ec8cdf7398607cb0f2d21675ea9ea1e4")

    def test_gcm(self):
        key, nonce = bytes.fromhex("feffe9928665731c6d6a8f9467308308"), bytes.fromhex("cafebabefacedbaddecaf888")
        head = bytes.fromhex("feedfacedeadbeeffeedfacedeadbeefabaddad2")
        text = bytes.fromhex(
            "d9313225f88406e5a55909c5aff5269a86a7a9531534f7da2e4c303d8a318a721c3c0c95956809532fcf0e2449a6b525b16aedf5aa0de657ba637b39"
        )
        sealed = aes.Gcm(key).seal(nonce, text, head)
        self.assertEqual(sealed[-16:].hex(), "5bc94fbc3221a5db94fae95ae7121a47")
        self.assertEqual(aes.Gcm(key).open(nonce, sealed, head), text)
        self.assertIsNone(aes.Gcm(key).open(nonce, sealed[:-1] + b"\0", head))


if __name__ == "__main__":
    unittest.main()
