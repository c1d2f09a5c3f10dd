"""Hosts of which no key is known: asked about at a terminal, noted, or refused."""

import os
import pty
import subprocess
import unittest
from pathlib import Path

from .common import DVSSH, Live, until, waited


class Hosts(Live):
    def setUp(self):
        self.known = Path(self.id().rsplit(".", 1)[1]) / "known"
        self.name = f"[127.0.0.1]:{self.port}"

    def words_to(self, *words):
        return [DVSSH, "-i", "user", "-o", f"UserKnownHostsFile={self.known}", "-p", str(self.port), *words, self.at, "echo in"]

    def at_terminal(self, *answers, words=()):
        """What is seen of a client at a terminal that answers these, and its status."""
        pid, fd = pty.fork()
        if pid == 0:
            os.execvp(DVSSH, self.words_to(*words))
        seen = b""
        for answer in answers:
            seen += until(fd, b": " if seen else b"? ")
            os.write(fd, answer + b"\n")
        seen += until(fd, b"\r\nin\r\n", 10)
        status = waited(pid)
        os.close(fd)
        return status, seen

    def fingerprint(self):
        return subprocess.check_output(["ssh-keygen", "-l", "-f", "host.pub"], text=True).split()[1]

    def noted(self):
        kind, key = Path("host.pub").read_text().split()[:2]
        self.assertEqual(self.known.read_text(), f"{self.name} {kind} {key}\n")
        self.assertEqual(self.known.stat().st_mode & 0o777, 0o600)

    def test_yes_is_noted(self):
        status, seen = self.at_terminal(b"perhaps", b"yes")
        self.assertEqual(status, 0, seen)
        self.assertIn(self.fingerprint().encode(), seen)
        self.noted()
        # (and then it is known, to both clients)
        self.assertEqual(self.run_words(*self.words_to("-o", "StrictHostKeyChecking=yes"))[:2], (0, b"in\n"))
        openssh = ["ssh", "-F", "none", "-o", "StrictHostKeyChecking=yes", *self.words_to()[1:]]
        self.assertEqual(self.run_words(*openssh)[:2], (0, b"in\n"))

    def test_fingerprint_is_yes(self):
        status, seen = self.at_terminal(self.fingerprint().encode())
        self.assertEqual(status, 0, seen)
        self.noted()

    def test_no_and_nothing_are_no(self):
        for answers in ((b"no",), (b"",), (b"SHA256:no", b"no")):
            status, seen = self.at_terminal(*answers)
            self.assertEqual(status, 255, seen)
            self.assertNotIn(b"\nin\r\n", seen)
        self.assertFalse(self.known.exists())

    def test_nobody_is_asked_without_a_terminal(self):
        for words in ((), ("-o", "BatchMode=yes"), ("-o", "StrictHostKeyChecking=ask"), ("-o", "StrictHostKeyChecking=yes")):
            status, out, said = self.run_words(*self.words_to(*words), start_new_session=True)
            self.assertEqual((status, out), (255, b""), words)
            self.assertIn(self.name.encode(), said)
        status, seen = self.at_terminal(words=("-o", "BatchMode=yes"))
        self.assertEqual(status, 255, seen)
        self.assertFalse(self.known.exists())

    def test_accept_new(self):
        for _ in range(2):
            status, out, said = self.run_words(*self.words_to("-o", "StrictHostKeyChecking=accept-new"), start_new_session=True)
            self.assertEqual((status, out), (0, b"in\n"), said)
            self.noted()

    def test_a_key_that_is_revoked(self):
        self.known.parent.mkdir()
        for hosts in ("*", "another.example.org"):
            text = f"@revoked {hosts} {' '.join(Path('host.pub').read_text().split()[:2])}\n"
            self.known.write_text(text)
            status, out, said = self.run_words(*self.words_to("-o", "StrictHostKeyChecking=accept-new"))
            self.assertEqual((status, out, self.known.read_text()), (255, b"", text), said)
            self.assertIn(b"revoked" if hosts != "*" else self.name.encode(), said)

    def test_another_key_is_refused(self):
        self.known.parent.mkdir()
        kind, key = Path("other.pub").read_text().split()[:2]
        line = f"{self.name} {kind} {key}\n"
        self.known.write_text(line)
        for check in ("ask", "accept-new", "no", "off", "yes"):
            status, out, said = self.run_words(*self.words_to("-o", f"StrictHostKeyChecking={check}"), start_new_session=True)
            self.assertEqual((status, out), (255, b""), said)
        self.assertEqual(self.known.read_text(), line)

    def test_line_without_an_end(self):
        self.known.parent.mkdir()
        self.known.write_text("# nothing yet")
        status, _, said = self.run_words(*self.words_to("-o", "StrictHostKeyChecking=accept-new"), start_new_session=True)
        self.assertEqual(status, 0, said)
        kind, key = Path("host.pub").read_text().split()[:2]
        self.assertEqual(self.known.read_text(), f"# nothing yet\n{self.name} {kind} {key}\n")

    def test_what_cannot_be_noted_is_said(self):
        self.known.parent.mkdir()
        self.known.symlink_to("no_folder/known")
        status, out, said = self.run_words(*self.words_to("-o", "StrictHostKeyChecking=accept-new"), start_new_session=True)
        self.assertEqual((status, out), (0, b"in\n"), said)
        self.assertIn(f"{self.known}: ".encode(), said)


if __name__ == "__main__":
    unittest.main()
