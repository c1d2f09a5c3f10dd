"""dvsshd and dvssh with peers that send what they should not. The bytes are drawn by a seed, so that a failure comes again."""

import random
import socket
import subprocess
import threading
import time
import unittest
from pathlib import Path

from tests.common import DVSSH, Live, free_port

COUNT = 200


def resident(pid):
    """The resident set of a process, in KiB."""
    return int(next(it for it in Path(f"/proc/{pid}/status").read_text().splitlines() if it.startswith("VmRSS")).split()[1])


def recorded(port, words):
    """What a client sends, and what the server answers, in a whole session: two lists of pieces."""
    there, back = [], []
    listener = socket.create_server(("127.0.0.1", 0))
    listener.settimeout(20)

    def carry(source, to, kept):
        while True:
            try:
                piece = source.recv(65536)
            except OSError:
                break
            if not piece:
                break
            kept.append(piece)
            to.sendall(piece)
        try:
            to.shutdown(socket.SHUT_WR)
        except OSError:
            pass

    client = subprocess.Popen([*words, str(listener.getsockname()[1]), "127.0.0.1", "true"], stdin=subprocess.DEVNULL, stderr=subprocess.DEVNULL)
    one, _ = listener.accept()
    two = socket.create_connection(("127.0.0.1", port))
    both = [threading.Thread(target=carry, args=it) for it in ((one, two, there), (two, one, back))]
    for it in both:
        it.start()
    client.wait(30)
    for it in both:
        it.join(30)
    for it in (one, two, listener):
        it.close()
    return b"".join(there), b"".join(back)


def changed(draw, whole):
    """A stream with a few of its bytes changed, left out, put in, or all of it cut."""
    body = bytearray(whole)
    for _ in range(draw.randint(1, 4)):
        at = draw.randrange(len(body))
        how = draw.randrange(4)
        if how == 0:
            body[at] ^= 1 << draw.randrange(8)
        elif how == 1:
            del body[at : at + draw.randint(1, 40)]
        elif how == 2:
            body[at:at] = draw.randbytes(draw.randint(1, 200))
        else:
            del body[max(at, 1) :]
        if not body:
            body = bytearray(b"x")
    return bytes(body)


class Hostile(Live):
    def streams(self):
        draw = random.Random(1)
        there, _ = recorded(self.port, [DVSSH, "-i", "user", "-o", "UserKnownHostsFile=known", "-p"])
        self.assertTrue(there.startswith(b"SSH-2.0-"))
        yield b"\n" * 100_000
        yield b"SSH-2.0-" + b"x" * 300 + b"\r\n"
        yield b"SSH-2.0-x\r\n" + b"\xff" * 40_000
        yield b"SSH-2.0-x\r\n" + b"\0" * 40_000
        yield b"GET / HTTP/1.1\r\n\r\n"
        for _ in range(COUNT):
            yield changed(draw, there)
            yield b"SSH-2.0-x\r\n" + draw.randbytes(draw.randint(1, 3000))

    def test_a_server_among_hostile_clients(self):
        server = self.servers[0].pid
        before = None
        for number, stream in enumerate(self.streams()):
            with socket.create_connection(("127.0.0.1", self.port)) as peer:
                peer.settimeout(10)
                try:
                    peer.sendall(stream)
                    peer.shutdown(socket.SHUT_WR)
                    while peer.recv(65536):
                        pass
                except OSError:
                    pass
            if number == 50:
                before = resident(server)
        self.assertIsNone(self.servers[0].poll())
        self.assertEqual(self.client(self.at, "echo alive")[:2], (0, b"alive\n"))
        self.assertLess(resident(server), before + 4096)

    def test_a_client_of_hostile_servers(self):
        draw = random.Random(2)
        _, back = recorded(self.port, [DVSSH, "-i", "user", "-o", "UserKnownHostsFile=known", "-p"])
        streams = [b"\n" * 10_000, b"SSH-2.0-" + b"x" * 300 + b"\r\n", b"banner\r\n" * 2000, b"SSH-2.0-x\r\n" + b"\xff" * 40_000]
        streams += [changed(draw, back) for _ in range(40)]
        listener = socket.create_server(("127.0.0.1", free_port()))
        self.addCleanup(listener.close)
        port = str(listener.getsockname()[1])
        for stream in streams:
            words = [DVSSH, "-i", "user", "-o", "UserKnownHostsFile=known", "-o", "BatchMode=yes", "-p", port, "127.0.0.1", "true"]
            client = subprocess.Popen(words, stdin=subprocess.DEVNULL, stdout=subprocess.PIPE, stderr=subprocess.PIPE)
            with listener.accept()[0] as peer:
                try:
                    peer.sendall(stream)
                    peer.shutdown(socket.SHUT_WR)
                    peer.settimeout(10)
                    while peer.recv(65536):
                        pass
                except OSError:
                    pass
            begun = time.monotonic()
            out, error = client.communicate(timeout=30)
            self.assertEqual((client.returncode, out), (255, b""), (stream[:80], error))
            self.assertTrue(error.startswith(b"dvssh: ") and b"panic" not in error, error)
            self.assertLess(time.monotonic() - begun, 10)


if __name__ == "__main__":
    unittest.main()
