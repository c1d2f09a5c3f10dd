"""The tester's own end of a session: it does what it is told, also where that is wrong. It is not proved."""

import hashlib
import os
import time

from .links import Closed, Late
from .suites import SUITES, Clear, agreed, is_signed
from .words import mpint, number_at, string, strings, uint32

METHODS = b"curve25519-sha256,curve25519-sha256@libssh.org"
STRICT = {"client": b"kex-strict-c-v00@openssh.com", "server": b"kex-strict-s-v00@openssh.com"}
OTHER = {"client": "server", "server": "client"}
DISCONNECT, KEXINIT, NEWKEYS, INIT, REPLY = 1, 20, 21, 30, 31


class Wire:
    """Lines and packets. `log` has each payload that came, `transcript` rows of the direction, the number, whether keys were in force, the
    payload, and how it was changed on purpose. `heard` calls a function with each payload of a number. After `deadline` nothing is waited
    for."""

    def __init__(self, link, timeout):
        self.link, self.timeout = link, timeout
        self.out = self.into = Clear()
        self.number_out = self.number_in = 0
        self.log, self.transcript, self.heard = [], [], {}
        self.line, self.peer_line = b"SSH-2.0-probe", None
        self._buffer, self._limit, self.deadline = b"", 0.0, float("inf")

    def write(self, data):
        """Any bytes."""
        self.link.write(data)

    def read(self, count):
        """So many bytes, by the time limit of the call that waits."""
        while len(self._buffer) < count:
            if time.monotonic() > self.deadline:
                raise Late("the time of the probe is over")
            self._buffer += self.link.read(max(0.01, self._limit - time.monotonic()))
        data, self._buffer = self._buffer[:count], self._buffer[count:]
        return data

    def _body(self, payload, padding=None, padding_length=None, length=None):
        """A packet before it is sealed. Without words its padding is the least, and its lengths are right."""
        if padding is None:
            padding = self.out.block - (len(payload) + 1 + self.out.over) % self.out.block
            padding += self.out.block if padding < 4 else 0
        body = bytes([padding if padding_length is None else padding_length]) + payload + os.urandom(padding)
        return uint32(len(body) if length is None else length) + body

    def packed(self, payload, flip=None, **how):
        """The bytes of the next packet, which counts as sent. `flip` is the place of a byte whose lowest bit is changed."""
        changes = " ".join(f"{name}={value}" for name, value in [("flip", flip), *how.items()] if value is not None)
        self.transcript.append(("sends", self.number_out, not isinstance(self.out, Clear), payload, changes))
        packet = bytearray(self.out.seal(self._body(payload, **how), self.number_out))
        self.number_out = (self.number_out + 1) % 2**32
        if flip is not None:
            packet[flip] ^= 1
        return bytes(packet)

    def send(self, payload, **how):
        self.write(self.packed(payload, **how))

    def send_all(self, payloads):
        """Several packets in one write."""
        self.write(b"".join([self.packed(it) for it in payloads]))

    def receive(self, timeout=None):
        """One payload. A DISCONNECT is `Closed`."""
        self._limit = min(time.monotonic() + (timeout or self.timeout), self.deadline)
        sealed, number = not isinstance(self.into, Clear), self.number_in
        body = self.into.open(self.read, number)
        self.number_in = (number + 1) % 2**32
        payload = body[1 : len(body) - body[0]]
        self.log.append(payload)
        self.transcript.append(("gets", number, sealed, payload, ""))
        if payload[:1] == bytes([DISCONNECT]):
            reason = strings(payload, 5, 1)[0][0].decode("latin1")[:60]
            raise Closed(f"DISCONNECT {number_at(payload, 1)} {reason}")
        self.noticed(payload)
        self.heard.get(payload[0], lambda _: None)(payload)
        return payload

    def noticed(self, payload):
        """Is called with each payload."""

    def until(self, *numbers, timeout=None, test=None):
        """The next payload of one of these numbers."""
        while True:
            payload = self.receive(timeout)
            if payload[0] in numbers and (test is None or test(payload)):
                return payload

    def say_line(self):
        self.write(self.line + b"\r\n")

    def hear_line(self):
        """Takes lines up to the version line."""
        self._limit = time.monotonic() + self.timeout
        while self.peer_line is None:
            line = b""
            while not line.endswith(b"\n"):
                line += self.read(1)
                if len(line) > 9000:
                    raise Closed("a line without end")
            if line.startswith(b"SSH-"):
                self.peer_line = line.rstrip(b"\r\n")


class Tester(Wire):
    """Wire, and the exchange of keys step by step. `role` is the tester's own. `faults` are what a probe saw that needs no oracle, pairs of
    a kind and words."""

    def __init__(self, link, role, target, timeout):
        super().__init__(link, timeout)
        self.role, self.target = role, target
        self.cipher, self.host_key = target.cipher, target.host_key
        self.offers_strict, self.is_strict, self.session_id = True, False, None
        self.mine = self.theirs = self.secret = None
        self.is_exchanging = self.peer_is_exchanging = False
        self.next_out = self.next_into = None
        self.channel, self.window, self.most = None, 0, 0
        self.asked = None
        self.note, self.faults = "", []

    def noticed(self, payload):
        number = payload[0]
        if self.peer_is_exchanging and number not in (1, 2, 3, 4, KEXINIT, NEWKEYS) and not 30 <= number <= 49:
            self.faults.append(("packet within an exchange", f"sent {number} between its KEXINIT and its NEWKEYS"))
        if number in (KEXINIT, NEWKEYS):
            self.peer_is_exchanging = number == KEXINIT

    def kexinit(self, methods=METHODS, follows=0, reserved=0, marker=True, cipher=None, more=b""):
        """A KEXINIT of this end, with what is asked to be wrong in it."""
        if self.offers_strict and marker:
            methods += b"," + STRICT[self.role]
        ciphers = self.cipher if cipher is None else cipher
        lists = [methods, b"ssh-ed25519", ciphers, ciphers, b"hmac-sha2-256", b"hmac-sha2-256", b"none", b"none", b"", b""]
        return b"\x14" + os.urandom(16) + b"".join(map(string, lists)) + bytes([follows]) + uint32(reserved) + more

    def send_kexinit(self, payload=None, **how):
        self.mine, self.is_exchanging = payload or self.kexinit(), True
        self.send(self.mine, **how)

    def take_kexinit(self):
        self.theirs = self.until(KEXINIT)
        if self.session_id is None:
            methods = strings(self.theirs, 17, 1)[0][0].split(b",")
            self.is_strict = self.offers_strict and STRICT[OTHER[self.role]] in methods

    def begin(self):
        """Version lines and KEXINITs of both sides."""
        self.say_line()
        self.hear_line()
        self.send_kexinit()
        self.take_kexinit()

    def send_share(self):
        self.secret = os.urandom(32)
        self.send(b"\x1e" + string(agreed(self.secret)))

    def derived(self, host_key, client_share, server_share, shared):
        """The hash of the exchange; the keys of both directions are ready to come into force."""
        ends = [(self.line, self.mine), (self.peer_line, self.theirs)]
        (line, kexinit), (peer_line, peer_kexinit) = ends if self.role == "client" else reversed(ends)
        parts = map(string, (line, peer_line, kexinit, peer_kexinit, host_key, client_share, server_share))
        digest = hashlib.sha256(b"".join(parts) + mpint(shared)).digest()
        self.session_id = self.session_id or digest

        def key(letter, count):
            made = b""
            while len(made) < count:
                made += hashlib.sha256(mpint(shared) + digest + (made or letter + self.session_id)).digest()
            return made[:count]

        suite = SUITES[self.cipher]
        size, nonce, mac = suite.sizes
        client = suite(key(b"C", size), key(b"A", nonce), key(b"E", mac))
        server = suite(key(b"D", size), key(b"B", nonce), key(b"F", mac))
        self.next_out, self.next_into = (client, server) if self.role == "client" else (server, client)
        return digest

    def take_reply(self):
        """Client: takes REPLY and NEWKEYS. What the peer sends then is under the new keys."""
        (host_key, share, signature), _ = strings(self.until(REPLY), 1, 3)
        digest = self.derived(host_key, agreed(self.secret), share, agreed(self.secret, share))
        if self.link.is_real and not is_signed(strings(host_key, 0, 2)[0][1], digest, strings(signature, 0, 2)[0][1]):
            self.faults.append(("signature of the host", "the signature of the host is not one over this exchange"))
        self.take_newkeys()

    def take_newkeys(self):
        self.until(NEWKEYS)
        self.into, self.number_in = self.next_into, 0 if self.is_strict else self.number_in

    def send_newkeys(self, more=b""):
        self.send(b"\x15" + more)
        self.turn_out()

    def turn_out(self):
        """The new keys are in force for what is sent."""
        self.out, self.number_out, self.is_exchanging = self.next_out, 0 if self.is_strict else self.number_out, False

    def host_key_blob(self):
        return string(b"ssh-ed25519") + string(self.host_key.public)

    def answer_share(self, signed=None):
        """Server: takes the share and sends REPLY. `signed` makes another signature of the hash."""
        (share,), _ = strings(self.until(INIT), 1, 1)
        self.secret = os.urandom(32)
        mine, blob = agreed(self.secret), self.host_key_blob()
        digest = self.derived(blob, share, mine, agreed(self.secret, share))
        signature = string(b"ssh-ed25519") + string(self.host_key.sign(digest)) if signed is None else signed(digest)
        self.send(b"\x1f" + string(blob) + string(mine) + string(signature))

    def exchange(self):
        """A whole exchange, begun by this end if none is under way."""
        if not self.is_exchanging:
            self.send_kexinit()
            self.take_kexinit()
        if self.role == "client":
            self.send_share()
            self.take_reply()
            self.send_newkeys()
        else:
            self.answer_share()
            self.send_newkeys()
            self.take_newkeys()
