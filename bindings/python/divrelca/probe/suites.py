"""The ciphers of packets and the keys of the tester: by the package `cryptography` where it is installed, else in Python. AES-128-GCM and
AES-128-CTR with HMAC-SHA-256 are always there; ChaCha20-Poly1305, which hides the lengths of packets, is there with that package alone."""

import hashlib
import hmac
import struct

from .. import keys
from . import aes, curves
from .links import Closed
from .words import number_at, uint32

try:
    from cryptography.exceptions import InvalidTag
    from cryptography.hazmat.primitives.asymmetric import ed25519, x25519
    from cryptography.hazmat.primitives.ciphers import Cipher, algorithms, modes
    from cryptography.hazmat.primitives.ciphers.aead import AESGCM
    from cryptography.hazmat.primitives.poly1305 import Poly1305

    IS_FAST = True
except ImportError:
    IS_FAST = False

LONGEST = 300000


class Key:
    """A key of ssh-ed25519 by its seed."""

    def __init__(self, seed):
        self.seed, self.public = seed, keys.public_key(seed)

    def sign(self, message):
        """The signature of 64 bytes."""
        if IS_FAST:
            return ed25519.Ed25519PrivateKey.from_private_bytes(self.seed).sign(message)
        return curves.sign(self.seed, self.public, message)


def is_signed(public, message, signature):
    """Whether a signature is by a key."""
    if not IS_FAST:
        return curves.is_signed(public, message, signature)
    try:
        ed25519.Ed25519PublicKey.from_public_bytes(public).verify(signature, message)
        return True
    except Exception:  # a key or a signature that is none counts as a wrong one
        return False


def agreed(secret, point=curves.NINE):
    """The shared secret of X25519, or the share. ValueError where it would be 0."""
    if IS_FAST:
        return x25519.X25519PrivateKey.from_private_bytes(secret).exchange(x25519.X25519PublicKey.from_public_bytes(point))
    if len(point) != 32:
        raise ValueError("a share has 32 bytes")
    shared = curves.x25519(secret, point)
    if not any(shared):
        raise ValueError("a share of small order")
    return shared


class Clear:
    """No keys yet."""

    block, over = 8, 4

    def seal(self, body, _):
        return body

    def open(self, read, _):
        length = number_at(read(4), 0)
        if length > LONGEST:
            raise Closed(f"a length of {length}")
        return read(length)


class Gcm:
    """aes128-gcm@openssh.com (RFC 5647)."""

    block, over = 16, 0
    sizes = 16, 12, 0

    def __init__(self, key, nonce, _):
        self._gcm = AESGCM(key) if IS_FAST else aes.Gcm(key)
        self._fixed, self._count = nonce[:4], int.from_bytes(nonce[4:], "big")

    def _nonce(self):
        nonce = self._fixed + struct.pack(">Q", self._count)
        self._count = (self._count + 1) % 2**64
        return nonce

    def seal(self, body, _):
        if IS_FAST:
            return body[:4] + self._gcm.encrypt(self._nonce(), body[4:], body[:4])
        return body[:4] + self._gcm.seal(self._nonce(), body[4:], body[:4])

    def open(self, read, _):
        head = read(4)
        sealed = read(number_at(head, 0) + 16)
        try:
            text = self._gcm.decrypt(self._nonce(), sealed, head) if IS_FAST else self._gcm.open(self._nonce(), sealed, head)
        except InvalidTag if IS_FAST else ():
            text = None
        if text is None:
            raise Closed("a bad tag of the peer")
        return text


class Ctr:
    """aes128-ctr with hmac-sha2-256 (RFC 4344, RFC 6668)."""

    block, over = 16, 4
    sizes = 16, 16, 32

    def __init__(self, key, counter, mac_key):
        self._mac_key, self._left = mac_key, b""
        self._fast = Cipher(algorithms.AES(key), modes.CTR(counter)).encryptor() if IS_FAST else None
        self._aes, self._counter = None if IS_FAST else aes.Aes(key), counter

    def _changed(self, data):
        if self._fast:
            return self._fast.update(data)
        stream = self._aes.stream(self._counter, len(data))
        self._counter = ((int.from_bytes(self._counter, "big") + len(data) // 16) % 2**128).to_bytes(16, "big")
        return aes.xor(data, stream)

    def _tag(self, number, body):
        return hmac.new(self._mac_key, uint32(number) + body, hashlib.sha256).digest()

    def seal(self, body, number):
        return self._changed(body) + self._tag(number, body)

    def open(self, read, number):
        first = self._changed(read(16))
        length = number_at(first, 0)
        if length > LONGEST:
            raise Closed(f"a length of {length}")
        body = first + self._changed(read(length - 12))
        if read(32) != self._tag(number, body):
            raise Closed("a bad tag of the peer")
        return body[4:]


class ChaCha:
    """chacha20-poly1305@openssh.com."""

    block, over = 8, 0
    sizes = 64, 0, 0

    def __init__(self, key, _, __):
        self._text_key, self._length_key = key[:32], key[32:]

    def _stream(self, key, number, counter):
        return Cipher(algorithms.ChaCha20(key, struct.pack("<Q", counter) + struct.pack(">Q", number)), None).encryptor()

    def _tag(self, number, sealed):
        return Poly1305.generate_tag(self._stream(self._text_key, number, 0).update(bytes(32)), sealed)

    def seal(self, body, number):
        sealed = self._stream(self._length_key, number, 0).update(body[:4]) + self._stream(self._text_key, number, 1).update(body[4:])
        return sealed + self._tag(number, sealed)

    def open(self, read, number):
        head = read(4)
        sealed = read(number_at(self._stream(self._length_key, number, 0).update(head), 0))
        if read(16) != self._tag(number, head + sealed):
            raise Closed("a bad tag of the peer")
        return self._stream(self._text_key, number, 1).update(sealed)


GCM, CTR, CHACHA = b"aes128-gcm@openssh.com", b"aes128-ctr", b"chacha20-poly1305@openssh.com"
SUITES = {GCM: Gcm, CTR: Ctr, **({CHACHA: ChaCha} if IS_FAST else {})}
