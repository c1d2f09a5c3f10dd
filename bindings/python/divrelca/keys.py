"""Keys, all of ssh-ed25519, in files of OpenSSH. Texts are the bytes of a file."""

from __future__ import annotations

import ctypes
import itertools
import typing

from .codes import Code
from .errors import check
from .library import LIBRARY

KEY = ctypes.c_uint8 * 32
FORM = b"\0\0\0\x0bssh-ed25519\0\0\0\x20"


def private_key(text: bytes) -> tuple[bytes, bytes]:
    """The seed and the public key, 32 bytes each, of a private key file without a passphrase. `BadFile` where it is none."""
    seed, key, line = KEY(), KEY(), ctypes.c_size_t()
    check(LIBRARY.dv_private_key(bytes(text), len(text), seed, key, line), line.value)
    return bytes(seed), bytes(key)


def fingerprint(key: bytes) -> str:
    """What people compare of a key, which is given as it goes over the wire: "SHA256:" and the base64 of its SHA-256, as OpenSSH shows it."""
    digits = (ctypes.c_uint8 * 43)()
    LIBRARY.dv_fingerprint(bytes(key), len(key), digits)
    return "SHA256:" + bytes(digits).decode()


def to_blob(key: bytes) -> bytes:
    """A public key of 32 bytes as it goes over the wire, and as `Wanted` shows it (RFC 8709, section 4)."""
    return FORM + bytes(key)


def of_blob(blob: bytes) -> bytes | None:
    """The public key of 32 bytes that goes over the wire like this. None where it is no key of ssh-ed25519."""
    return blob[len(FORM) :] if blob.startswith(FORM) and len(blob) == len(FORM) + 32 else None


def authorized_keys(text: bytes) -> list[bytes]:
    """The public keys of a file of the form of authorized_keys. Malformed lines and lines with options let nobody in, and `skipped_users` tells them.
    `BadFile` where there is no key."""
    found: list[bytes] = []
    count = 1
    while len(found) < count:
        key, number, line = KEY(), ctypes.c_size_t(), ctypes.c_size_t()
        check(LIBRARY.dv_authorized_key(bytes(text), len(text), len(found), key, number, line), line.value)
        found.append(bytes(key))
        count = number.value
    return found


def known_host(text: bytes, host: str, port: int = 22) -> bytes:
    """The one key that a file of the form of known_hosts has for this host. Hashed names, patterns and @revoked are obeyed. A host of no bytes stands
    for any, as in a .pub file of one key. Malformed lines are passed over, and `skipped_hosts` tells them. `BadFile` where there is no such key, or more
    than one, or where a line that may revoke a key is malformed."""
    name, key, line = name_of(host, port), KEY(), ctypes.c_size_t()
    check(LIBRARY.dv_known_host(bytes(text), len(text), name, len(name), key, line), line.value)
    return bytes(key)


def known_host_keys(text: bytes, host: str, port: int = 22) -> list[bytes]:
    """All keys that such a file has for this host, at least one: a host has two while one takes the place of the other. A client takes them as its
    `host_key`, up to 16 of them. `BadFile` as `known_host`, but for more than one key."""
    found: list[bytes] = []
    name = name_of(host, port)
    while True:
        key, line = KEY(), ctypes.c_size_t()
        code = LIBRARY.dv_known_host_key(bytes(text), len(text), name, len(name), len(found), key, line)
        if found and code == Code.FILE_ANY_HOST_KEY:
            return found
        check(code, line.value)
        found.append(bytes(key))


def skipped_hosts(text: bytes, host: str, port: int = 22) -> typing.Iterator[tuple[int, Code]]:
    """The lines of known_hosts that are passed over for this host, as pairs of a number from 1 and the code of what was expected there. They come one
    by one, and each goes over the text up to its line."""
    name = name_of(host, port)
    return skipped(lambda place, line: int(LIBRARY.dv_skipped_host(bytes(text), len(text), name, len(name), place, line)))


def skipped_users(text: bytes) -> typing.Iterator[tuple[int, Code]]:
    """The same of authorized_keys."""
    return skipped(lambda place, line: int(LIBRARY.dv_skipped_user(bytes(text), len(text), place, line)))


def skipped(call: typing.Callable[[int, ctypes.c_size_t], int]) -> typing.Iterator[tuple[int, Code]]:
    for place in itertools.count():
        line = ctypes.c_size_t()
        code = call(place, line)
        if code == 0:
            return
        yield line.value, Code(code)


def name_of(host: str, port: int) -> bytes:
    return (host if port == 22 or not host else f"[{host}]:{port}").encode()


def public_key(seed: bytes) -> bytes:
    """The public key of a seed of 32 bytes. ValueError where it has another length."""
    if len(seed) != 32:
        raise ValueError("a seed has 32 bytes")
    key = KEY()
    LIBRARY.dv_public_key(KEY(*seed), key)
    return bytes(key)
