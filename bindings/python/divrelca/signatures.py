"""Signatures of algorithms that the library does not compute: those of users, of hosts and of security keys, judged by the package `cryptography`.

Texts are what the library shows: keys and signatures as they go over the wire (RFC 4253, 6.6; RFC 5656, 3.1; RFC 8332; OpenSSH's PROTOCOL.u2f)."""

from __future__ import annotations

import hashlib
import typing

from .requests import Fields

try:
    from cryptography.exceptions import InvalidSignature, UnsupportedAlgorithm
    from cryptography.hazmat.primitives import hashes
    from cryptography.hazmat.primitives.asymmetric import ec, ed25519, padding, rsa
    from cryptography.hazmat.primitives.asymmetric.utils import encode_dss_signature
except ImportError:
    IS_THERE = False
else:
    IS_THERE = True

RSA = {b"rsa-sha2-512": "SHA512", b"rsa-sha2-256": "SHA256"}
ECDSA = {b"ecdsa-sha2-nistp256": ("SECP256R1", "SHA256"), b"ecdsa-sha2-nistp384": ("SECP384R1", "SHA384"), b"ecdsa-sha2-nistp521": ("SECP521R1", "SHA512")}
SECURITY_KEYS = (b"sk-ssh-ed25519@openssh.com", b"sk-ecdsa-sha2-nistp256@openssh.com")
ALGORITHMS = (b"ssh-ed25519", *SECURITY_KEYS, *ECDSA, *RSA)
"""What a server announces whose program judges signatures by `verify`."""
LEAST_BITS = 2048
MOST_BITS = 16384
PRESENT = 1


def verify(algorithm: bytes, key: bytes, text: bytes, signature: bytes) -> bool:
    """Whether this is the signature of the text by this key, under the algorithm: RSA with SHA-2 and a modulus of 2,048 bits at least, ECDSA over the three
    curves of NIST, Ed25519, and security keys, whose user has to have touched it. False for every other algorithm, and for what is no key or no signature.
    ModuleNotFoundError where `cryptography` is not installed."""
    if not IS_THERE:
        raise ModuleNotFoundError("signatures of other algorithms than ssh-ed25519 are judged by the package cryptography, which is not installed", name="cryptography")
    judge = JUDGES.get(algorithm)
    of_key, of_signature = Fields(key), Fields(signature)
    named, signed = of_key.string(), of_signature.string()
    if judge is None or named != (b"ssh-rsa" if algorithm in RSA else algorithm) or signed != algorithm:
        return False
    blob = of_signature.string()
    try:
        return blob is not None and judge(algorithm, of_key, text, blob, of_signature)
    except (InvalidSignature, UnsupportedAlgorithm, ValueError):
        return False


Judge = typing.Callable[[bytes, Fields, bytes, bytes, Fields], bool]


def _rsa(algorithm: bytes, key: Fields, text: bytes, signature: bytes, rest: Fields) -> bool:
    exponent, modulus = _positive(key), _positive(key)
    if exponent is None or modulus is None or not key.is_over or not rest.is_over or not LEAST_BITS <= modulus.bit_length() <= MOST_BITS:
        return False
    # an implementation may leave zeros in front away (RFC 8332, section 3)
    whole = signature.rjust((modulus.bit_length() + 7) // 8, b"\0")
    rsa.RSAPublicNumbers(exponent, modulus).public_key().verify(whole, text, padding.PKCS1v15(), getattr(hashes, RSA[algorithm])())
    return True


def _ecdsa(algorithm: bytes, key: Fields, text: bytes, signature: bytes, rest: Fields) -> bool:
    public = _point(algorithm, key)
    return public is not None and key.is_over and rest.is_over and _is_by_point(algorithm, public, text, signature)


def _ed25519(algorithm: bytes, key: Fields, text: bytes, signature: bytes, rest: Fields) -> bool:
    public = key.string()
    if public is None or not key.is_over or not rest.is_over:
        return False
    ed25519.Ed25519PublicKey.from_public_bytes(public).verify(signature, text)
    return True


def _security_key(algorithm: bytes, key: Fields, text: bytes, signature: bytes, rest: Fields) -> bool:
    """A security key signs the hash of its application, flags, a counter, and the hash of the text (PROTOCOL.u2f)."""
    is_curve = algorithm == SECURITY_KEYS[1]
    point = _point(b"ecdsa-sha2-nistp256", key) if is_curve else None
    public = None if is_curve else key.string()
    application, flags, counter = key.string(), rest.byte(), rest.number()
    if application is None or flags is None or counter is None or not key.is_over or not rest.is_over or not flags & PRESENT:
        return False
    signed = hashlib.sha256(application).digest() + bytes([flags]) + counter.to_bytes(4, "big") + hashlib.sha256(text).digest()
    if is_curve:
        return point is not None and _is_by_point(b"ecdsa-sha2-nistp256", point, signed, signature)
    ed25519.Ed25519PublicKey.from_public_bytes(public or b"").verify(signature, signed)
    return True


def _positive(fields: Fields) -> int | None:
    """A number of any length that is above 0 (RFC 4251, section 5)."""
    text = fields.string()
    return None if not text or text[0] & 0x80 else int.from_bytes(text, "big") or None


def _point(algorithm: bytes, key: Fields) -> typing.Any:
    """The public key of ECDSA that stands here, after the name of its algorithm."""
    curve, point = key.string(), key.string()
    if curve != algorithm.rpartition(b"-")[2] or point is None:
        return None
    return ec.EllipticCurvePublicKey.from_encoded_point(getattr(ec, ECDSA[algorithm][0])(), point)


def _is_by_point(algorithm: bytes, public: typing.Any, text: bytes, signature: bytes) -> bool:
    numbers = Fields(signature)
    r, s = _positive(numbers), _positive(numbers)
    if r is None or s is None or not numbers.is_over:
        return False
    public.verify(encode_dss_signature(r, s), text, ec.ECDSA(getattr(hashes, ECDSA[algorithm][1])()))
    return True


JUDGES: dict[bytes, Judge] = {
    b"ssh-ed25519": _ed25519,
    **dict.fromkeys(RSA, _rsa),
    **dict.fromkeys(ECDSA, _ecdsa),
    **dict.fromkeys(SECURITY_KEYS, _security_key),
}
