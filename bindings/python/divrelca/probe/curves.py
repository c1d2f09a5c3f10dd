"""X25519 (RFC 7748) and Ed25519 (RFC 8032) over the integers of Python, for a tester without the package `cryptography`. Nothing here is
secret: keys of a test may be told by the time that they take."""

import hashlib

PRIME = 2**255 - 19
ORDER = 2**252 + 27742317777372353535851937790883648493
D = -121665 * pow(121666, PRIME - 2, PRIME) % PRIME
ROOT = pow(2, (PRIME - 1) // 4, PRIME)
NINE = b"\x09" + bytes(31)


def x25519(secret, point=NINE):
    """The shared secret of a secret and a point; without a point, the share of the secret."""
    k = int.from_bytes(secret, "little") & ~7 & (2**255 - 1) | 2**254
    u = int.from_bytes(point, "little") & (2**255 - 1)
    x2, z2, x3, z3, swapped = 1, 0, u, 1, 0
    for place in range(254, -1, -1):
        bit = k >> place & 1
        if bit != swapped:
            x2, x3, z2, z3 = x3, x2, z3, z2
        swapped = bit
        a, b, c, d = x2 + z2, x2 - z2, x3 + z3, x3 - z3
        aa, bb, da, cb = a * a % PRIME, b * b % PRIME, d * a % PRIME, c * b % PRIME
        e = aa - bb
        x3, z3 = (da + cb) ** 2 % PRIME, u * (da - cb) ** 2 % PRIME
        x2, z2 = aa * bb % PRIME, e * (aa + 121665 * e) % PRIME
    if swapped:
        x2, z2 = x3, z3
    return (x2 * pow(z2, PRIME - 2, PRIME) % PRIME).to_bytes(32, "little")


def _added(one, other):
    a = (one[1] - one[0]) * (other[1] - other[0]) % PRIME
    b = (one[1] + one[0]) * (other[1] + other[0]) % PRIME
    c, d = 2 * one[3] * other[3] * D % PRIME, 2 * one[2] * other[2] % PRIME
    e, f, g, h = b - a, d - c, d + c, b + a
    return e * f % PRIME, g * h % PRIME, f * g % PRIME, e * h % PRIME


def _times(factor, point):
    sum_ = (0, 1, 1, 0)
    while factor:
        if factor & 1:
            sum_ = _added(sum_, point)
        point = _added(point, point)
        factor >>= 1
    return sum_


def _x_of(y, sign):
    """The x of a point, or None where there is none."""
    if y >= PRIME:
        return None
    square = (y * y - 1) * pow(D * y * y + 1, PRIME - 2, PRIME) % PRIME
    if square == 0:
        return None if sign else 0
    x = pow(square, (PRIME + 3) // 8, PRIME)
    if (x * x - square) % PRIME:
        x = x * ROOT % PRIME
    if (x * x - square) % PRIME:
        return None
    return x if x & 1 == sign else PRIME - x


Y = 4 * pow(5, PRIME - 2, PRIME) % PRIME
X = _x_of(Y, 0)
BASE = (X, Y, 1, X * Y % PRIME)


POWERS = [BASE]
while len(POWERS) < 256:
    POWERS.append(_added(POWERS[-1], POWERS[-1]))


def _of_base(factor):
    sum_ = (0, 1, 1, 0)
    for bit in range(factor.bit_length()):
        if factor >> bit & 1:
            sum_ = _added(sum_, POWERS[bit])
    return sum_


def _written(point):
    inverse = pow(point[2], PRIME - 2, PRIME)
    x, y = point[0] * inverse % PRIME, point[1] * inverse % PRIME
    return (y | (x & 1) << 255).to_bytes(32, "little")


def _read(data):
    bits = int.from_bytes(data, "little")
    y, sign = bits & (2**255 - 1), bits >> 255
    x = _x_of(y, sign)
    return None if x is None else (x, y, 1, x * y % PRIME)


def _scalar(*parts):
    return int.from_bytes(hashlib.sha512(b"".join(parts)).digest(), "little") % ORDER


def _expanded(seed):
    digest = hashlib.sha512(seed).digest()
    return int.from_bytes(digest[:32], "little") & ~7 & (2**254 - 1) | 2**254, digest[32:]


def sign(seed, key, message):
    """The signature of 64 bytes by the key of a seed."""
    secret, prefix = _expanded(seed)
    nonce = _scalar(prefix, message)
    commitment = _written(_of_base(nonce))
    return commitment + ((nonce + _scalar(commitment, key, message) * secret) % ORDER).to_bytes(32, "little")


def is_signed(key, message, signature):
    """Whether the signature over the message is by the key."""
    if len(key) != 32 or len(signature) != 64:
        return False
    point, commitment, s = _read(key), _read(signature[:32]), int.from_bytes(signature[32:], "little")
    if point is None or commitment is None or s >= ORDER:
        return False
    challenge = _scalar(signature[:32], key, message)
    return _written(_of_base(s)) == _written(_added(commitment, _times(challenge, point)))
