"""AES-128 with counters (FIPS 197, SP 800-38A) and in GCM (SP 800-38D) in Python, for a tester without the package `cryptography`. It takes
some 30 microseconds a block, and is not made to keep a key secret from who measures that."""

import struct


def _sboxes():
    """The table of substitutions, and the four of whole columns."""
    box, p, q = [0] * 256, 1, 1
    while True:
        p = p ^ (p << 1) & 0xFF ^ (0x1B if p & 0x80 else 0)
        for shift in (1, 2, 4):
            q ^= q << shift & 0xFF
        if q & 0x80:
            q ^= 0x09
        turned = q
        for shift in range(1, 5):
            turned ^= (q << shift | q >> 8 - shift) & 0xFF
        box[p] = turned ^ 0x63
        if p == 1:
            break
    box[0] = 0x63
    columns = [[], [], [], []]
    for value in box:
        double = value << 1 ^ (0x11B if value & 0x80 else 0)
        word = double << 24 | value << 16 | value << 8 | double ^ value
        for turn, table in enumerate(columns):
            table.append((word >> 8 * turn | word << 32 - 8 * turn) & 0xFFFFFFFF)
    return box, columns


BOX, COLUMNS = _sboxes()


class Aes:
    """AES with a key of 16 bytes, in the direction that counters and GCM need."""

    def __init__(self, key):
        words, constant = list(struct.unpack(">4I", key)), 1
        while len(words) < 44:
            word = words[-1]
            if len(words) % 4 == 0:
                word = (word << 8 | word >> 24) & 0xFFFFFFFF
                word = sum(BOX[word >> shift & 0xFF] << shift for shift in (24, 16, 8, 0)) ^ constant << 24
                constant = constant << 1 ^ (0x11B if constant & 0x80 else 0)
            words.append(words[-4] ^ word)
        self._words = words

    def block(self, data):
        """One block of 16 bytes, enciphered."""
        keys, (first, second, third, fourth) = self._words, COLUMNS
        a, b, c, d = struct.unpack(">4I", data)
        a, b, c, d = a ^ keys[0], b ^ keys[1], c ^ keys[2], d ^ keys[3]
        for at in range(4, 40, 4):
            a, b, c, d = (
                first[a >> 24] ^ second[b >> 16 & 255] ^ third[c >> 8 & 255] ^ fourth[d & 255] ^ keys[at],
                first[b >> 24] ^ second[c >> 16 & 255] ^ third[d >> 8 & 255] ^ fourth[a & 255] ^ keys[at + 1],
                first[c >> 24] ^ second[d >> 16 & 255] ^ third[a >> 8 & 255] ^ fourth[b & 255] ^ keys[at + 2],
                first[d >> 24] ^ second[a >> 16 & 255] ^ third[b >> 8 & 255] ^ fourth[c & 255] ^ keys[at + 3],
            )
        out = []
        for at, (p, q, r, s) in enumerate(((a, b, c, d), (b, c, d, a), (c, d, a, b), (d, a, b, c)), 40):
            out.append((BOX[p >> 24] << 24 | BOX[q >> 16 & 255] << 16 | BOX[r >> 8 & 255] << 8 | BOX[s & 255]) ^ keys[at])
        return struct.pack(">4I", *out)

    def stream(self, counter, count, bits=128):
        """So many bytes of key stream from a counter of 16 bytes on, of which the lowest bits count."""
        whole, low = int.from_bytes(counter, "big"), (1 << bits) - 1
        blocks = (self.block((whole & ~low | whole + i & low).to_bytes(16, "big")) for i in range(-(-count // 16)))
        return b"".join(blocks)[:count]


def xor(one, other):
    """Two texts of one length, bit by bit."""
    return (int.from_bytes(one, "big") ^ int.from_bytes(other, "big")).to_bytes(len(one), "big")


def _halved(value, times=1):
    """An element of the field times x, so many times."""
    for _ in range(times):
        value = value >> 1 ^ (0xE1 << 120 if value & 1 else 0)
    return value


REDUCED = [_halved(value, 8) for value in range(256)]


class Gcm:
    """AES-128-GCM with nonces of 12 bytes."""

    def __init__(self, key):
        self._aes = Aes(key)
        power = int.from_bytes(self._aes.block(bytes(16)), "big")
        self._table = [0] * 256
        for bit in (128, 64, 32, 16, 8, 4, 2, 1):
            self._table[bit], power = power, _halved(power)
        for value in range(256):
            low = value & -value
            self._table[value] = self._table[value ^ low] ^ self._table[low] if value != low else self._table[value]

    def _hash(self, *texts):
        table, sum_ = self._table, 0
        for text in texts:
            for at in range(0, len(text), 16):
                value, sum_ = sum_ ^ int.from_bytes(text[at : at + 16].ljust(16, b"\0"), "big"), 0
                for byte in reversed(value.to_bytes(16, "big")):
                    sum_ = sum_ >> 8 ^ REDUCED[sum_ & 255] ^ table[byte]
        return sum_.to_bytes(16, "big")

    def _tag(self, nonce, text, head):
        sum_ = self._hash(head, text, struct.pack(">QQ", 8 * len(head), 8 * len(text)))
        return xor(sum_, self._aes.block(nonce + b"\0\0\0\1"))

    def seal(self, nonce, text, head):
        """The text enciphered, with its tag."""
        sealed = xor(text, self._aes.stream(nonce + b"\0\0\0\2", len(text), 32))
        return sealed + self._tag(nonce, sealed, head)

    def open(self, nonce, sealed, head):
        """The text, or None where the tag is another one."""
        sealed, tag = sealed[:-16], sealed[-16:]
        if tag != self._tag(nonce, sealed, head):
            return None
        return xor(sealed, self._aes.stream(nonce + b"\0\0\0\2", len(sealed), 32))
