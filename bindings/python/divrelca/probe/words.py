"""The words of which messages of SSH are made (RFC 4251 section 5)."""

import struct


def uint32(value):
    """A number of 32 bits; of a larger one its lowest."""
    return struct.pack(">I", value & 0xFFFFFFFF)


def string(data):
    """Bytes behind their length."""
    return uint32(len(data)) + data


def mpint(data):
    """A number that is not negative, given by its bytes, the highest first."""
    data = data.lstrip(b"\0")
    return string(b"\0" + data if data and data[0] & 0x80 else data)


def number_at(payload, at):
    """The number of 32 bits that begins at a place."""
    return struct.unpack(">I", payload[at : at + 4])[0]


def strings(payload, at, count):
    """So many strings from a place on, and the place after them."""
    found = []
    for _ in range(count):
        length = number_at(payload, at)
        found.append(payload[at + 4 : at + 4 + length])
        at += 4 + length
    return found, at
