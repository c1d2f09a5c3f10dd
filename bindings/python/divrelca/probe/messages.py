"""Payloads that the probes of servers and of clients send."""

from .words import string, uint32

ED25519 = b"ssh-ed25519"
SMALL_ORDER = {
    "0": bytes(32),
    "1": b"\1" + bytes(31),
    "p-1": bytes.fromhex("ec" + "ff" * 30 + "7f"),
    "p": bytes.fromhex("ed" + "ff" * 30 + "7f"),
    "p+1": bytes.fromhex("ee" + "ff" * 30 + "7f"),
    "order 8": bytes.fromhex("e0eb7a7c3b41b8ae1656e3faf19fc46ada098deb9c32b1fd866205165f49b800"),
    "other order 8": bytes.fromhex("5f9c95bca3508c24b1d0b1559c83ef5b04445cc4581c8e86d8224eddd09f1157"),
}
IGNORE = b"\2" + string(b"x")
DEBUG = b"\4\0" + string(b"x") + string(b"")
UNIMPLEMENTED = b"\3" + uint32(0)
NOTHING_192 = b"\xc0" + string(b"")
SUCCESS = b"\x34"


def blob(key):
    """A public key as it stands in messages."""
    return string(ED25519) + string(key.public)


def signature_of(signature, name=ED25519):
    return string(name) + string(signature)


def service(name=b"ssh-userauth"):
    return b"\5" + string(name)


def request(user, method, rest=b"", wanted=b"ssh-connection"):
    return b"\x32" + string(user) + string(wanted) + string(method) + rest


def password(end, user=None, word=None, wanted=b"ssh-connection"):
    user, word = end.target.user if user is None else user, end.target.password if word is None else word
    return request(user, b"password", b"\0" + string(word), wanted)


def key_probe(end):
    """A key without a signature."""
    return request(end.target.user, b"publickey", b"\0" + string(ED25519) + string(blob(end.target.key)))


def signed(end, user=None, key=None, session_id=None, algorithm=ED25519, signer=None, spoilt=False, signed_user=None):
    """A request by key, signed; what is given is another than the right one."""
    user, key = end.target.user if user is None else user, key or end.target.key
    rest = b"\1" + string(algorithm) + string(blob(key))
    message, over = request(user, b"publickey", rest), request(user if signed_user is None else signed_user, b"publickey", rest)
    signature = (signer or key).sign(string(end.session_id if session_id is None else session_id) + over)
    if spoilt:
        signature = bytes([signature[0] ^ 1]) + signature[1:]
    return message + string(signature_of(signature))


def login(end):
    """The right login."""
    return signed(end) if end.target.login == "key" else password(end)


def channel_open(number, kind=b"session", window=2**20, most=32768, more=b""):
    return b"\x5a" + string(kind) + uint32(number) + uint32(window) + uint32(most) + more


def channel(end):
    """The peer's number of the channel that is open, 0 where none is."""
    return uint32(end.channel or 0)


def data(end, text, number=None):
    return b"\x5e" + (channel(end) if number is None else uint32(number)) + string(text)


def adjust(end, count):
    return b"\x5d" + channel(end) + uint32(count)


def eof(end):
    return b"\x60" + channel(end)


def close(end):
    return b"\x61" + channel(end)


def channel_request(end, name, rest=b"", wants_reply=True):
    return b"\x62" + channel(end) + string(name) + bytes([wants_reply]) + rest


def global_request(name=b"keepalive@openssh.com", wants_reply=True):
    return b"\x50" + string(name) + bytes([wants_reply])


def next_kexinit(end):
    """A KEXINIT: one that begins an exchange where none is under way, else one too many."""
    if end.mine is None or end.session_id and not end.is_exchanging:
        end.mine, end.is_exchanging = end.kexinit(), True
        return end.mine
    return end.kexinit()


def ended_with(end, numbers, name=b"canary@probe", number=77):
    """Sends an OPEN of an unknown type and waits for its answer: what came before was dealt with."""
    end.send(channel_open(number, name, 1000, 1000))
    return end.until(*numbers, test=lambda it: it[1:5] == uint32(number))
