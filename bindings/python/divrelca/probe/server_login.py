"""Special probes of servers: ways past the login, and the login itself."""

import os

from .catalogue import OVER
from .links import Closed
from .messages import SUCCESS, blob, channel_open, channel_request, global_request, login, password, request, service, signature_of, signed
from .server_states import SERVER
from .words import string, uint32

LOGIN = "authentication"
ED25519 = string(b"ssh-ed25519")


def without_login(end, *payloads):
    """Sends payloads, then asks for a channel: none may be opened."""
    for payload in payloads:
        end.send(payload(end) if callable(payload) else payload)
    number = end.number_out
    end.send(channel_open(0))
    if end.until(91, 92, 3, test=lambda it: it[0] != 3 or it[1:5] == uint32(number))[0] == 91:
        end.faults.append(("channel without a login", "a channel was opened without a login"))
    return OVER


PAST = [
    ("nothing", []),
    ("52 SUCCESS", [SUCCESS]),
    ("51 FAILURE", [b"\x33" + string(b"") + b"\1"]),
    ("60 PK_OK", [lambda end: b"\x3c" + ED25519 + string(blob(end.target.key))]),
    ("61 INFO_RESPONSE", [b"\x3d" + uint32(0)]),
    ("6 SERVICE_ACCEPT ssh-connection", [b"\6" + string(b"ssh-connection")]),
    ("5 SERVICE_REQUEST ssh-connection", [service(b"ssh-connection")]),
    ("80 GLOBAL_REQUEST", [global_request(wants_reply=False)]),
    ("66 GSSAPI EXCHANGE_COMPLETE", [b"\x3f"]),
]
for past, sent in PAST:
    for state_name in ("keys", "service"):
        SERVER.special(LOGIN, f"{past}, then CHANNEL_OPEN ({state_name})", state_name)(lambda end, sent=sent: without_login(end, *sent))


@SERVER.special(LOGIN, "CHANNEL_OPEN and exec in the first exchange", "kexinit")
def channel_in_clear(end):
    end.send(channel_open(0))
    end.send(channel_request(end, b"exec", string(b"echo hi")))


@SERVER.special(LOGIN, "service and login in the clear", "kexinit")
def login_in_clear(end):
    """A login that somebody on the way put there, before there are keys; then only a channel is asked for."""
    end.send(service())
    end.send(password(end))
    end.send_share()
    end.take_reply()
    end.send_newkeys()
    end.send(channel_open(0))
    if end.until(91, 92, 3)[0] == 91:
        end.faults.append(("login in the clear", "a login in the clear, before there are keys, counts"))
    return OVER


@SERVER.special(LOGIN, "USERAUTH_REQUEST without a SERVICE_REQUEST", "keys")
def no_service(end):
    number = end.number_out
    end.send(login(end))
    answer = end.until(51, 52, 3, test=lambda it: it[0] != 3 or it[1:5] == uint32(number))[0]
    return {52: "authed", 51: "service", 3: "keys"}[answer]


SERVER.sends(LOGIN, "ssh-userauth asked for twice", "service", service())
SERVER.sends(LOGIN, "an unknown service", "keys", service(b"foo@probe"))
SERVER.sends(LOGIN, "ssh-connection asked for after the login", "open", service(b"ssh-connection"))


@SERVER.special(LOGIN, "exchange of keys before the login", "service")
def early_exchange(end):
    end.send_kexinit()


def judged(name, make):
    """A request for authentication, whose answer is noted."""

    def act(end):
        end.send(make(end))
        answer = end.until(51, 52, 60)[0]
        end.note = {51: "FAILURE", 52: "SUCCESS", 60: "PK_OK"}[answer]
        return "authed" if answer == 52 else "service"

    SERVER.special(LOGIN, name, "service")(act)


def by_key(end, rest=b"", signature=None):
    """A request by key with bytes of a signature."""
    body = b"\1" + ED25519 + string(blob(end.target.key))
    return request(end.target.user, b"publickey", body + (b"" if signature is None else string(signature)) + rest)


def by_password(end, rest):
    return request(end.target.user, b"password", rest)


def zeros(end):
    return request(end.target.user, b"publickey", b"\1" + ED25519 + string(ED25519 + string(bytes(32))) + string(signature_of(bytes(64))))


def hostbased(end):
    rest = ED25519 + string(blob(end.target.key)) + string(b"host") + string(end.target.user) + string(signature_of(bytes(64)))
    return request(end.target.user, b"hostbased", rest)


judged("password for an unknown service", lambda end: password(end, wanted=b"nope@probe"))
judged("password with a change of it", lambda end: by_password(end, b"\1" + string(end.target.password) + string(b"new word")))
judged("password, a byte too much", lambda end: password(end) + b"\0")
judged("password, cut short", lambda end: password(end)[:-3])
judged("password with a byte 0 after it", lambda end: password(end, word=end.target.password + b"\0x"))
judged("user with a byte 0 after it", lambda end: password(end, user=end.target.user + b"\0x"))
judged("no user at all", lambda end: password(end, user=b""))
judged("user of 30,000 bytes", lambda end: password(end, user=b"u" * 30000))
judged("boolean 255 in password", lambda end: by_password(end, b"\xff" + string(end.target.password) + string(b"n")))
judged("none, a byte too much", lambda end: request(end.target.user, b"none") + b"\0")
judged("key, right", signed)
judged("key, signature over another session", lambda end: signed(end, session_id=bytes(32)))
judged("key, signature spoilt", lambda end: signed(end, spoilt=True))
judged("key, signature for another user", lambda end: signed(end, signed_user=b"other"))
judged("key, signed by another key", lambda end: signed(end, signer=end.target.other))
judged("key, another key altogether", lambda end: signed(end, key=end.target.other))
judged("key, for another user", lambda end: signed(end, user=b"nobody"))
judged("key, algorithm name rsa-sha2-256", lambda end: signed(end, algorithm=b"rsa-sha2-256"))
judged("key, algorithm name unknown", lambda end: signed(end, algorithm=b"foo@probe"))
judged("key, a byte after the signature", lambda end: signed(end) + b"\0")
judged("key, empty signature", lambda end: by_key(end, signature=b""))
judged("key, TRUE but no signature", by_key)
judged("key, all zero", zeros)
judged("hostbased", hostbased)
judged("keyboard-interactive", lambda end: request(end.target.user, b"keyboard-interactive", string(b"") + string(b"")))
judged("an unknown method", lambda end: request(end.target.user, b"foo@probe", b"xyz"))


@SERVER.special(LOGIN, "another user at first", "service")
def other_user(end):
    end.send(password(end, user=b"other", word=b"x"))
    end.until(51)


def at_once(name, *make):
    """Several requests in one write, of which one logs in."""

    def act(end):
        end.send_all([it(end) for it in make])
        return "failed"

    SERVER.special(LOGIN, name, "service")(act)


at_once("wrong and right password in one write", lambda end: password(end, word=b"wrong"), login)
at_once("right password, then another request", login, lambda end: password(end, user=b"nobody", word=b"x"))


def repeated(name, times, make):
    """A request that fails, over and over."""

    def act(end):
        for time in range(1, times + 1):
            try:
                end.send(make(end))
                end.until(51, 52)
            except Closed:
                end.note = f"ended at {time}"
                raise
        end.note = f"{times} answered"

    SERVER.special(LOGIN, name, "service")(act)


def strange_key(end):
    return request(end.target.user, b"publickey", b"\0" + ED25519 + string(ED25519 + string(os.urandom(32))))


repeated("30 wrong passwords", 30, lambda end: password(end, word=b"x"))
repeated("60 times none", 60, lambda end: request(end.target.user, b"none"))
repeated("30 probes of unknown keys", 30, strange_key)
