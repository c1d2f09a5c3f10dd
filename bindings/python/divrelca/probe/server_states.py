"""What is tried on servers: the states and the messages of the matrix."""

from .catalogue import OVER, Message, Role, State
from .links import Closed
from .messages import (
    DEBUG,
    IGNORE,
    SUCCESS,
    UNIMPLEMENTED,
    blob,
    channel,
    channel_open,
    channel_request,
    close,
    data,
    ended_with,
    eof,
    global_request,
    key_probe,
    login,
    next_kexinit,
    password,
    request,
    service,
    signature_of,
)
from .words import number_at, string, uint32


def lines(end):
    end.say_line()
    end.hear_line()


def kexinits(end):
    end.begin()


def replied(end):
    end.begin()
    end.send_share()
    end.take_reply()


def keys(end):
    replied(end)
    end.send_newkeys()


def at_service(end):
    keys(end)
    end.send(service())
    end.until(6)


def failed(end):
    at_service(end)
    end.send(password(end, word=b"wrong"))
    end.until(51)


def probed(end):
    at_service(end)
    end.send(key_probe(end))
    end.until(60)


def logged_in(end):
    at_service(end)
    end.send(login(end))
    end.until(52)


def open_channel(end, number=0, window=2**21, most=32768):
    """Opens a session channel of this number."""
    end.send(channel_open(number, window=window, most=most))
    answer = end.until(91, 92, test=lambda it: it[1:5] == uint32(number))
    if answer[0] == 92:
        raise Closed("the channel is refused")
    end.channel, end.window, end.most = (number_at(answer, at) for at in (5, 9, 13))


def opened(end):
    logged_in(end)
    open_channel(end)


def starting(end, command=None):
    """The request that runs the command which sends back what it gets."""
    kind, usual = end.target.start
    return channel_request(end, kind, string(command or usual))


def running(end):
    opened(end)
    end.send(starting(end))
    end.until(99)


def ended(end):
    opened(end)
    end.send(starting(end, end.target.hold))
    end.until(99)
    end.send(eof(end))


def closed(end):
    opened(end)
    end.send(close(end))
    end.until(97)


def exchange_begun(end):
    opened(end)
    end.send_kexinit()
    end.take_kexinit()


def exchange_replied(end):
    exchange_begun(end)
    end.send_share()
    end.take_reply()


def exchanged(end):
    exchange_replied(end)
    end.send_newkeys()


STATES = [
    State("start", "before the version line", "first", lambda end: None),
    State("lines", "version lines exchanged", "first", lines),
    State("kexinit", "KEXINITs exchanged", "first", kexinits),
    State("reply", "reply and NEWKEYS of the server taken, ours owed", "first", replied),
    State("keys", "first exchange whole", "login", keys),
    State("service", "ssh-userauth accepted", "login", at_service),
    State("failed", "one login failed", "login", failed),
    State("probed", "a key probe answered", "login", probed),
    State("authed", "logged in, no channel", "connection", logged_in),
    State("open", "a channel open", "connection", opened),
    State("exec", "a command running", "connection", running),
    State("eof", "our EOF sent", "connection", ended),
    State("closed", "the channel closed", "connection", closed),
    State("rekey1", "second exchange: KEXINITs exchanged", "later", exchange_begun),
    State("rekey2", "second exchange: NEWKEYS of the server taken", "later", exchange_replied),
    State("rekeyed", "second exchange whole", "connection", exchanged),
]


def go_on(end, state):
    """The session goes on from a state as it should, up to the answer to an OPEN of a type that nobody knows."""
    if state == OVER:
        return
    if state == "start":
        lines(end)
        state = "lines"
    if state == "lines":
        end.send_kexinit()
        end.take_kexinit()
        state = "kexinit"
    if state == "kexinit":
        end.send_share()
        end.take_reply()
        state = "reply"
    if state == "reply":
        end.send_newkeys()
        state = "keys"
    elif end.is_exchanging and state not in ("rekey1", "rekey2"):
        end_exchange(end)
    if state == "keys":
        end.send(service())
        end.until(6)
        state = "service"
    if state in ("service", "failed", "probed"):
        end.send(login(end))
        end.until(52)
    if state == "rekey1":
        end.send_share()
        end.take_reply()
    if state in ("rekey1", "rekey2"):
        end.send_newkeys()
    ended_with(end, (91, 92))


def end_exchange(end):
    """An exchange that the probe began is gone through, unless the server answers the KEXINIT by UNIMPLEMENTED."""
    number = end.number_out - 1
    if end.until(20, 3, test=lambda it: it[0] == 20 or it[1:5] == uint32(number))[0] == 20:
        end.theirs = end.log[-1]
        end.send_share()
        end.take_reply()
        end.send_newkeys()
    else:
        end.is_exchanging = False


NINE = b"\x09" + bytes(31)
MESSAGES = [
    Message("1 DISCONNECT", lambda end: b"\1" + uint32(11) + string(b"bye") + string(b"")),
    Message("2 IGNORE", lambda end: IGNORE),
    Message("3 UNIMPLEMENTED", lambda end: UNIMPLEMENTED),
    Message("4 DEBUG", lambda end: DEBUG),
    Message("5 SERVICE_REQUEST ssh-userauth", lambda end: service()),
    Message("5 SERVICE_REQUEST ssh-connection", lambda end: service(b"ssh-connection")),
    Message("6 SERVICE_ACCEPT", lambda end: b"\6" + string(b"ssh-userauth")),
    Message("7 EXT_INFO", lambda end: b"\7" + uint32(0)),
    Message("8 NEWCOMPRESS", lambda end: b"\x08"),
    Message("19 unassigned", lambda end: b"\x13"),
    Message("20 KEXINIT", next_kexinit),
    Message("21 NEWKEYS", lambda end: b"\x15"),
    Message("29 unassigned", lambda end: b"\x1d"),
    Message("30 KEX_ECDH_INIT", lambda end: b"\x1e" + string(NINE)),
    Message("31 KEX_ECDH_REPLY", lambda end: b"\x1f" + string(blob(end.target.key)) + string(NINE) + string(signature_of(bytes(64)))),
    Message("34 KEX_DH_GEX_REQUEST", lambda end: b"\x22" + uint32(2048) * 3),
    Message("50 none", lambda end: request(end.target.user, b"none")),
    Message("50 password, wrong", lambda end: password(end, word=b"wrong")),
    Message("50 password, right", password),
    Message("51 USERAUTH_FAILURE", lambda end: b"\x33" + string(b"publickey") + b"\0"),
    Message("52 USERAUTH_SUCCESS", lambda end: SUCCESS),
    Message("53 USERAUTH_BANNER", lambda end: b"\x35" + string(b"x") + string(b"")),
    Message("60 PK_OK", lambda end: b"\x3c" + string(b"ssh-ed25519") + string(blob(end.target.key))),
    Message("61 INFO_RESPONSE", lambda end: b"\x3d" + uint32(1) + string(b"x")),
    Message("79 unassigned", lambda end: b"\x4f"),
    Message("80 GLOBAL_REQUEST", lambda end: global_request()),
    Message("81 REQUEST_SUCCESS", lambda end: b"\x51"),
    Message("82 REQUEST_FAILURE", lambda end: b"\x52"),
    Message("90 CHANNEL_OPEN session", lambda end: channel_open(5)),
    Message("91 OPEN_CONFIRMATION", lambda end: b"\x5b" + channel(end) + uint32(0) + uint32(2**20) + uint32(32768)),
    Message("92 OPEN_FAILURE", lambda end: b"\x5c" + channel(end) + uint32(1) + string(b"") + string(b"")),
    Message("93 WINDOW_ADJUST", lambda end: b"\x5d" + channel(end) + uint32(10)),
    Message("94 DATA", lambda end: data(end, b"hello\n")),
    Message("95 EXTENDED_DATA", lambda end: b"\x5f" + channel(end) + uint32(1) + string(b"hello\n")),
    Message("96 EOF", eof),
    Message("97 CLOSE", close),
    Message("98 CHANNEL_REQUEST", lambda end: channel_request(end, b"nothing@probe")),
    Message("99 CHANNEL_SUCCESS", lambda end: b"\x63" + channel(end)),
    Message("100 CHANNEL_FAILURE", lambda end: b"\x64" + channel(end)),
    Message("101 unassigned", lambda end: b"\x65"),
    Message("127 unassigned", lambda end: b"\x7f"),
    Message("128 client reserved", lambda end: b"\x80"),
    Message("192 PING@openssh.com", lambda end: b"\xc0" + string(b"x")),
    Message("255 local", lambda end: b"\xff"),
]
DUE = {
    ("lines", "20 KEXINIT"), ("kexinit", "30 KEX_ECDH_INIT"), ("reply", "21 NEWKEYS"), ("keys", "5 SERVICE_REQUEST ssh-userauth"),
    ("rekey1", "30 KEX_ECDH_INIT"), ("rekey2", "21 NEWKEYS"),
}
SERVER = Role("server", "client", STATES, MESSAGES, DUE, go_on)
