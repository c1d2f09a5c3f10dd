"""Special probes of servers: packets under keys, channels, exchanges of keys later on, EXT_INFO."""

import time

from .catalogue import OVER
from .links import Late, Skipped
from .messages import adjust, channel, channel_open, channel_request, close, data, ended_with, eof, global_request, service
from .server_states import SERVER, open_channel, starting
from .suites import Ctr
from .words import number_at, string, uint32

SEALED, CHANNELS, LATER, EXT = "sealed packet", "channels", "later exchanges", "EXT_INFO"
PING = global_request(wants_reply=False)
ASKED = global_request()


def changed(name, payload, how):
    """A packet that is broken on purpose."""
    SERVER.special(SEALED, name, "open")(lambda end: end.send(payload, **how(end)))


changed("tag spoilt", PING, lambda end: {"flip": -1})
changed("a byte of the text spoilt", PING, lambda end: {"flip": 10})
changed("length spoilt", PING, lambda end: {"flip": 3})
changed("padding_length over the packet", PING, lambda end: {"padding_length": 200})
changed("padding of 250 and more", PING, lambda end: {"padding": 255 - (len(PING) + 256 + end.out.over) % end.out.block})
for size in (32763, 60000, 300000):
    size_name = {32763: "IGNORE with a payload of 32,768", 60000: "IGNORE of 60,000 bytes", 300000: "IGNORE of 300,000 bytes"}[size]
    SERVER.sends(SEALED, size_name, "open", b"\2" + string(b"x" * size))


@SERVER.special(SEALED, "padding_length 3", "open")
def little_padding(end):
    end.send(b"\2" + string(b"x" * (16 - (1 + 5 + 3 + end.out.over) % 16)), padding=3)


@SERVER.special(SEALED, "padding leaves no payload", "open")
def padding_alone(end):
    count = end.out.block * 2 - 1 - end.out.over
    end.send(b"", padding=count, padding_length=count)


@SERVER.special(SEALED, "not a multiple of the block", "open")
def no_multiple(end):
    if isinstance(end.out, Ctr):
        end.write(bytes(range(67)))
    else:
        end.send(PING, padding=8 + (16 - (len(PING) + 6) % 16) % 16)


@SERVER.special(SEALED, "a packet twice", "open")
def replayed(end):
    packet = end.packed(PING)
    end.write(packet + packet)


@SERVER.special(SEALED, "a packet lost", "open")
def lost(end):
    end.packed(PING)


@SERVER.special(SEALED, "two packets swapped", "open")
def swapped(end):
    first, second = end.packed(PING), end.packed(b"\2" + string(b""))
    end.write(second + first)


@SERVER.special(SEALED, "bytes in the clear", "open")
def in_clear(end):
    end.write(uint32(12) + b"\x0a\2" + bytes(10))


def flood(end, count):
    """So many bytes of data, in packets that the channel allows."""
    while count > 0:
        part = min(count, end.most, 32000)
        end.send(data(end, b"x" * part))
        count -= part


def overrun(name, more):
    def act(end):
        if end.window > 2**22:
            raise Skipped(f"a window of {end.window}")
        flood(end, end.window)
        flood(end, more)

    SERVER.special(CHANNELS, name, "open")(act)


overrun("window overrun by one byte", 1)
overrun("window overrun by 1 MiB", 2**20)


@SERVER.special(CHANNELS, "data past the window are not taken", "authed")
def past_window(end):
    """A window of 0 keeps the server from sending back, so it has no reason to give more; what comes past what it gave must not be sent
    back later."""
    counts = {"granted": 0, "back": 0}
    end.heard[93] = lambda it: counts.update(granted=counts["granted"] + number_at(it, 5))
    end.heard[94] = lambda it: counts.update(back=counts["back"] + len(it) - 9)
    open_channel(end, 0, 0)
    end.send(starting(end))
    end.until(99)
    counts["granted"] += end.window
    if counts["granted"] > 2**22:
        raise Skipped(f"a window of {counts['granted']}")
    sent = 0
    while sent < min(counts["granted"], 2**23):
        flood(end, counts["granted"] - sent)
        sent = counts["granted"]
        time.sleep(0.05 if end.link.is_real else 0)
        ended_with(end, (92,))
    granted = counts["granted"]
    flood(end, 100000)
    ended_with(end, (92,))
    end.send(adjust(end, 2**24))
    try:
        while counts["back"] < sent + 100000:
            end.receive(1.0)
    except Late:
        pass
    if counts["back"] > granted == sent:
        end.faults.append(("data past the window", f"{granted} granted, {sent + 100000} sent, {counts['back']} sent back"))
    return OVER


@SERVER.special(CHANNELS, "data over the largest packet of the channel", "open")
def large_packet(end):
    if end.most > 200000:
        raise Skipped(f"a largest packet of {end.most}")
    end.send(data(end, b"x" * (end.most + 1)))


STRANGE = uint32(99)
SERVER.sends(CHANNELS, "DATA for an unknown channel", "open", lambda end: data(end, b"x", 99))
SERVER.sends(CHANNELS, "WINDOW_ADJUST for an unknown channel", "open", b"\x5d" + STRANGE + uint32(1))
SERVER.sends(CHANNELS, "EOF for an unknown channel", "open", b"\x60" + STRANGE)
SERVER.sends(CHANNELS, "CLOSE for an unknown channel", "open", b"\x61" + STRANGE)
SERVER.sends(CHANNELS, "REQUEST for an unknown channel", "open", b"\x62" + STRANGE + string(b"exec") + b"\1" + string(b"id"))
SERVER.sends(CHANNELS, "CONFIRMATION for an unknown channel", "open", b"\x5b" + STRANGE * 4)
SERVER.sends(CHANNELS, "DATA for channel 2^32-1", "open", lambda end: data(end, b"x", 2**32 - 1))
SERVER.sends(CHANNELS, "DATA after EOF", "eof", lambda end: data(end, b"x"))
SERVER.sends(CHANNELS, "EOF twice", "eof", eof)
SERVER.sends(CHANNELS, "DATA after CLOSE", "open", close, lambda end: data(end, b"x"))
SERVER.sends(CHANNELS, "CLOSE twice", "open", close, close)
SERVER.sends(CHANNELS, "request after our CLOSE", "open", close, starting)
SERVER.sends(CHANNELS, "window grows past 2^32-1", "open", lambda end: adjust(end, 2**32 - 1))
SERVER.sends(CHANNELS, "WINDOW_ADJUST by 0", "open", lambda end: adjust(end, 0))
SERVER.sends(CHANNELS, "DATA of no bytes", "exec", lambda end: data(end, b""))
SERVER.sends(CHANNELS, "EXTENDED_DATA type 0", "exec", lambda end: b"\x5f" + channel(end) + uint32(0) + string(b"x"))
SERVER.sends(CHANNELS, "EXTENDED_DATA type 5", "exec", lambda end: b"\x5f" + channel(end) + uint32(5) + string(b"x"))
SERVER.sends(CHANNELS, "the same channel number twice", "open", channel_open(0))
SERVER.sends(CHANNELS, "OPEN with the largest packet 0", "authed", channel_open(3, most=0))
SERVER.sends(CHANNELS, "OPEN with window 0", "authed", channel_open(3, window=0))
SERVER.sends(CHANNELS, "OPEN of an unknown type", "authed", channel_open(3, b"foo@probe", 0))
SERVER.sends(CHANNELS, "OPEN cut short", "authed", channel_open(3)[:-4])
SERVER.sends(CHANNELS, "OPEN session, bytes too much", "authed", channel_open(3, window=0, more=b"xyz"))
ADDRESSES = string(b"127.0.0.1") + uint32(1) + string(b"127.0.0.1") + uint32(2)
SERVER.sends(CHANNELS, "OPEN forwarded-tcpip by a client", "authed", channel_open(3, b"forwarded-tcpip", more=ADDRESSES))
SERVER.sends(CHANNELS, "OPEN x11 by a client", "authed", channel_open(3, b"x11", more=string(b"127.0.0.1") + uint32(1)))
SERVER.sends(CHANNELS, "exec with its string cut", "open", lambda end: channel_request(end, b"exec", uint32(100) + b"x"))
SERVER.sends(CHANNELS, "exec, bytes too much", "open", lambda end: starting(end) + b"xyz")
SERVER.sends(CHANNELS, "window-change cut", "open", lambda end: channel_request(end, b"window-change", uint32(1), False))
MODES = string(b"x") + uint32(80) * 4 + string(b"\1\0")
SERVER.sends(CHANNELS, "pty-req with modes cut", "open", lambda end: channel_request(end, b"pty-req", MODES))
SERVER.sends(CHANNELS, "exit-status by a client", "open", lambda end: channel_request(end, b"exit-status", uint32(0), False))


@SERVER.special(CHANNELS, "CLOSE is answered by CLOSE", "open")
def close_answered(end):
    end.send(close(end))
    end.until(97)


@SERVER.special(CHANNELS, "request after EOF is answered", "open")
def request_after_eof(end):
    end.send(eof(end))
    end.send(channel_request(end, b"nothing@probe"))
    end.until(100, 97)


@SERVER.special(CHANNELS, "2,000 OPENs", "authed")
def many_opens(end):
    confirmed = 0
    for first in range(1000, 3000, 50):
        end.send_all([channel_open(number) for number in range(first, first + 50)])
        confirmed += sum(end.until(91, 92, timeout=8)[0] == 91 for _ in range(50))
    end.note = f"{confirmed} confirmed"
    return "open"


@SERVER.special(CHANNELS, "a reply to each request", "exec")
def replied(end):
    # (a global request and one on a channel may be answered in either order)
    names = [(b"a@probe", True), (b"b@probe", False), None, (b"c@probe", True), (b"d@probe", True)]
    end.send_all([ASKED if it is None else channel_request(end, it[0], wants_reply=it[1]) for it in names])
    answers = [end.until(81, 82, 99, 100)[0] for _ in range(4)]
    end.note = " ".join(map(str, answers))
    if sorted(it >= 99 for it in answers) != [False, True, True, True]:
        end.faults.append(("other replies", f"replies {end.note} to a request, a global one and two requests"))


@SERVER.special(CHANNELS, "replies in the order of the requests", "open")
def ordered(end):
    end.send_all([channel_request(end, b"a@probe"), starting(end)])
    answers = [end.until(99, 100)[0] for _ in range(2)]
    end.note = " ".join(map(str, answers))
    if answers != [100, 99]:
        end.faults.append(("order of replies", f"replies {end.note} to an unknown request and one for a command"))
    return "exec"


@SERVER.special(CHANNELS, "exec twice", "exec")
def second_command(end):
    end.send(starting(end))
    end.note = "SUCCESS" if end.until(99, 100)[0] == 99 else "FAILURE"


@SERVER.special(CHANNELS, "3,000 global requests that want replies", "authed")
def many_requests(end):
    for _ in range(30):
        end.send_all([ASKED] * 100)
        for _ in range(100):
            end.until(81, 82, timeout=8)


@SERVER.special(CHANNELS, "300 global requests, unread at first", "authed")
def unread_requests(end):
    end.send_all([ASKED] * 300)
    for _ in range(300):
        end.until(81, 82, timeout=8)


@SERVER.special(CHANNELS, "2,000 env requests", "open")
def many_variables(end):
    for first in range(0, 2000, 100):
        pairs = [string(b"A%d" % number) + string(b"x" * 200) for number in range(first, first + 100)]
        end.send_all([channel_request(end, b"env", it, False) for it in pairs])


@SERVER.special(CHANNELS, "a small window and small packets are kept", "authed")
def small_window(end):
    sizes = []
    open_channel(end, 0, 40, 16)
    end.send(starting(end))
    end.until(99)
    end.heard[94] = lambda it: sizes.append(len(it) - 9)
    end.send(data(end, b"x" * 100))
    ended_with(end, (92,))
    try:
        end.until(250, timeout=0.7)
    except Late:
        pass
    end.note = f"{sum(sizes)} bytes, at most {max(sizes, default=0)} at once"
    if sum(sizes) > 40 or max(sizes, default=0) > 16:
        end.faults.append(("sent past the window", end.note))
    return OVER


@SERVER.special(CHANNELS, "data go on after WINDOW_ADJUST", "authed")
def more_window(end):
    open_channel(end, 0, 10)
    end.send(starting(end))
    end.until(99)
    sizes = []
    end.heard[94] = lambda it: sizes.append(len(it) - 9)
    end.send(data(end, b"x" * 100))
    while sum(sizes) < 10:
        end.receive()
    end.send(adjust(end, 90))
    while sum(sizes) < 100:
        end.receive()
    if sum(sizes) != 100:
        end.faults.append(("sent past the window", f"{sum(sizes)} bytes sent back of 100"))
    return "exec"


@SERVER.special(LATER, "10 exchanges in a row", "open")
def exchanges(end):
    for _ in range(10):
        end.exchange()


@SERVER.special(LATER, "exchange while data is echoed", "exec")
def busy_exchange(end):
    for _ in range(min(40, end.window // 4000)):
        end.send(data(end, b"x" * 4000))
    end.exchange()


@SERVER.special(LATER, "requests right before our KEXINIT", "exec")
def requests_before(end):
    replies = []
    end.heard[81] = end.heard[82] = replies.append
    end.mine, end.is_exchanging = end.kexinit(), True
    end.send_all([ASKED] * 20 + [end.mine])
    end.take_kexinit()
    end.exchange()
    ended_with(end, (91, 92))
    if len(replies) != 20:
        end.faults.append(("replies lost", f"{len(replies)} of 20 replies"))
    return OVER


def after_kexinit(name, make):
    """A packet between this end's KEXINIT and its NEWKEYS."""

    def act(end):
        end.send_kexinit()
        end.send(make(end))
        end.take_kexinit()
        return "rekey1"

    SERVER.special(LATER, name, "exec")(act)


after_kexinit("GLOBAL_REQUEST right after our KEXINIT", lambda end: ASKED)
after_kexinit("DATA right after our KEXINIT", lambda end: data(end, b"x"))
after_kexinit("SERVICE_REQUEST right after our KEXINIT", lambda end: service())


@SERVER.special(LATER, "a second KEXINIT in the exchange", "open")
def second_kexinit(end):
    end.send_kexinit()
    end.take_kexinit()
    end.send(end.kexinit())
    return "rekey1"


@SERVER.special(LATER, "later exchange without common methods", "open")
def nothing_common(end):
    end.send_kexinit(end.kexinit(b"foo@probe"))
    end.take_kexinit()
    return "rekey1"


@SERVER.special(LATER, "later exchange, share of small order", "rekey1")
def later_small_order(end):
    end.send(b"\x1e" + string(bytes(32)))
    end.until(31)
    return OVER


@SERVER.special(LATER, "old keys after NEWKEYS", "rekey2")
def old_keys(end):
    end.send(b"\x15")
    end.number_out, end.is_exchanging = 0 if end.is_strict else end.number_out, False
    return "rekeyed"


@SERVER.special(LATER, "new keys without NEWKEYS", "rekey2")
def no_newkeys(end):
    end.turn_out()
    return "rekeyed"


SERVER.sends(LATER, "CHANNEL_OPEN in place of NEWKEYS", "rekey2", channel_open(9))
EXTENSION = b"\7" + uint32(1) + string(b"ext@probe") + string(b"")
SERVER.sends(EXT, "EXT_INFO right after NEWKEYS", "keys", EXTENSION)
SERVER.sends(EXT, "EXT_INFO twice", "keys", EXTENSION, EXTENSION)
SERVER.sends(EXT, "EXT_INFO after SERVICE_ACCEPT", "service", EXTENSION)
SERVER.sends(EXT, "EXT_INFO after the login", "open", EXTENSION)
SERVER.sends(EXT, "EXT_INFO with a wrong count", "keys", b"\7" + uint32(2**32 - 1) + string(b"a") + string(b""))
SERVER.sends(EXT, "EXT_INFO after a later NEWKEYS", "rekeyed", EXTENSION)
