"""Special probes of servers: version lines, packets in the clear, KEXINITs, shares, strict key exchange."""

import os

from .catalogue import OVER
from .messages import DEBUG, IGNORE, NOTHING_192, SMALL_ORDER, UNIMPLEMENTED, password
from .server_states import NINE, SERVER
from .suites import CTR, agreed
from .tester import METHODS, STRICT
from .words import string, strings, uint32

LINE, CLEAR, INIT, SHARE, STRICTLY = "version line", "packet in the clear", "KEXINIT", "key share", "strict exchange"


def line(name, text):
    """A version line of its own, after which the exchange goes on."""

    def act(end):
        end.line = text.rstrip(b"\r\n")
        end.write(text)
        end.hear_line()
        end.send_kexinit()
        end.take_kexinit()
        return "kexinit"

    SERVER.special(LINE, name, "start")(act)


line("LF alone", b"SSH-2.0-probe\n")
line("a comment", b"SSH-2.0-probe and a comment\r\n")
line("SSH-1.99 of a client", b"SSH-1.99-probe\r\n")
line("SSH-1.5", b"SSH-1.5-probe\r\n")
line("SSH-2.1", b"SSH-2.1-probe\r\n")
line("SSH-3.0", b"SSH-3.0-probe\r\n")
line("no software", b"SSH-2.0-\r\n")
line("255 bytes", b"SSH-2.0-" + b"x" * 245 + b"\r\n")
line("256 bytes", b"SSH-2.0-" + b"x" * 246 + b"\r\n")
line("5,000 bytes", b"SSH-2.0-" + b"x" * 5000 + b"\r\n")
line("a byte 0 in it", b"SSH-2.0-pr\0be\r\n")


@SERVER.special(LINE, "another line before it", "start")
def other_line(end):
    end.write(b"hello\r\n")


def clear(name, data):
    SERVER.special(CLEAR, name, "lines")(lambda end: end.write(data))


clear("packet_length 0", uint32(0) + b"\4" * 12)
clear("packet_length 4", uint32(4) + b"\2\2\0\0" + b"\4" * 8)
clear("packet_length 2^31-1", uint32(2**31 - 1) + b"\4\2" * 200)
clear("packet_length 300,000", uint32(300000 - 4) + b"\4\2" * 20)
clear("length no multiple of 8", uint32(13) + b"\4\2" + uint32(3) + b"abc" + bytes(4))
clear("empty payload", uint32(12) + b"\x0b" + bytes(11))


def padded(name, count):
    """A KEXINIT of which a list grows until so many bytes of padding fit."""

    def act(end):
        longer = (end.kexinit(cipher=end.cipher + b"," + b"x" * more) for more in range(1, 17))
        end.send_kexinit(next(it for it in longer if (len(it) + 5 + count) % 8 == 0), padding=count)
        end.take_kexinit()
        return "kexinit"

    SERVER.special(CLEAR, name, "lines")(act)


padded("padding of 3 bytes", 3)
padded("padding of 255 bytes", 255)


@SERVER.special(CLEAR, "padding_length over the packet", "lines")
def padding_over(end):
    kexinit = end.kexinit()
    end.send_kexinit(kexinit, padding_length=255, padding=16 - (len(kexinit) + 5) % 8)
    end.take_kexinit()
    return "kexinit"


def kexinit(name, make):
    def act(end):
        end.send_kexinit(make(end))
        end.take_kexinit()
        return "kexinit"

    SERVER.special(INIT, name, "lines")(act)


def with_methods(more):
    return lambda end: end.kexinit(METHODS + more)


kexinit("reserved uint32 is 1", lambda end: end.kexinit(reserved=1))
kexinit("a byte too much", lambda end: end.kexinit(more=b"\0"))
kexinit("cut short", lambda end: end.kexinit()[:-3])
kexinit("without lists", lambda end: b"\x14" + bytes(16))
kexinit("no method in common", lambda end: end.kexinit(b"foo@example.com"))
kexinit("no cipher in common", lambda end: end.kexinit(cipher=b"foo@example.com"))
kexinit("list begins with a comma", lambda end: end.kexinit(b"," + METHODS))
kexinit("two commas", with_methods(b",,x@probe"))
kexinit("name of 65 characters", with_methods(b"," + b"x" * 65))
kexinit("name with a byte 255", with_methods(b",\xff\xfe"))
kexinit("name with a control character", with_methods(b",a\x1b[31m"))
kexinit("lists of 30,000 bytes", with_methods(b"".join(b",a%04d@probe" % it for it in range(2500))))
kexinit("same cipher 500 times", lambda end: end.kexinit(cipher=b",".join([end.cipher] * 500)))


def wrong_guess(name, follows, after):
    """A guess of a method that the server does not have, and a packet after it."""

    def act(end):
        end.send_kexinit(end.kexinit(b"wrong@probe," + METHODS, follows))
        end.take_kexinit()
        end.send(after(end))
        return "kexinit"

    SERVER.special(INIT, name, "lines")(act)


wrong_guess("wrong guess, a packet 30 follows", 1, lambda end: b"\x1e" + string(agreed(os.urandom(32))))
wrong_guess("wrong guess, a packet 2 follows", 1, lambda end: IGNORE)
wrong_guess("wrong guess, a packet 50 follows", 1, password)
wrong_guess("wrong guess, told by boolean 2", 2, lambda end: b"\x1e" + string(agreed(os.urandom(32))))


@SERVER.special(INIT, "right guess", "lines")
def right_guess(end):
    end.send_kexinit(end.kexinit(follows=1))
    end.send_share()
    end.take_kexinit()
    methods, host_keys = strings(end.theirs, 17, 2)[0]
    if methods.split(b",")[0] != METHODS.split(b",")[0] or host_keys.split(b",")[0] != b"ssh-ed25519":
        end.note = "the guess was wrong for this server"
        end.send_share()
    end.take_reply()
    return "reply"


def share(name, payload):
    def act(end):
        end.send(payload)
        end.until(31)
        return OVER

    SERVER.special(SHARE, name, "kexinit")(act)


for point_name, point in SMALL_ORDER.items():
    share(f"share of small order: {point_name}", b"\x1e" + string(point))
share("share of 31 bytes", b"\x1e" + string(b"x" * 31))
share("share of 33 bytes", b"\x1e" + string(b"x" * 33))
share("share of 0 bytes", b"\x1e" + string(b""))
share("share of string cut", b"\x1e" + uint32(64) + b"x" * 32)
share("a byte after the share", b"\x1e" + string(NINE) + b"\0")


@SERVER.special(SHARE, "a second KEX_ECDH_INIT", "kexinit")
def second_share(end):
    end.send_share()
    end.send(b"\x1e" + string(NINE))
    end.take_reply()
    return "reply"


@SERVER.special(SHARE, "NEWKEYS with a byte too much", "reply")
def longer_newkeys(end):
    end.send_newkeys(b"\0")
    return "keys"


def early(name, payload):
    """A packet before the KEXINIT."""

    def act(end):
        end.send(payload)
        end.send_kexinit()
        end.take_kexinit()
        return "kexinit"

    SERVER.special(STRICTLY, f"{name} before KEXINIT", "lines")(act)


early("IGNORE", IGNORE)
early("DEBUG", DEBUG)
early("UNIMPLEMENTED", UNIMPLEMENTED)
early("unknown 192", NOTHING_192)


@SERVER.special(STRICTLY, "number not set to 0 at NEWKEYS", "reply", CTR)
def going_on(end):
    number = end.number_out
    end.send_newkeys()
    end.number_out = number + 1
    return "keys"


def marker(name, make, is_strict=False):
    """A first KEXINIT of which the marker of strict exchange is another one."""

    def act(end):
        end.send_kexinit(make(end))
        end.take_kexinit()
        end.is_strict = is_strict and end.is_strict
        return "kexinit"

    SERVER.special(STRICTLY, name, "lines")(act)


marker("peer without the marker", lambda end: end.kexinit(marker=False))
marker("the other side's marker", lambda end: end.kexinit(METHODS + b"," + STRICT["server"], marker=False))
marker("the marker as the one method", lambda end: end.kexinit(STRICT["client"], marker=False), True)


@SERVER.special(STRICTLY, "second KEXINIT without the marker stays strict", "open")
def marker_once(end):
    end.send_kexinit(end.kexinit(marker=False))
    end.take_kexinit()
    end.send_share()
    end.take_reply()
    end.send_newkeys()
    return "rekeyed"
