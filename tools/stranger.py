"""Writes stored scripts in which one end meets a peer that keeps to no rules: attacks on real implementations, and messages that no end of this core sends.

Usage: stranger.py FOLDER. Each script delivers bytes to one end, and says what that end has to do. In some of them another end has made the exchange
and is told how the session ended. The bytes are made here, by another implementation of the exchange and of `hmac-sha2-256`, over the parts of the
scripts, which protect nothing: the point of a secret is the secret, two secrets share their exclusive or, a host signs a hash by itself, and a user
signs a text by its SHA-256."""

import hashlib
import hmac
import struct
import sys
from pathlib import Path

METHOD, ALGORITHM, HOST_KEY = b"curve25519-sha256", b"toy@example.com", b"toy-host"
MARKERS = {"c": b"kex-strict-c-v00@openssh.com", "s": b"kex-strict-s-v00@openssh.com"}
LINES = {"c": b"SSH-2.0-c", "s": b"SSH-2.0-s"}
COOKIES = {"c": bytes([0xC1]) * 16, "s": bytes([0xD1]) * 16}
SECRETS = {"c": bytes([1]) * 32, "s": bytes([2]) * 32}
NAMES = {2: "IGNORE", 3: "UNIMPLEMENTED", 4: "DEBUG", 5: "SERVICE_REQUEST", 20: "KEXINIT", 21: "NEWKEYS", 30: "KEX_ECDH_INIT", 31: "KEX_ECDH_REPLY",
         50: "USERAUTH_REQUEST", 52: "USERAUTH_SUCCESS", 53: "USERAUTH_BANNER", 93: "CHANNEL_WINDOW_ADJUST", 94: "CHANNEL_DATA"}
UNEXPECTED = ("refused 7 Unexpected", "sent 1 DISCONNECT 23", "died")
BAD_HOST = ("refused 11 BadHost", "sent 1 DISCONNECT 20", "died")
COMPLETED = ("sent 31 KEX_ECDH_REPLY 85", "sent 21 NEWKEYS 1", "told completed 1")


def string(text):
    return struct.pack(">I", len(text)) + text


def mpint(number):
    return string(number.to_bytes((number.bit_length() + 8) // 8, "big"))


def kexinit(side, extensions, is_strict=True, mac=b"hmac-sha2-256"):
    methods = [METHOD] + [b"ext-info-" + side.encode()] * (side in extensions) + [MARKERS[side]] * is_strict
    lists = [b",".join(methods), ALGORITHM, b"none", b"none", mac, mac, b"none", b"none", b"", b""]
    return b"\x14" + COOKIES[side] + b"".join(map(string, lists)) + bytes(5)


def framed(payload):
    """The packet of a payload, with the least padding (RFC 4253 section 6)."""
    padding = next(n for n in range(4, 20) if (5 + len(payload) + n) % 8 == 0 and 5 + len(payload) + n >= 16)
    return struct.pack(">IB", 1 + len(payload) + padding, padding) + payload + bytes(padding)


class Session:
    """The first exchange between the two ends of a script: its KEXINITs, its text and hash, which is the session id, and the MAC keys by who sends."""

    def __init__(self, extensions="", is_strict=True):
        self.inits = {side: kexinit(side, extensions, is_strict) for side in "cs"}
        shared = mpint(int.from_bytes(bytes(a ^ b for a, b in zip(SECRETS["c"], SECRETS["s"])), "big"))
        inputs = [LINES["c"], LINES["s"], self.inits["c"], self.inits["s"], HOST_KEY, SECRETS["c"], SECRETS["s"]]
        self.text = b"".join(map(string, inputs)) + shared
        self.id = hashlib.sha256(self.text).digest()
        self.keys = {side: hashlib.sha256(shared + self.id + letter + self.id).digest() for side, letter in (("c", b"E"), ("s", b"F"))}


class Script:
    """What is delivered to the end of one side, and what it has to do. Nothing of the other end is delivered."""

    def __init__(self, about, to, extensions="", user="", is_strict=True, settings=()):
        self.to, self.peer = to, "cs".replace(to, "")
        self.session = Session(extensions, is_strict)
        self.number, self.first_number = None, 0 if is_strict else 3
        settings = settings or [f"ext {side}" for side in extensions]
        self.lines = [f"# {line}" for line in about] + [*settings] + [user] * bool(user)
        self.opened = [f"> {side} sent {what}" for side in "cs" for what in ("line 9", f"20 KEXINIT {len(self.session.inits[side])}")]

    def does(self, line, *expected):
        """A line of the script, and what is expected of it."""
        self.lines += [line] + self.opened + [f"> {item}" for item in expected]
        self.opened = []

    def deliver(self, data, expected):
        self.does(f"give {self.to} {data.hex()}", *(f"{self.to} {item}" for item in expected))

    def line(self):
        self.deliver(LINES[self.peer] + b"\r\n", ["took line 9"])

    def refused(self, payload, expected=UNEXPECTED):
        self.deliver(self.packet(payload), expected)

    def taken(self, payload, *answer):
        self.deliver(self.packet(payload), [f"took {payload[0]} {NAMES.get(payload[0], 'UNKNOWN')} {len(payload)}", *answer])

    def packet(self, payload):
        """The payload's packet: in the clear, or under the key of the peer once it gave NEWKEYS."""
        if self.number is None:
            self.number = self.first_number if payload[0] == 21 else None
            return framed(payload)
        packet, number = framed(payload), self.number
        self.number += 1
        return packet + hmac.new(self.session.keys[self.peer], struct.pack(">I", number) + packet, hashlib.sha256).digest()

    def stranger_with_keys(self, answer=COMPLETED):
        """A client that makes the exchange with the server as it should, and then asks for the service of authentication."""
        self.line()
        self.taken(self.session.inits["c"])
        self.taken(b"\x1e" + string(SECRETS["c"]), *answer)
        self.taken(b"\x15")
        self.taken(b"\x05" + string(b"ssh-userauth"), "sent 6 SERVICE_ACCEPT 17")

    def two_ends_with_keys(self):
        """Both ends have made the exchange. What comes then is sealed here in place of the peer, under this number."""
        self.does("pass c s all", "s took line 9", "s took 20 KEXINIT 165")
        self.does("pass s c all", "c took line 9", "c took 20 KEXINIT 165", "c sent 30 KEX_ECDH_INIT 37")
        self.does("pass c s all", "s took 30 KEX_ECDH_INIT 37", *(f"s {item}" for item in COMPLETED))
        self.does("pass s c all", "c took 31 KEX_ECDH_REPLY 85", "c sent 21 NEWKEYS 1", "c told completed 1", "c took 21 NEWKEYS 1")
        self.does("pass c s all", "s took 21 NEWKEYS 1")
        self.number = 0

    def two_ends_with_service(self):
        self.two_ends_with_keys()
        self.does("ask c service", "c asked service", "c sent 5 SERVICE_REQUEST 17")
        self.does("pass c s all", "s took 5 SERVICE_REQUEST 17", "s sent 6 SERVICE_ACCEPT 17")
        self.does("pass s c all", "c took 6 SERVICE_ACCEPT 17", "c told service")
        self.number = 1

    def two_ends_with_user(self):
        self.two_ends_with_service()
        self.does("ask c password u p", "c asked password", "c sent 50 USERAUTH_REQUEST 42")
        self.does("pass c s all", "s took 50 USERAUTH_REQUEST 42", "s sent 52 USERAUTH_SUCCESS 1", "s told accepted")
        self.does("pass s c all", "c took 52 USERAUTH_SUCCESS 1", "c told authenticated")
        self.number = 2

    def two_ends_with_channel(self, longest=32768):
        """Channel 0 of both ends, with a window of 10 bytes each way. The server takes messages of at most so many bytes."""
        self.two_ends_with_user()
        self.does("ask c open session 10 32768", "c asked open", "c sent 90 CHANNEL_OPEN 24", "c told opening 0")
        self.does("pass c s all", "s took 90 CHANNEL_OPEN 24", "s told open 0")
        self.does(f"ask s confirm 0 10 {longest}", "s asked confirm", "s sent 91 CHANNEL_OPEN_CONFIRMATION 17")
        self.does("pass s c all", "c took 91 CHANNEL_OPEN_CONFIRMATION 17", "c told confirmed 0")
        self.number = 3

    def both_are_over(self, payload, refusal, code):
        """This payload is refused, and the other end learns why."""
        size = 13 + len(refusal.split()[1])
        self.deliver(self.packet(payload), (f"refused {refusal}", f"sent 1 DISCONNECT {size}", "died"))
        self.does(f"pass {self.to} {self.peer} all", *self.disconnected(size, code))

    def disconnected(self, size, code):
        return f"{self.peer} took 1 DISCONNECT {size}", f"{self.peer} told disconnected {code}", f"{self.peer} died"

    def text(self):
        return "\n".join(self.lines) + "\n"


def request(method, *fields):
    return b"\x32" + string(b"u") + string(b"ssh-connection") + string(method) + b"".join(fields)


def success_from_the_client():
    script = Script(["A client that has keys of its own says itself that it is authenticated, and opens a channel (libssh, CVE-2018-10933)."], "s", user="user u p")
    script.stranger_with_keys()
    script.refused(b"\x34")
    return script


def exec_before_login():
    about = ["A client that has keys of its own opens no channel and is not authenticated, and asks for a command to be run (Erlang/OTP, CVE-2025-32433)."]
    script = Script(about, "s", user="user u p")
    script.stranger_with_keys()
    script.refused(b"\x62" + bytes(4) + string(b"exec") + b"\x01" + string(b"id"))
    return script


def open_without_a_service():
    about = ["A client that has keys of its own opens a channel right after NEWKEYS, before it asks for any service (Erlang/OTP, CVE-2025-32433)."]
    script = Script(about, "s", user="user u p")
    script.line()
    script.taken(script.session.inits["c"])
    script.taken(b"\x1e" + string(SECRETS["c"]), *COMPLETED)
    script.taken(b"\x15")
    script.refused(b"\x5a" + string(b"session") + struct.pack(">III", 0, 1 << 20, 32768))
    return script


def request_in_the_clear():
    about = ["Somebody between the ends puts a request for authentication in front of the client's NEWKEYS, to log it in as another (AsyncSSH, CVE-2023-46446)."]
    script = Script(about, "s", user="user u p")
    script.line()
    script.taken(script.session.inits["c"])
    script.taken(b"\x1e" + string(SECRETS["c"]), *COMPLETED)
    script.refused(request(b"password", b"\0", string(b"p")))
    return script


def extensions_in_the_clear():
    about = ["Somebody between the ends puts extensions in front of the server's NEWKEYS, which the client would heed (AsyncSSH, CVE-2023-46445)."]
    script = Script(about, "c", extensions="c")
    script.line()
    script.taken(script.session.inits["s"], "sent 30 KEX_ECDH_INIT 37")
    script.taken(b"\x1f" + string(HOST_KEY) + string(SECRETS["s"]) + string(script.session.id), "sent 21 NEWKEYS 1", "told completed 1")
    script.refused(b"\x07" + struct.pack(">I", 1) + string(b"server-sig-algs") + string(b"none"))
    return script


def ignore_in_the_exchange():
    about = ["Somebody between the ends puts IGNORE into the first exchange, to drop the server's first packet after NEWKEYS unseen (Terrapin, CVE-2023-48795)."]
    script = Script(about, "c", extensions="cs")
    script.line()
    script.taken(script.session.inits["s"], "sent 30 KEX_ECDH_INIT 37")
    script.refused(b"\x02" + bytes(4))
    return script


def host_signature_of_another_session():
    about = ["A false server shows the host's signature of another exchange, whose KEXINITs had other markers."]
    script = Script(about, "c")
    script.line()
    script.taken(script.session.inits["s"], "sent 30 KEX_ECDH_INIT 37")
    script.refused(b"\x1f" + string(HOST_KEY) + string(SECRETS["s"]) + string(Session("cs").id), BAD_HOST)
    return script


def user_signature_of_another_session():
    about = ["A client shows a user's signature of a request in another session, and then that of the same request in this one."]
    script = Script(about, "s", user="key u aa")
    script.stranger_with_keys()

    def signed(session):
        fields = b"\x01" + string(ALGORITHM) + string(b"\xaa")
        text = string(session.id) + request(b"publickey", fields)
        return request(b"publickey", fields, string(hashlib.sha256(text).digest()))

    script.taken(signed(Session("cs")), "sent 51 USERAUTH_FAILURE 24")
    script.taken(signed(script.session), "sent 52 USERAUTH_SUCCESS 1", "told accepted")
    return script


def other_version():
    script = Script(["A client of version 1.99 of the protocol. Nothing is said to a peer of another version."], "s")
    script.deliver(b"SSH-1.99-x\r\n", ("refused 2 BadVersion", "died"))
    return script


def no_common_mac():
    about = ["A client offers no MAC that the server has. The other end takes the DISCONNECT in the clear, in its first exchange."]
    script = Script(about, "s")
    script.line()
    script.deliver(framed(kexinit("c", "", mac=b"hmac-sha1")), ("refused 8 NoCommon", "sent 1 DISCONNECT 21", "died"))
    script.does("pass s c all", "c took line 9", "c took 20 KEXINIT 165", "c sent 30 KEX_ECDH_INIT 37", *script.disconnected(21, 3))
    return script


def other_service():
    script = Script(["A client asks for the service of channels, before that of authentication."], "s")
    script.two_ends_with_keys()
    script.both_are_over(b"\x05" + string(b"ssh-connection"), "13 NoService", 7)
    return script


def data_over_the_window():
    script = Script(["11 bytes of data come into a window of 10."], "s", user="user u p")
    script.two_ends_with_channel()
    script.both_are_over(b"\x5e" + bytes(4) + string(b"a" * 11), "17 WindowOverrun", 2)
    return script


def data_over_the_longest():
    script = Script(["Data of 6 bytes come on a channel that takes at most 5 in a message. Its window has 10."], "s", user="user u p")
    script.two_ends_with_channel(longest=5)
    script.both_are_over(b"\x5e" + bytes(4) + string(b"a" * 6), "17 WindowOverrun", 2)
    return script


def window_over_the_largest():
    about = ["A window of 10 bytes grows by 4294967285, to the largest that there is, and then by one more."]
    script = Script(about, "s", user="user u p")
    script.two_ends_with_channel()
    adjust = b"\x5d" + bytes(4)
    script.taken(adjust + struct.pack(">I", 2**32 - 11), f"told adjusted 0 {2**32 - 11}")
    script.both_are_over(adjust + struct.pack(">I", 1), "18 WindowTooLarge", 2)
    return script


def requests_after_success():
    about = ["A client that is authenticated asks again, by the right password and by a wrong one. Both requests are ignored (RFC 4252 section 5.3)."]
    script = Script(about, "s", user="user u p")
    script.stranger_with_keys()
    script.taken(request(b"password", b"\0", string(b"p")), "sent 52 USERAUTH_SUCCESS 1", "told accepted")
    script.taken(request(b"password", b"\0", string(b"p")), "told ignored")
    script.taken(request(b"password", b"\0", string(b"q")), "told ignored")
    return script


def banner_and_debug():
    about = ["A server sends what no end of this core sends: a banner, a message for debugging, and numbers that the client does not know."]
    script = Script(about, "c", user="user u p")
    script.two_ends_with_service()
    script.taken(b"\x35" + string(b"hello") + string(b""), "told banner")
    script.taken(b"\x04\x01" + string(b"here") + string(b"en"), "told debug")
    script.taken(b"\x03" + struct.pack(">I", 5), "told unimplemented 5")
    script.taken(b"\x4d", "sent 3 UNIMPLEMENTED 5")
    script.does("ask c password u p", "c asked password", "c sent 50 USERAUTH_REQUEST 42")
    script.taken(b"\x34", "told authenticated")
    script.taken(b"\xc0", "sent 3 UNIMPLEMENTED 5")
    return script


def over_the_limit(script, ask, sent, reply, answer, done, payload):
    """256 requests of the peer wait for a reply at the end. One more is not asked for, and is refused where it comes all the same."""
    to, peer = script.to, script.peer
    asked, told = f"{peer} asked {ask.split()[0]}", f"{to} told {ask.removesuffix(' x')}"
    for _ in range(256):
        script.does(f"ask {peer} {ask} yes", asked, f"{peer} sent {sent}")
    script.does(f"ask {peer} {ask} yes", asked, f"{peer} ask refused 2 Busy")
    script.does(f"ask {peer} {ask} no", asked, f"{peer} sent {sent}")
    script.does(f"pass {peer} {to} all", *[f"{to} took {sent}", told] * 257)
    script.does(f"ask {to} {reply}", f"{to} asked {reply.split()[0]}", f"{to} sent {answer}")
    script.does(f"pass {to} {peer} all", f"{peer} took {answer}", f"{peer} told {done}")
    script.does(f"ask {peer} {ask} yes", asked, f"{peer} sent {sent}")
    script.does(f"pass {peer} {to} all", f"{to} took {sent}", told)
    script.number += 258
    script.both_are_over(payload, "19 OwedFull", 2)
    return script


def requests_at(to, end):
    about = [f"256 requests wait for a reply at a channel of the {end}. One more is not asked for, and is refused where it comes all the same."]
    script = Script(about, to, user="user u p")
    script.two_ends_with_channel()
    request = b"\x62" + bytes(4) + string(b"x") + b"\x01"
    return over_the_limit(script, "request 0 x", "98 CHANNEL_REQUEST 11", "reply 0 yes", "99 CHANNEL_SUCCESS 5", "request_done 0 yes", request)


def globals_at(to, end):
    about = [f"256 global requests wait for a reply at the {end}. One more is not asked for, and is refused where it comes all the same."]
    script = Script(about, to, user="user u p")
    script.two_ends_with_user()
    request = b"\x50" + string(b"x") + b"\x01"
    return over_the_limit(script, "global x", "80 GLOBAL_REQUEST 7", "globalreply no", "82 REQUEST_FAILURE 1", "global_done no", request)


def requests_over_the_limit():
    return requests_at("s", "server")


def requests_over_the_clients_limit():
    return requests_at("c", "client")


def globals_over_the_limit():
    return globals_at("c", "client")


def globals_over_the_servers_limit():
    return globals_at("s", "server")


def keys_of_a_plain_session():
    about = ["Both ends do without strict key exchange. The text that is hashed has 426 bytes, and numbers go on after NEWKEYS."]
    script = Script(about, "s", is_strict=False, settings=("strict c off", "strict s off"))
    assert len(script.session.text) == 426
    script.stranger_with_keys()
    return script


def keys_with_extensions():
    about = ["Both ends take extensions, and the server announces one right after NEWKEYS. The text that is hashed has 506 bytes."]
    settings = "ext c", "ext s server-sig-algs " + ALGORITHM.hex()
    script = Script(about, "s", extensions="cs", settings=settings)
    assert len(script.session.text) == 506
    script.stranger_with_keys(("sent 31 KEX_ECDH_REPLY 85", "sent 21 NEWKEYS 1", "sent 7 EXT_INFO 43", "told completed 1"))
    return script


SCRIPTS = (success_from_the_client, exec_before_login, open_without_a_service, request_in_the_clear, extensions_in_the_clear, ignore_in_the_exchange,
           host_signature_of_another_session, user_signature_of_another_session, other_version, no_common_mac, other_service, data_over_the_window,
           data_over_the_longest, window_over_the_largest, requests_after_success, banner_and_debug, requests_over_the_limit, requests_over_the_clients_limit,
           globals_over_the_limit, globals_over_the_servers_limit, keys_of_a_plain_session, keys_with_extensions)


def main(folder):
    for script in SCRIPTS:
        Path(folder, f"{script.__name__}.txt").write_text(script().text())


if __name__ == "__main__":
    main(sys.argv[1])
