"""A small server in Python with one planted bug at a time, for the score of the tester. Without a bug it answers as the proved server
does."""

import struct
import time

from divrelca.probe.links import Closed, Late
from divrelca.probe.messages import blob, signature_of
from divrelca.probe.suites import is_signed
from divrelca.probe.tester import METHODS, STRICT, Tester
from divrelca.probe.words import number_at, string, strings, uint32

# what each bug is, and a text that some probe that finds it has; None where nobody can see it from outside
BUGS = {
    "success_of_the_client": ("SUCCESS by the client logs in", "52 SUCCESS, then"),
    "channels_before_login": ("channels are taken before the login", "nothing, then CHANNEL_OPEN"),
    "channel_in_first_exchange": ("CHANNEL_OPEN in the first exchange is taken", "kexinit 90"),
    "login_in_clear": ("a login in the first exchange counts", "login in the clear"),
    "ignore_in_first_exchange": ("IGNORE and DEBUG are taken in the first exchange", "kexinit 2"),
    "number_goes_on": ("the number that is awaited is not set to 0 at NEWKEYS: AES-GCM has no number on the wire", None),
    "any_session_id": ("the session id in a signature is not looked at", "another session"),
    "any_signature": ("a signature is not looked at", "signature spoilt"),
    "any_user": ("a key lets in any user", "for another user"),
    "tries_without_end": ("failures are not counted", "30 wrong"),
    "guess_is_taken": ("the packet after a wrong guess is taken", "a packet 30 follows"),
    "window_not_kept": ("sends past the window of the peer", "a small window"),
    "window_not_counted": ("takes data past its own window", "data past the window"),
    "second_kexinit": ("a second KEXINIT is taken", "a second KEXINIT"),
    "unknown_ends": ("an unknown message ends the session", "authed 79"),
    "unknown_in_silence": ("an unknown message is not answered", "authed 79"),
    "extensions_anywhere": ("EXT_INFO is taken at any place", "EXT_INFO after the login"),
    "request_after_login": ("a request after SUCCESS is judged", "authed 50"),
    "close_unanswered": ("CLOSE is not answered", "CLOSE is answered"),
    "replies_swapped": ("replies come in another order", "in the order of the requests"),
    "newkeys_anywhere": ("NEWKEYS outside of an exchange is taken", "authed 21"),
    "data_after_eof": ("data after EOF are taken", "DATA after EOF"),
    "kexinit_loose": ("a KEXINIT with bytes left over is taken", "KEXINIT lines a byte too much"),
    "adjust_wraps": ("a window grows past 2^32-1", "window grows"),
    "stalls_after_newkeys": ("stands still after a later exchange", "10 exchanges"),
    "dies_at_x11": ("dies at an OPEN of type x11: as a connection that ends", "OPEN x11"),
}
WINDOW, MOST = 2**21, 32768
FIRST_METHOD = METHODS.split(b",")[0]


class Ended(Exception):
    """The server ends the session."""


class Planted(Tester):
    """A server over a link, which `serve` runs to the end of the session."""

    def __init__(self, link, target, bug):
        super().__init__(link, "server", target, 20)
        self.bug, self.is_in, self.has_service, self.tries = bug, False, False, 0
        self.channels, self.held, self.late = {}, [], None

    def serve(self):
        try:
            self.say_line()
            self.send_kexinit()
            self.take_line()
            self.exchange_with(None)
            while True:
                self.take(self.held.pop(0) if self.held else self.whole())
        except (Ended, Closed, Late, OSError):
            pass
        except (struct.error, IndexError, ValueError):
            self.said_goodbye()
        self.link.close()

    def said_goodbye(self):
        try:
            self.send(b"\1" + uint32(2) + string(b"refused") + string(b""))
        except (Closed, Late, OSError):
            pass

    def refuse(self):
        self.said_goodbye()
        raise Ended

    def take_line(self):
        line, self._limit = b"", time.monotonic() + 20
        while not line.endswith(b"\n"):
            line += self.read(1)
            if len(line) > 255:
                raise Ended
        if not line.startswith(b"SSH-2.0-") or not line.endswith(b"\r\n") or len(line) < 11 or b"\0" in line:
            raise Ended
        self.peer_line = line[:-2]

    def whole(self):
        return self.receive() or self.refuse()

    def until(self, *numbers, timeout=None, test=None):
        """In an exchange: the one message that is awaited. Another one is refused, or dealt with where that is planted."""
        while True:
            message = self.whole()
            if message[0] in numbers:
                if message[0] == 30 and (len(message) != 37 or number_at(message, 1) != 32) or message[0] == 21 and len(message) != 1:
                    self.refuse()
                return message
            if not self.bears(message):
                self.refuse()

    def bears(self, message):
        """Whether a message goes by in an exchange."""
        number, first = message[0], self.is_first
        held = {"channel_in_first_exchange": (90, 98), "login_in_clear": (5, 50)}.get(self.bug, ())
        if first and number in held:
            self.held.append(message)
            return True
        if first:
            return self.bug == "ignore_in_first_exchange" and number in (2, 4)
        if number == 20 and self.bug == "second_kexinit":
            self.theirs = message
            return True
        if number in (8, 19, 29):
            self.send(b"\3" + uint32(self.number_in - 1))
            return True
        return number in (2, 3, 4)

    def words_of(self, kexinit):
        """The methods and whether a guess follows, of a KEXINIT that is whole."""
        lists, at = strings(kexinit, 17, 10)
        left = len(kexinit) - at - 5
        names = [name for it in lists if it for name in it.split(b",")]
        if left < 0 or left > 0 and self.bug != "kexinit_loose" or any(kexinit[at + 1 : at + 5]):
            self.refuse()
        if any(not 0 < len(it) <= 64 or any(byte < 33 or byte > 126 for byte in it) for it in names):
            self.refuse()
        methods = lists[0].split(b",")
        if not set(methods) & set(METHODS.split(b",")) or self.cipher not in lists[2].split(b","):
            self.refuse()
        return methods, kexinit[at]

    def exchange_with(self, theirs):
        self.is_first = self.session_id is None
        if not self.is_exchanging:
            self.send_kexinit()
        self.theirs = theirs or self.until(20)
        methods, follows = self.words_of(self.theirs)
        if self.is_first:
            self.is_strict = STRICT["client"] in methods
        if not self.is_strict:
            self.refuse()
        if follows and methods[0] != FIRST_METHOD and self.bug != "guess_is_taken" and not 30 <= self.whole()[0] <= 49:
            self.refuse()
        self.answer_share()
        self.send_newkeys()
        self.take_newkeys()
        if self.bug == "stalls_after_newkeys" and not self.is_first:
            time.sleep(20)

    def take(self, message):
        """One message outside of an exchange."""
        number = message[0]
        if number in (2, 3, 4) or number == 21 and self.bug == "newkeys_anywhere" or number == 7 and self.bug == "extensions_anywhere":
            return
        if number == 5:
            if self.has_service or message[5:] != b"ssh-userauth":
                self.refuse()
            self.has_service = True
            self.send(b"\6" + message[1:])
        elif number == 52 and self.bug == "success_of_the_client":
            self.is_in = True
        elif number == 20 and self.is_in:
            self.exchange_with(message)
        elif number == 50:
            self.authenticate(message)
        elif number in (6, 7, 20, 21, 30, 31, 51, 52, 53, 60):
            self.refuse()
        elif number in (*range(80, 83), *range(90, 101)):
            early = self.bug == "channels_before_login" or self.bug == "channel_in_first_exchange" and number in (90, 98)
            if not self.is_in and not early:
                self.refuse()
            self.connection(message)
        else:
            self.unknown(number)

    def unknown(self, number):
        if number >= 80 and not self.is_in or self.bug == "unknown_ends":
            self.refuse()
        if self.bug != "unknown_in_silence":
            self.send(b"\3" + uint32(self.number_in - 1))

    def authenticate(self, message):
        if not self.has_service:
            self.refuse()
        if self.is_in and self.bug != "request_after_login":
            return
        (user, wanted, method), at = strings(message, 1, 3)
        if method == b"none" and at != len(message):
            self.refuse()
        judged = {b"password": self.by_password, b"publickey": self.by_key}.get(method, lambda *_: False)(message, at, user)
        if judged is None:
            return
        if judged and wanted == b"ssh-connection":
            self.is_in = True
            self.send(b"\x34")
            return
        self.tries += 1
        if self.tries > 6 and self.bug != "tries_without_end":
            self.refuse()
        self.send(b"\x33" + string(b"publickey,password") + b"\0")

    def by_password(self, message, at, user):
        (word,), end = strings(message, at + 1, 1)
        if not message[at] and end != len(message):
            self.refuse()
        return user == self.target.user and word == self.target.password and not message[at]

    def by_key(self, message, at, user):
        (algorithm, key), end = strings(message, at + 1, 2)
        known = key == blob(self.target.key) and algorithm == b"ssh-ed25519" and (user == self.target.user or self.bug == "any_user")
        if not message[at]:
            if known:
                self.send(b"\x3c" + string(algorithm) + string(key))
            return None if known else False
        (signature,), after = strings(message, end, 1)
        if after != len(message):
            self.refuse()
        if not known or len(signature) != len(signature_of(bytes(64))):
            return False
        signed = strings(signature, 0, 2)[0][1]
        ids = [self.session_id, bytes(32)] if self.bug == "any_session_id" else [self.session_id]
        return self.bug == "any_signature" or any(is_signed(self.target.key.public, string(it) + message[:end], signed) for it in ids)

    def connection(self, message):
        number = message[0]
        if number == 80:
            self.answer_global(message)
        elif number == 90:
            self.open(message)
        else:
            channel = self.channels.get(number_at(message, 1)) if number not in (81, 82) else None
            if channel is None or number in (91, 92, 99, 100):
                self.refuse()
            {93: self.adjusted, 94: self.data, 95: self.data, 96: self.eof, 97: self.close, 98: self.requested}[number](channel, message)

    def answer_global(self, message):
        _, at = strings(message, 1, 1)
        if message[at]:
            self.send(b"\x52")

    def open(self, message):
        (kind,), at = strings(message, 1, 1)
        sender, window, most = struct.unpack(">III", message[at : at + 12])
        if kind == b"x11" and self.bug == "dies_at_x11":
            raise Ended
        if kind != b"session" or len(self.channels) > 1000:
            self.send(b"\x5c" + uint32(sender) + uint32(3) + string(b"") + string(b""))
            return
        number = next(it for it in range(1025) if it not in self.channels)
        begun = {"to": sender, "window": window, "most": most, "number": number}
        self.channels[number] = {**begun, "left": WINDOW, "run": None, "ended": False, "out": b""}
        self.send(b"\x5b" + uint32(sender) + uint32(number) + uint32(WINDOW) + uint32(MOST))

    def adjusted(self, channel, message):
        channel["window"] += number_at(message, 5)
        if channel["window"] >= 2**32 and self.bug != "adjust_wraps":
            self.refuse()
        channel["window"] %= 2**32
        self.flow(channel)

    def data(self, channel, message):
        text = strings(message, 5 if message[0] == 94 else 9, 1)[0][0]
        channel["left"] -= len(text)
        late, over = channel["ended"] and self.bug != "data_after_eof", channel["left"] < 0 and self.bug != "window_not_counted"
        if late or over or len(text) > MOST:
            self.refuse()
        if channel["run"] is None:
            return
        if message[0] == 94:
            channel["out"] += text
            self.flow(channel)
        if not channel["out"]:
            channel["left"] += len(text)
            self.send(b"\x5d" + uint32(channel["to"]) + uint32(len(text)))

    def eof(self, channel, _):
        if channel["ended"]:
            self.refuse()
        channel["ended"] = True

    def close(self, channel, _):
        del self.channels[channel["number"]]
        if self.bug != "close_unanswered":
            self.send(b"\x61" + uint32(channel["to"]))

    def requested(self, channel, message):
        (kind,), at = strings(message, 5, 1)
        whole = kind == b"exec" and channel["run"] is None and len(message) >= at + 5
        whole = whole and len(message) == at + 5 + number_at(message, at + 1)
        if whole:
            channel["run"] = message[at + 5 :]
        reply = bytes([99 if whole else 100]) + uint32(channel["to"])
        if message[at] and not whole and self.bug == "replies_swapped":
            self.late = reply
            return
        if message[at]:
            self.send(reply)
        if self.late:
            late, self.late = self.late, None
            self.send(late)

    def flow(self, channel):
        """Sends what came back, as window and packets allow."""
        while channel["out"]:
            room = 2**32 if self.bug == "window_not_kept" else channel["window"]
            count = min(len(channel["out"]), channel["most"], MOST, room)
            if not count:
                return
            self.send(b"\x5e" + uint32(channel["to"]) + string(channel["out"][:count]))
            channel["out"] = channel["out"][count:]
            channel["window"] = max(0, channel["window"] - count)
