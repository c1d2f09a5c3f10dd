"""A second reading of SSH: an end as a machine that is told its items one after another, and says what it may take, refuses and counts.

It was written from RFC 4250 to 4254, RFC 5656 section 4, RFC 8308 and the strict key exchange of OpenSSH's file PROTOCOL, with the choices of
docs/STRICTER.md. The definitions of ssh_model are functions of a history; here there is no history, but a state that each item changes.
`drawn` draws histories by it, and the crate test_histories has the prover compare the two readings."""

import struct
from dataclasses import dataclass, field

NUMBERS = {"Disconnect": 1, "Ignore": 2, "Unimplemented": 3, "Debug": 4, "ServiceRequest": 5, "ServiceAccept": 6, "ExtInfo": 7, "KexInit": 20, "NewKeys": 21,
           "KexEcdhInit": 30, "KexEcdhReply": 31, "UserauthRequest": 50, "UserauthFailure": 51, "UserauthSuccess": 52, "UserauthBanner": 53, "UserauthPkOk": 60,
           "GlobalRequest": 80, "RequestSuccess": 81, "RequestFailure": 82, "ChannelOpen": 90, "ChannelOpenConfirmation": 91, "ChannelOpenFailure": 92,
           "ChannelWindowAdjust": 93, "ChannelData": 94, "ChannelExtendedData": 95, "ChannelEof": 96, "ChannelClose": 97, "ChannelRequest": 98,
           "ChannelSuccess": 99, "ChannelFailure": 100}
KNOWN = set(NUMBERS.values())
REFUSALS = ("BadLine BadVersion BadLength BadPadding BadTag BadMessage Unexpected NoCommon NotStrict BadPoint BadHost NoMaterial NoService NumberSpent "
            "TooManyTries UnknownChannel WindowOverrun WindowTooLarge OwedFull").split()
ASK_REFUSALS = "NotYet Busy NoChannel NoRoom TooLong Ended TableFull NothingOwed RekeyDue TooMuch WrongSide NoMaterial".split()
REASONS = dict(BadLine=None, BadVersion=None, BadTag=5, NoCommon=3, NotStrict=3, BadPoint=3, BadHost=9, NoMaterial=3, NoService=7, TooManyTries=14)
STRICT = {"Client": b"kex-strict-c-v00@openssh.com", "Server": b"kex-strict-s-v00@openssh.com"}
EXTENDS = {"Client": b"ext-info-c", "Server": b"ext-info-s"}
MARKERS = {*STRICT.values(), *EXTENDS.values()}
USERAUTH, CONNECTION = b"ssh-userauth", b"ssh-connection"
LARGEST_WINDOW, LARGEST_DATA = 2**32 - 1, 32768
KINDS = ("kex", "host", "enc_cs", "enc_sc", "mac_cs", "mac_sc", "comp_cs", "comp_sc")


def peer_of(side):
    return "Server" if side == "Client" else "Client"


def string(text):
    return struct.pack(">I", len(text)) + text


@dataclass(frozen=True)
class Some:
    """A value that may be missing; it is missing where None stands."""

    value: object


class Word(str):
    """A value that has a name of its own: a method without fields, for example."""


@dataclass(frozen=True)
class Made:
    """A value of the word that makes it and its fields: a message, an item, an ask or a fact."""

    word: str
    fields: tuple = ()

    @property
    def number(self):
        return self.fields[0] if self.word == "Unknown" else NUMBERS[self.word]


def made(word, *fields):
    return Made(word, fields)


@dataclass(frozen=True)
class Proposal:
    kex: tuple
    host: tuple
    enc_cs: tuple
    enc_sc: tuple
    mac_cs: tuple
    mac_sc: tuple
    comp_cs: tuple = (b"none",)
    comp_sc: tuple = (b"none",)
    follows: bool = False
    cookie: bytes = b""


@dataclass(frozen=True)
class Settings:
    line: bytes
    kex: tuple
    host: tuple
    encryption: tuple
    mac: tuple
    epoch_limit: int = 12
    tries: int = 2
    methods: tuple = (b"publickey", b"password")
    strictness: str = "Require"
    takes_extensions: bool = False
    extensions: tuple = ()

    def offer(self, side, first, cookie=b""):
        """RFC 4253 section 7.1; the markers stand in the first KEXINIT alone, behind the methods."""
        markers = ((EXTENDS[side],) if self.takes_extensions else ()) + ((STRICT[side],) if self.strictness != "Off" else ())
        return Proposal(self.kex + (markers if first else ()), self.host, self.encryption, self.encryption, self.mac, self.mac,
                        cookie=cookie)


def methods_of(proposal):
    return [name for name in proposal.kex if name not in MARKERS]


def chosen(client, server):
    """RFC 4253 section 7.1: of each kind the first name of the client's list that the server lists too, or None."""
    lists = [(methods_of(client), methods_of(server)) if kind == "kex" else (getattr(client, kind), getattr(server, kind)) for kind in KINDS]
    return [next((name for name in ours if name in theirs), None) for ours, theirs in lists]


def guess_is_wrong(theirs, ours):
    """RFC 4253 section 7: a packet follows, and the preferred methods or the preferred host keys differ. That other algorithms cannot be agreed
    upon makes a guess wrong too; then the exchange fails anyway, and nothing is asked of the guess."""
    return theirs.follows and (methods_of(theirs)[:1] != methods_of(ours)[:1] or theirs.host[:1] != ours.host[:1])


@dataclass
class Direction:
    """The packets that go one way: how many NEWKEYS there were, the packets since and after the first, and the number of the next."""

    epoch: int = 0
    since: int = 0
    later: int = 0
    number: int = 0

    def packet(self, is_newkeys, is_strict):
        self.later += self.epoch > 0
        self.since, self.number = self.since + 1, (self.number + 1) % 2**32
        if is_newkeys:
            self.epoch, self.since = self.epoch + 1, 0
            self.number = 0 if is_strict else self.number


@dataclass
class Channel:
    """RFC 4254 section 5. `window` and `most` are what the peer may still send, `room` and `largest` what this end may."""

    is_mine: bool
    window: int = 0
    most: int = 0
    room: int = 0
    largest: int = 0
    theirs: int = 0
    is_confirmed: bool = False
    ended: bool = False
    closed: bool = False
    peer_ended: bool = False
    peer_closed: bool = False
    here: int = 0
    there: int = 0

    @property
    def is_open(self):
        return self.is_confirmed and not self.peer_closed


@dataclass
class Exchange:
    client_line: bytes
    server_line: bytes
    client_init: bytes
    server_init: bytes
    host_key: bytes
    client_point: bytes
    server_point: bytes
    shared: bytes
    algorithms: list

    def front(self):
        """What is hashed before the shared number (RFC 5656 section 4)."""
        fields = (self.client_line, self.server_line, self.client_init, self.server_init, self.host_key, self.client_point, self.server_point)
        return b"".join(map(string, fields))

    def number(self):
        """The shared bytes as an unsigned number (RFC 8731 section 3)."""
        return int.from_bytes(self.shared, "big")


@dataclass
class End:
    """An end of a side, by what was done so far."""

    side: str
    settings: Settings
    out: Direction = field(default_factory=Direction)
    into: Direction = field(default_factory=Direction)
    lines: dict = field(default_factory=lambda: {"Client": b"", "Server": b""})
    other_lines: int = 0
    has_died: bool = False
    stage: str = "Start"
    is_blocked: bool = False
    pairs: list = field(default_factory=list)
    ours: list = field(default_factory=list)
    theirs: list = field(default_factory=list)
    point: bytes = b""
    reply: tuple = ()
    exchanges: list = field(default_factory=list)
    sent_request: bool = False
    took_request: bool = False
    sent_accept: bool = False
    took_accept: bool = False
    is_in: bool = False
    failures: int = 0
    asked: object = None
    channels: dict = field(default_factory=dict)
    owed: list = field(default_factory=list)
    globals_here: int = 0
    globals_there: int = 0

    # ---- what holds

    @property
    def is_strict(self):
        return bool(self.ours and self.theirs) and STRICT[self.side] in self.ours[0][0].kex and STRICT[peer_of(self.side)] in self.theirs[0][0].kex

    @property
    def keeps_pair(self):
        return len(self.pairs) > len(self.ours)

    @property
    def is_requested(self):
        return self.sent_request if self.side == "Client" else self.took_request

    @property
    def is_probing(self):
        return isinstance(self.asked, Made) and self.asked.word == "Publickey" and self.asked.fields[2] is None

    def takes_extensions(self, side):
        offers = self.ours if side == self.side else self.theirs
        return bool(offers) and EXTENDS[side] in offers[0][0].kex

    @property
    def may_take_extensions(self):
        """RFC 8308 section 2.4: the first packet after the peer's first NEWKEYS, at an end that said that it takes them."""
        return self.takes_extensions(self.side) and self.into.epoch == 1 and self.into.since == 0

    @property
    def announces(self):
        return self.out.epoch == 0 and bool(self.settings.extensions) and self.takes_extensions(peer_of(self.side))

    def offers_in_order(self, ours, theirs):
        return (ours, theirs) if self.side == "Client" else (theirs, ours)

    def is_free(self, number):
        return number < 1024 and number not in self.channels

    # ---- what happens

    def happens(self, item):
        told = getattr(self, "on_" + item.word.lower(), None)
        if told:
            told(*item.fields)

    def on_fed(self, cookie, secret):
        self.pairs.append((cookie, secret))

    def on_sentline(self, line):
        self.lines[self.side] = line

    def on_tookline(self, line):
        self.lines[peer_of(self.side)] = line

    def on_tookotherline(self, line):
        self.other_lines += 1

    def on_died(self):
        self.has_died = True

    def on_tookguess(self, payload):
        self.stage = "Exchanging"
        self.into.packet(False, self.is_strict)

    def on_sent(self, at, message, payload):
        word, fields = message.word, message.fields
        if word == "KexInit":
            self.ours.append((fields[0], payload))
            self.is_blocked = True
        elif word == "KexEcdhInit":
            self.point = fields[0]
        elif word == "KexEcdhReply":
            self.reply = fields
        elif word == "NewKeys":
            self.exchanges.append(self.exchange())
            self.is_blocked, self.owed = False, []
        elif word == "ServiceRequest":
            self.sent_request = True
        elif word == "ServiceAccept":
            self.sent_accept = True
        elif word == "UserauthRequest":
            self.asked = fields[2]
        elif word == "UserauthFailure":
            self.failures += 1
        elif word == "UserauthSuccess":
            self.is_in = True
        else:
            self.connection_sent(at, word, fields)
        self.out.packet(word == "NewKeys", self.is_strict)

    def on_took(self, at, message, payload):
        word, fields = message.word, message.fields
        if word == "KexInit":
            self.theirs.append((fields[0], payload))
            is_wrong = guess_is_wrong(fields[0], self.settings.offer(self.side, False))
            self.stage = "Guessed" if is_wrong else "Exchanging"
        elif word in ("KexEcdhInit", "KexEcdhReply"):
            self.stage = "Keying"
            if word == "KexEcdhInit":
                self.point = fields[0]
            else:
                self.reply = fields
        elif word == "NewKeys":
            self.stage = "Normal"
        elif word == "ServiceRequest":
            self.took_request = True
        elif word == "ServiceAccept":
            self.took_accept = True
        elif word in ("UserauthFailure", "UserauthSuccess", "UserauthPkOk"):
            self.asked = None
            self.is_in = self.is_in or word == "UserauthSuccess"
        else:
            self.connection_taken(at, word, fields)
        self.into.packet(word == "NewKeys", self.is_strict)

    def exchange(self):
        """The exchange that NEWKEYS ends: its inputs are those of the messages that came last."""
        (client, client_init), (server, server_init) = self.offers_in_order(self.ours[-1], self.theirs[-1])
        secret = self.pairs[len(self.exchanges)][1]
        other = self.reply[1] if self.side == "Client" else self.point
        return Exchange(self.lines["Client"], self.lines["Server"], client_init, server_init, self.reply[0], self.point, self.reply[1],
                        shared_of(secret, other) or b"", chosen(client, server))

    def connection_sent(self, at, word, fields):
        channel = self.channels.get(at and at.value)
        if word == "GlobalRequest":
            self.globals_there += fields[1]
        elif word in ("RequestSuccess", "RequestFailure"):
            self.globals_here -= 1
        elif word == "ChannelOpen":
            self.channels[at.value] = Channel(True, window=fields[2], most=fields[3])
        elif word == "ChannelOpenConfirmation":
            channel.window, channel.most, channel.is_confirmed = fields[2], fields[3], True
        elif word == "ChannelOpenFailure":
            del self.channels[at.value]
        elif word == "ChannelWindowAdjust":
            channel.window += fields[1]
        elif word in ("ChannelData", "ChannelExtendedData"):
            channel.room -= len(fields[-1])
        elif word == "ChannelEof":
            channel.ended = True
        elif word == "ChannelClose":
            channel.ended = channel.closed = True
            self.end_channel(at.value)
        elif word == "ChannelRequest":
            channel.there += fields[2]
        elif word in ("ChannelSuccess", "ChannelFailure"):
            channel.here -= 1

    def connection_taken(self, at, word, fields):
        channel = self.channels.get(at and at.value)
        if word == "GlobalRequest":
            self.globals_here += fields[1]
        elif word in ("RequestSuccess", "RequestFailure"):
            self.globals_there -= 1
        elif word == "ChannelOpen":
            self.channels[at.value] = Channel(False, room=fields[2], largest=fields[3], theirs=fields[1])
        elif word == "ChannelOpenConfirmation":
            channel.theirs, channel.room, channel.largest, channel.is_confirmed = *fields[1:4], True
        elif word == "ChannelOpenFailure":
            del self.channels[at.value]
        elif word == "ChannelWindowAdjust":
            channel.room += fields[1]
        elif word in ("ChannelData", "ChannelExtendedData"):
            channel.window -= len(fields[-1])
        elif word == "ChannelEof":
            channel.peer_ended = True
        elif word == "ChannelClose":
            channel.peer_ended = channel.peer_closed = True
            if self.is_blocked and not channel.closed:
                self.owed.append((at.value, channel.theirs))
            self.end_channel(at.value)
        elif word == "ChannelRequest":
            channel.here += fields[2] and not channel.closed
        elif word in ("ChannelSuccess", "ChannelFailure"):
            channel.there -= 1

    def end_channel(self, number):
        """RFC 4254 section 5.3: a channel is over, and its number free, once both ends sent CLOSE."""
        if self.channels[number].closed and self.channels[number].peer_closed:
            del self.channels[number]


def shared_of(secret, point):
    """The result that a secret and a point share: their exclusive or; it has to have 32 bytes that are not all zero (RFC 8731 section 3)."""
    shared = bytes(a ^ b for a, b in zip(secret, point))
    return shared if len(shared) == 32 and any(shared) else None

