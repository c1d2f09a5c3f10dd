"""Draws sessions: turns of one end, one after another, which the second reading allows. What the peer sends is drawn too, with or without a reason."""

import random
from dataclasses import dataclass

from end import CONNECTION, EXTENDS, STRICT, USERAUTH, End, Proposal, Settings, Some, Word, made, peer_of
from rules import GUEST, KEY, PASSWORD, RIGHT, USER, algorithms_now, ask_refusal, host_key, refusal, secret_now
from turns import ON_CHANNEL, Turns

NUMBERS = [0, 1, 2, 4, 5, 6, 7, 8, 19, 20, 21, 22, 29, 30, 31, 32, 49, 50, 51, 52, 53, 54, 60, 61, 79, 80, 82, 83, 89, 90, 97, 100, 101, 191, 192, 255]
UNKNOWN = [0, 8, 19, 22, 29, 32, 49, 54, 61, 79, 83, 89, 101, 192, 255]
POOLS = {"kex": (b"k1", b"k2", b"k3"), "host": (b"h1", b"h2", b"h3"), "encryption": (b"e1", b"e2"), "mac": (b"m1", b"m2", b"m3")}
# What comes next if a session goes on.
EXCHANGED = {"KexInit", "KexEcdhInit", "KexEcdhReply", "NewKeys"}
ENTERING = {"ServiceRequest", "ServiceAccept", "UserauthRequest", "UserauthSuccess", "UserauthFailure", "UserauthPkOk", "ExtInfo"}
FOLLOWING = {"ChannelOpen", *ON_CHANNEL} - {"ChannelOpenFailure"}
# The asks by which there is something on channels.
CHANNEL_ASKS = ("AskOpen", "AskConfirm", "AskData", "AskAdjust", "AskEof", "AskClose", "AskRequest", "AskReply")


@dataclass
class Session:
    name: str
    end: End
    turns: list
    messages: list
    asks: list
    numbers: list
    # The turns after which all numbers are tried.
    places: list
    # The columns of its table, if it has not all.
    only: tuple = ()


def some_of(rng, pool, least=1):
    return tuple(rng.sample(pool, rng.randint(least, len(pool))))


def settings_of(rng, side):
    lists = {kind: some_of(rng, pool) for kind, pool in POOLS.items()}
    strictness = rng.choice(["Require"] * 5 + ["Offer"] * 3 + ["Off"] * 2)
    takes, announced = rng.random() < 0.4, ((b"x", b"y"),) if rng.random() < 0.5 else ()
    methods = rng.choice([(b"publickey", b"password")] * 3 + [(b"password",), (b"publickey",)])
    line = b"SSH-2.0-" + side[:1].lower().encode()
    return Settings(line, **lists, epoch_limit=rng.randint(5, 12), tries=rng.randint(0, 2), methods=methods, strictness=strictness, takes_extensions=takes,
                    extensions=announced)


class Drawing:
    """One session while it is drawn."""

    def __init__(self, name, rng, side, length):
        self.name, self.rng, self.length = name, rng, length
        self.end, self.turns, self.labels = End(side, settings_of(rng, side)), [], 0
        self.makes = Turns(self.end, self.label, self.new_number)
        self.seen, self.heard = {}, {}
        # Whether the peer offers strict key exchange, takes extensions, and guesses.
        self.is_marked, self.takes, self.guesses = rng.random() < 0.8, rng.random() < 0.5, rng.random() < 0.6

    def session(self):
        fed = self.fed()
        offer = made("KexInit", self.end.settings.offer(self.end.side, True, fed.fields[0]))
        self.turn([fed, made("SentLine", self.end.settings.line), made("Sent", None, offer, self.label())])
        for _ in range(self.rng.randint(0, 2) if self.end.side == "Client" else 0):
            self.turn([made("TookOtherLine", b"hello")])
        self.turn([made("TookLine", b"SSH-2.0-peer")])
        while len(self.turns) < self.length and not self.end.has_died:
            self.step()
        wanted = {"KexEcdhReply": 3} if self.end.side == "Client" else {"KexEcdhInit": 3, "UserauthRequest": 3}
        messages = self.sample(self.seen, {"KexInit": 2, "ChannelData": 2, "ChannelWindowAdjust": 1, **wanted}, 6)
        asks = self.sample(self.heard, {"AskData": 2}, 7)
        places = [self.rng.randrange(len(self.turns) - 1), len(self.turns) - 1]
        return Session(self.name, self.end, self.turns, messages, asks, sorted(self.rng.sample(NUMBERS, 12)), places)

    def sample(self, found, wanted, count):
        """So many of the wanted kinds, and one of each of so many others."""
        kinds = self.rng.sample([kind for kind in sorted(found) if kind not in wanted], count)
        counts = {**wanted, **{kind: 1 for kind in kinds}}
        return [value for kind, number in counts.items() for value in self.rng.sample(found[kind], min(number, len(found[kind])))]

    def turn(self, items):
        for item in items:
            self.end.happens(item)
        self.turns.append(items)

    # ---- parts of items

    def fed(self):
        return made("Fed", bytes([self.rng.randint(1, 250)]) * 16, bytes([self.rng.randint(1, 250)]) * 32)

    def label(self):
        self.labels += 1
        return b"offer %d" % self.labels

    # ---- a step

    def step(self):
        messages, asks = self.messages(), self.asks()
        for found, values in ((self.seen, messages), (self.heard, asks)):
            for value in values:
                found.setdefault(value.word, []).append(value)
        draw = self.rng.random()
        if draw < 0.15 and self.end.is_in and not self.end.keeps_pair:
            self.turn([self.fed()])
        elif draw < 0.5 and (self.end.side == "Client" or self.end.is_in):
            for ask in self.some_asks(asks):
                self.turn(self.makes.on_ask(ask))
        else:
            for message in self.some_messages(messages):
                self.turn(self.makes.on_message(message))

    def new_number(self):
        return self.rng.choice([number for number in (*range(9), 1023) if self.end.is_free(number)][:2])

    @property
    def is_late(self):
        return len(self.turns) > self.length - 5

    def some_asks(self, asks):
        """One ask; none if none of these is fit. Some are refused."""
        is_refused = self.rng.random() < 0.15
        fit = [ask for ask in asks if (ask_refusal(self.end, ask) > 0) == is_refused and (ask.word != "AskDisconnect" or self.is_late)]
        return self.one(fit, {"AskRekey", *CHANNEL_ASKS} if self.end.is_in else {"AskService", "AskPassword", "AskSign", "AskProbe"})

    def some_messages(self, messages):
        """One message; none if the end takes none of these. Sometimes any comes, late in a session more often, even if it is refused."""
        if self.rng.random() < (0.25 if self.is_late else 0.01):
            return [self.rng.choice(messages)]
        fit = [message for message in messages if refusal(self.end, message) == 0 and (message.word != "Disconnect" or self.is_late)]
        return self.one(fit, EXCHANGED | (FOLLOWING if self.end.is_in else ENTERING))

    def one(self, fit, further):
        """One of these, mostly one by which the session goes on."""
        if len(self.end.channels) > self.rng.choice([0, 1, 1, 2]):
            fit = [value for value in fit if value.word not in ("AskOpen", "ChannelOpen", "AskRefuse", "ChannelOpenFailure")]
        preferred = [value for value in fit if value.word in further]
        pool = preferred if preferred and self.rng.random() < 0.8 else fit
        return self.rng.sample(pool, min(1, len(pool)))

    # ---- what may come

    def messages(self):
        rng, end = self.rng, self.end
        text = rng.choice([b"", b"a", b"abc"])
        found = [made("Ignore", text), made("Debug", True, text, b""), made("Unimplemented", rng.randint(0, 9)), made("Disconnect", 11, text, b""),
                 made("Unknown", rng.choice(UNKNOWN)), made("ServiceRequest", rng.choice([USERAUTH] * 3 + [CONNECTION])),
                 made("ServiceAccept", rng.choice([USERAUTH] * 3 + [CONNECTION])), made("ExtInfo", ((b"x", b""),)), self.offer(), made("NewKeys")]
        point = self.some_point()
        algorithm = algorithms_now(end)[1] or b"" if end.ours and end.theirs else b"h1"
        key, signature = rng.choice([host_key(algorithm)] * 3 + [b"key of h"]), rng.choice([RIGHT] * 3 + [b"wrong"])
        found += [made("KexEcdhInit", point), made("KexEcdhReply", key, point, signature)]
        found += [made("UserauthRequest", *self.request()), made("UserauthFailure", (b"password",), rng.random() < 0.5), made("UserauthSuccess"),
                  made("UserauthBanner", text, b""), made("UserauthPkOk", b"alg", KEY)]
        found += [made("GlobalRequest", b"g", rng.random() < 0.6, text), made("RequestSuccess", text), made("RequestFailure")]
        return found + self.channel_messages(text)

    def some_point(self):
        secret = secret_now(self.end) or bytes(32)
        same = self.rng.choice([0, 1, 3])
        far = bytes([self.rng.randint(1, 250)])
        return self.rng.choice([secret[:same] + far * (32 - same)] * 6 + [far * 31, far * 33, secret])

    def offer(self):
        rng, settings = self.rng, self.end.settings
        kex = some_of(rng, POOLS["kex"]) if rng.random() < 0.3 else tuple(rng.sample(settings.kex, len(settings.kex)))
        host = some_of(rng, POOLS["host"]) if rng.random() < 0.3 else tuple(rng.sample(settings.host, len(settings.host)))
        ciphers = [some_of(rng, POOLS[kind], 2) for kind in ("encryption", "encryption", "mac", "mac")]
        other = peer_of(self.end.side)
        is_marked = self.is_marked or self.end.settings.strictness == "Require"
        markers = ((STRICT[other],) if is_marked and rng.random() < 0.95 else ()) + ((EXTENDS[other],) if self.takes else ())
        if self.end.theirs:
            markers = ()
        kex = rng.choice([markers + kex, kex + markers])
        return made("KexInit", Proposal(kex, host, *ciphers, follows=self.guesses and rng.random() < 0.7))

    def request(self):
        rng = self.rng
        methods = [Word("NoMethod"), made("Password", PASSWORD, None), made("Password", b"q", None), made("Password", PASSWORD, Some(b"q")),
                   made("Publickey", b"alg", KEY, None), made("Publickey", b"alg", b"l", None), made("Publickey", b"alg", KEY, Some(RIGHT)),
                   made("Publickey", b"alg", KEY, Some(b"wrong")), made("Other", b"hostbased", b"")]
        return rng.choice([USER] * 3 + [GUEST]), rng.choice([CONNECTION] * 4 + [USERAUTH]), rng.choice(methods + methods[1:2] * 3 + methods[6:7] * 3)

    def number(self):
        return self.rng.choice(sorted(self.end.channels) * 4 + [0, 1, 2])

    def channel_messages(self, text):
        rng, at = self.rng, self.number()
        body = bytes([97]) * rng.choice([0, 1, 4, 6, 9])
        size = rng.choice([0, 1, 7, 20, 2**32 - 1, 2**32 - 8])
        return [made("ChannelOpen", b"session", rng.randint(0, 9), rng.randint(4, 12), rng.randint(4, 8), b""),
                made("ChannelOpenConfirmation", at, rng.randint(0, 9), rng.randint(4, 12), rng.randint(4, 8), b""),
                made("ChannelOpenFailure", self.number(), 1, b"", b""), made("ChannelWindowAdjust", self.number(), size),
                *(made("ChannelData", self.number(), body[:size]) for size in (1, 4, 9)), made("ChannelExtendedData", self.number(), 1, body),
                made("ChannelEof", self.number()),
                made("ChannelClose", self.number()), made("ChannelRequest", self.number(), b"r", rng.random() < 0.7, text),
                made("ChannelSuccess", self.number()), made("ChannelFailure", self.number())]

    # ---- what may be asked

    def asks(self):
        rng, end = self.rng, self.end
        body = bytes([98]) * rng.choice([0, 1, 4, 6, 9])
        kind, size, most = rng.choice([None, Some(1)]), rng.choice([0, 1, 7, 20, 2**32 - 1, 2**32 - 8]), rng.choice([4, 6, 8, 4, 6, 8, 32768, 0, 32769])
        found = [made("AskService"), made("AskNone", rng.choice([USER, GUEST])), made("AskPassword", USER, rng.choice([PASSWORD, b"q"])),
                 made("AskProbe", USER, b"alg", KEY), made("AskSign", USER, b"alg", KEY), made("AskRekey"), made("AskDisconnect", b"bye"),
                 made("AskOpen", b"session", rng.randint(4, 12), most, b""), made("AskConfirm", self.number(), rng.randint(4, 12), most, b""),
                 made("AskRefuse", self.number(), 1), *(made("AskData", self.number(), kind, body[:size]) for size in (1, 4, 9)),
                made("AskAdjust", self.number(), size),
                 made("AskEof", self.number()), made("AskClose", self.number()), made("AskRequest", self.number(), b"r", rng.random() < 0.7, b""),
                 made("AskReply", self.number(), rng.random() < 0.5), made("AskGlobal", b"g", rng.random() < 0.7, b""),
                 made("AskGlobalReply", *rng.choice([(True, b"x"), (False, b"")]))]
        return found if end.side == "Client" else [ask for ask in found if ask.word not in ("AskService", "AskNone", "AskProbe")]
