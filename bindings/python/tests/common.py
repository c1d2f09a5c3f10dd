"""What the tests share: the package, or a skip that says what is missing; keys; a client and a server with nothing between them but bytes."""

import sys
import unittest

try:
    import divrelca
except OSError as error:
    print(f"SKIPPED: the tests of divrelca for Python: {error}", file=sys.stderr)
    raise unittest.SkipTest(str(error))

from divrelca import Ask, AskKind, ClientEnd, Kind, Login, ServerEnd, User, public_key

HOST_SEED, USER_SEED = bytes([7] * 32), bytes([8] * 32)
USERS = [User(b"me", public_key(USER_SEED), Login.KEY), User(b"me", b"word", Login.PASSWORD)]


class Pair:
    """A client and a server. `heard` keeps each side's events."""

    def __init__(self, seed=USER_SEED, users=USERS, **settings):
        self.client = ClientEnd(public_key(HOST_SEED), seed, **settings)
        self.server = ServerEnd(HOST_SEED, users, **settings)
        self.heard = {self.client: [], self.server: []}

    def __enter__(self):
        return self

    def __exit__(self, *_):
        self.client.close()
        self.server.close()

    def carry(self):
        """Carries bytes until neither end has any. Data is consumed, and what nobody knows is declined."""
        while True:
            outs = [(self.client.output(), self.client, self.server), (self.server.output(), self.server, self.client)]
            if not any(out for out, _, _ in outs):
                return
            for out, sender, receiver in outs:
                sender.written(len(out))
                for at in range(0, len(out), 1000):
                    for event in receiver.events(out[at : at + 1000]):
                        self.heard[receiver].append(event)
                        if event.kind == Kind.DATA:
                            receiver.consume(event.channel, len(event.data))
                        elif event.kind not in (Kind.OPENED, Kind.REQUESTED) or event.name == b"unknown":
                            receiver.decline()

    def kinds(self, end):
        """The kinds that an end was told."""
        return {it.kind for it in self.heard[end]}

    def last(self, end, kind):
        """The last event of a kind that an end was told."""
        return [it for it in self.heard[end] if it.kind == kind][-1]

    def ask(self, end, kind, **fields):
        """Asks, and carries what comes of it."""
        number = end.ask(Ask(kind, **fields))
        self.carry()
        return number

    def log_in(self):
        """Logs in by the user's key."""
        self.carry()
        self.ask(self.client, AskKind.SERVICE)
        self.ask(self.client, AskKind.LOGIN_KEY, name=b"me")

    def open(self):
        """Opens a channel; its numbers at the client and at the server."""
        here = self.ask(self.client, AskKind.OPEN, name=b"session", window=40000, max_packet=32768)
        there = self.last(self.server, Kind.OPENED).channel
        self.ask(self.server, AskKind.CONFIRM, channel=there, window=40000, max_packet=32768)
        return here, there
