"""The proved ends as peers in memory, each under the small application that a peer under test has. What they take and refuse is the
expected answer."""

from ..codes import AskKind, Kind, Login
from ..ends import Ask, ClientEnd, ServerEnd, User
from ..errors import Error
from .links import Closed, Late
from .words import number_at, string, uint32

WINDOW, PACKET = 1 << 21, 32768


class OracleLink:
    """A proved end, to which bytes are carried. `refused` is the name of its refusal, None while there is none."""

    is_real = False

    def __init__(self, end):
        self.end, self.refused = end, None

    def write(self, data):
        """Hands all bytes to the end, and what they tell to the application."""
        if self.end.is_over:
            return
        for event in self.end.events(data):
            if event.kind == Kind.REFUSED:
                self.refused = event.name.decode()
            elif not self.hear(event):
                self.end.decline()
        self.end.go_on()

    def read(self, _):
        """What the end has to send. An end without output is silent for good: it does nothing by itself."""
        out = self.end.output()
        if out:
            self.end.written(len(out))
            return out
        if self.end.is_over:
            raise Closed("the proved end is over")
        raise Late("silence")

    def close(self):
        self.end.close()

    def hear(self, event):
        """Deals with an event; False where it is to be declined."""
        raise NotImplementedError

    def ask(self, kind, **fields):
        """Queues an ask."""
        self.end.queue(Ask(kind, **fields))


class ServerOracle(OracleLink):
    """A server that has session channels and runs `cat`; any other command runs and does nothing."""

    def __init__(self, target):
        users = [User(target.user, target.key.public, Login.KEY)] if target.by_key else []
        users += [User(target.user, target.password, Login.PASSWORD)] if target.by_password else []
        super().__init__(ServerEnd(target.host_key.seed, users))
        self._running, self._kept = {}, {}

    def hear(self, event):
        if event.kind == Kind.OPENED and event.name == b"session":
            self.ask(AskKind.CONFIRM, channel=event.channel, window=WINDOW, max_packet=PACKET)
        elif event.kind == Kind.REQUESTED and event.name in (b"exec", b"subsystem", b"shell") and event.channel not in self._running:
            self._start(event)
        elif event.kind == Kind.DATA:
            self._take_data(event)
        elif event.kind == Kind.ADJUSTED:
            self._echo(event.channel)
        elif event.kind == Kind.ENDED and self._running.get(event.channel) == b"cat":
            self.ask(AskKind.REQUEST, channel=event.channel, name=b"exit-status", data=uint32(0))
            self.ask(AskKind.EOF, channel=event.channel)
            self.ask(AskKind.CLOSE, channel=event.channel)
        elif event.kind == Kind.CLOSED:
            self._running.pop(event.channel, None)
        else:
            return False
        return True

    def _start(self, event):
        is_whole = len(event.data) >= 4 and number_at(event.data, 0) == len(event.data) - 4
        if is_whole:
            self._running[event.channel] = event.data[4:]
        if event.flag:
            self.ask(AskKind.REPLY, channel=event.channel, flag=is_whole)

    def _take_data(self, event):
        # nobody reads before a command runs
        if event.channel in self._running and event.extended:
            self.end.consume(event.channel, len(event.data))
        elif event.channel in self._running:
            self._kept[event.channel] = self._kept.get(event.channel, b"") + event.data
            self._echo(event.channel)

    def _echo(self, channel):
        while self._kept.get(channel):
            try:
                sent = self.end.send(channel, self._kept[channel][:PACKET])
            except Error:
                return
            if not sent:
                return
            self._kept[channel] = self._kept[channel][sent:]
            self.end.consume(channel, sent)


class ClientOracle(OracleLink):
    """A client that logs in by its key and runs one command."""

    def __init__(self, target):
        super().__init__(ClientEnd(target.host_key.public, target.key.seed))
        self._user = target.user

    def hear(self, event):
        if event.kind == Kind.COMPLETED and event.number == 1:
            self.ask(AskKind.SERVICE)
        elif event.kind == Kind.SERVICE:
            self.ask(AskKind.LOGIN_KEY, name=self._user)
        elif event.kind == Kind.AUTHENTICATED:
            self.ask(AskKind.OPEN, name=b"session", window=WINDOW, max_packet=PACKET)
        elif event.kind == Kind.CONFIRMED:
            self.ask(AskKind.REQUEST, channel=event.channel, name=b"exec", flag=True, data=string(b"cat"))
        elif event.kind == Kind.DATA:
            self.end.consume(event.channel, len(event.data))
        elif event.kind in (Kind.CLOSED, Kind.FAILED):
            self.ask(AskKind.DISCONNECT, data=b"bye")
        else:
            return False
        return True
