"""What both ends of `divrelca.aio` have in common: an end over a transport, and its channels."""

from __future__ import annotations

import asyncio
import collections
import inspect
import logging
import typing

from .codes import AskKind, Kind, Shown, WantedKind
from .ends import Ask, End, Event, Wanted
from .errors import AskRefused, Error
from .failures import ConnectionFailed, ConnectionLost, RequestRefused, again, disconnected, made, plain, refused
from .signatures import verify
from .streams import Channel, Text, in_bytes

LOGGER = logging.getLogger("divrelca")
Decide = typing.Callable[[Wanted], typing.Union[bool, typing.Awaitable[bool]]]
SIGNATURES = (WantedKind.SIGNATURE, WantedKind.HOST_SIGNATURE)
UNANSWERED = 3
MOST_LEFT = 1 << 18


class Connection(asyncio.Protocol):
    """One end over one transport. `peer` is the address of the other end, as the socket has it, and `user` who was let in. At a server, `shown` says by what, and
    `blob` is the public key, as it goes over the wire, whose signature was verified, if it was by one; `key` its 32 bytes, if it is one of ssh-ed25519."""

    transport: asyncio.Transport

    def __init__(self, end: End) -> None:
        self.loop = asyncio.get_running_loop()
        self.end = end
        self.channels: dict[int, Channel] = {}
        self.user: bytes | None = None
        self.shown: Shown | None = None
        self.key: bytes | None = None
        self.blob: bytes | None = None
        self.peer: tuple[typing.Any, ...] | None = None
        self.why: ConnectionFailed = ConnectionFailed("the connection is closed")
        self.lost: asyncio.Future[None] = self.loop.create_future()
        self._is_made = False
        self._is_closing = False
        self._may_write = True
        self._pumping = False
        self._coming: collections.deque[typing.Iterator[Event | Wanted]] = collections.deque()
        self._working: asyncio.Task[None] | None = None
        self._left = 0
        self.decide: Decide | None = None
        self.verify: Decide = lambda it: verify(it.algorithm, it.key, it.text, it.signature)
        self._replies: collections.deque[asyncio.Future[tuple[bool, bytes]]] = collections.deque()
        self._alive: asyncio.TimerHandle | None = None
        self._silent = 0

    def connection_made(self, transport: asyncio.BaseTransport) -> None:
        self.transport = typing.cast(asyncio.Transport, transport)
        self.peer = transport.get_extra_info("peername")
        self._is_made = True
        self.flush()

    def data_received(self, data: bytes) -> None:
        self._silent = 0
        self._coming.append(self.end.events(data))
        if self.waits:
            # a peer that goes is still noticed, and one that sends much is stopped
            self._left += len(data)
            if self._left > MOST_LEFT:
                self.transport.pause_reading()
        self.hear_on()

    @property
    def waits(self) -> bool:
        """Whether what comes is left for later."""
        return self._working is not None

    def pause(self, work: typing.Coroutine[typing.Any, typing.Any, None]) -> None:
        """Does something that takes time. Until `go_on` the peer is not heard."""
        self._working = self.loop.create_task(work)

    def go_on(self) -> None:
        """Hears the peer again."""
        self._working, self._left = None, 0
        if not self.lost.done():
            self.transport.resume_reading()
            self.hear_on()

    async def _decide(self, wanted: Wanted) -> None:
        """Has the program decide, and answers. Where it fails the answer is no, and the loop's exception handler is told."""
        accepts = False
        try:
            decide = self.verify if wanted.kind in SIGNATURES else self.decide
            answer = decide(wanted) if decide is not None else False
            accepts = bool(await answer if inspect.isawaitable(answer) else answer)
        except Exception as error:
            self.loop.call_exception_handler({"message": "a program failed to decide", "exception": error})
        if not self.lost.done() and not self.end.is_over:
            self.end.answer(accepts)
        self.go_on()

    def hear_on(self) -> None:
        """Hears what came, until `waits`."""
        try:
            while self._coming and not self.waits:
                event = next(self._coming[0], None)
                if event is None:
                    self._coming.popleft()
                else:
                    self._hear(event)
            self.pump()
        except Exception as error:
            self.why = ConnectionFailed(str(error))
            self.transport.abort()
            raise

    def connection_lost(self, exc: Exception | None) -> None:
        if exc is not None:
            self.why = ConnectionLost(str(exc))
        elif type(self.why) is ConnectionFailed and not self._is_closing and not self.end.is_over:
            self.why = ConnectionLost("the connection was lost")
        if not self.lost.done():
            self.lost.set_result(None)
        if self._alive is not None:
            self._alive.cancel()
        for reply in self._replies:
            fail(reply, self.why)
        self._replies.clear()
        for channel in list(self.channels.values()):
            channel.end()
        self.channels.clear()
        self._coming.clear()
        if self._working is not None:
            self._working.cancel()
        self.failed()
        LOGGER.debug("%s: %s", self.peer, self.why)
        self.end.close()

    def pause_writing(self) -> None:
        self._may_write = False

    def resume_writing(self) -> None:
        self._may_write = True
        self.pump()

    def failed(self) -> None:
        """Tells who waits that the connection is over."""

    def gone(self, channel: Channel) -> None:
        """Hears that a channel is closed. Its number is that of another one from now on."""

    def queue(self, ask: Ask, done: typing.Callable[[Error | None, int | None], None] | None = None) -> None:
        """Queues an ask and sends what comes of it. ConnectionFailed after the end."""
        if self.lost.done() or self.end.is_over:
            raise again(self.why)
        self.end.queue(ask, done)
        self.pump()

    async def request(self, name: Text, data: bytes = b"") -> bytes:
        """Makes a global request, and returns what the reply has (RFC 4254, 4). RequestRefused where the peer refuses it."""
        is_done, answer = await self._asked(name, data)
        if not is_done:
            request = plain(in_bytes(name))
            raise made(RequestRefused, f"the request {request} is refused", request=request)
        return answer

    def _asked(self, name: Text, data: bytes = b"") -> asyncio.Future[tuple[bool, bytes]]:
        reply: asyncio.Future[tuple[bool, bytes]] = self.loop.create_future()
        self.queue(Ask(AskKind.GLOBAL, name=in_bytes(name), flag=True, data=data))
        self._replies.append(reply)
        return reply

    def watch(self, seconds: float) -> None:
        """Asks a silent peer so often whether it is there, and gives it up where it does not answer."""
        if self.lost.done() or self.end.is_over:
            return
        if self._silent >= UNANSWERED:
            self.why = ConnectionLost("the peer does not answer")
            self.transport.abort()
            return
        if self._silent:
            # an answer of either kind will do
            self._asked("keepalive@openssh.com").add_done_callback(lambda it: it.cancelled() or it.exception())
        self._silent += 1
        self._alive = self.loop.call_later(seconds, self.watch, seconds)

    def consumed(self, channel: Channel, count: int) -> None:
        """Gives data back to the peer's window."""
        if not self.lost.done() and not channel.is_closed:
            self.end.consume(channel.number, count)
            self.loop.call_soon(self.pump)

    def pump(self) -> None:
        """Makes the asks that wait, sends the data that the windows take, and writes what the end put out."""
        if self.lost.done() or not self._is_made or self._pumping:
            return
        self._pumping = True
        try:
            if not self.end.is_over:
                self.end.go_on()
                # an exchange of keys or a full transport holds data back; asks that wait come before data
                if self._may_write and not self.end.queued:
                    for channel in list(self.channels.values()):
                        self._pump(channel)
                    self.end.go_on()
        finally:
            self._pumping = False
        self.flush()

    def _pump(self, channel: Channel) -> None:
        try:
            channel.pump(self.end)
        except AskRefused as error:
            if not error.is_later:
                channel.end()

    def flush(self) -> None:
        """Writes what the end put out, and closes the transport once the end is over."""
        out = self.end.output()
        if out:
            self.transport.write(out)
            self.end.written(len(out))
        if self.end.is_over:
            self.transport.close()

    def close(self) -> None:
        """Ends the connection: a DISCONNECT, and the transport is closed."""
        self._is_closing = True
        if not self.lost.done() and not self.end.is_over:
            self.queue(Ask(AskKind.DISCONNECT, data=b"done"))
            if not self.end.is_over:
                self.transport.close()

    async def wait_closed(self) -> None:
        """Waits until the transport is closed."""
        await asyncio.shield(self.lost)

    async def __aenter__(self: Self) -> Self:
        return self

    async def __aexit__(self, *_: object) -> None:
        self.close()
        await self.wait_closed()

    def _hear(self, event: Event | Wanted) -> None:
        if isinstance(event, Wanted):
            self.pause(self._decide(event))
            return
        channel = self.channels.get(event.channel)
        if event.kind == Kind.REFUSED:
            self.why = refused(event.number, plain(event.name))
        elif event.kind == Kind.DISCONNECTED:
            self.why = disconnected(event.number, event.data)
        elif event.kind == Kind.GLOBAL_DONE and self._replies:
            reply = self._replies.popleft()
            if not reply.done():
                reply.set_result((event.flag, event.data))
        elif channel is not None and event.kind >= Kind.CONFIRMED and channel.heard(event):
            if channel.is_closed:
                del self.channels[event.channel]
                self.gone(channel)
        else:
            self.hear(event)

    def hear(self, event: Event) -> None:
        """Hears what is about no channel's data."""
        self.end.decline()


Self = typing.TypeVar("Self", bound=Connection)


def fail(waiting: asyncio.Future[typing.Any], why: ConnectionFailed) -> None:
    """Tells who waits that the connection is over. Nobody may wait any more, and then nothing is to be said of it."""
    if not waiting.done():
        waiting.set_exception(again(why))
        waiting.exception()
