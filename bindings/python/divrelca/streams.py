"""Channels of `divrelca.aio` as streams, and the account of their windows."""

from __future__ import annotations

import asyncio
import struct
import typing

from .codes import AskKind, Kind
from .ends import Ask, End, Event
from .failures import ConnectionFailed, RequestRefused, again, made, plain

if typing.TYPE_CHECKING:
    from .connection import Connection

LIMIT = 1 << 16
PACKET = 32768
Text = typing.Union[str, bytes]


def text(value: bytes) -> bytes:
    """A string of SSH: its length in four bytes, and its bytes."""
    return struct.pack(">I", len(value)) + value


def in_bytes(value: Text) -> bytes:
    """Bytes as they are, and a str in UTF-8."""
    return value.encode() if isinstance(value, str) else bytes(value)


class Input:
    """What a StreamReader has for a transport: while the reader is full, what came is not given back to the peer's window."""

    def __init__(self, channel: Channel) -> None:
        self.channel = channel
        self.is_paused = False
        self.held = 0

    def came(self, count: int) -> None:
        """Counts data that the reader was given."""
        self.held += count
        if not self.is_paused:
            self.give_back()

    def give_back(self) -> None:
        """Gives the window back what the reader has room for."""
        count, self.held = self.held, 0
        if count:
            self.channel.connection.consumed(self.channel, count)

    def pause_reading(self) -> None:
        """The reader is full."""
        self.is_paused = True

    def resume_reading(self) -> None:
        """The reader has room again."""
        self.is_paused = False
        self.give_back()


class Output:
    """A stream that goes to the peer: `stream` 0 is data, 1 standard error."""

    def __init__(self, channel: Channel, stream: int) -> None:
        self._channel = channel
        self._stream = stream
        self._waiting = bytearray()
        self._draining: list[tuple[int, asyncio.Future[None]]] = []
        self.ends = False

    def write(self, data: Text) -> None:
        """Sends data, as the window allows; the rest waits here. ConnectionFailed after `write_eof` and the end of the channel."""
        if self._channel.is_closed or self.ends:
            raise ConnectionFailed("the stream is closed")
        self._waiting += in_bytes(data)
        self._channel.connection.pump()

    async def drain(self, most: int = LIMIT) -> None:
        """Waits until at most so many bytes wait here. ConnectionFailed where the channel is closed before."""
        if len(self._waiting) > most and not self._channel.is_closed:
            drained = self._channel.connection.loop.create_future()
            self._draining.append((most, drained))
            await drained
        if len(self._waiting) > most:
            raise self._channel.failure()

    def write_eof(self) -> None:
        """Says that no more data comes. The channel's EOF follows `write_eof` of its data, after all that waits. Standard error has none of its own."""
        self.ends = True
        self._channel.connection.pump()

    def discard(self) -> None:
        """Drops what waits, and takes no more."""
        self.ends = True
        self._waiting.clear()
        self.wake()

    def pump(self, end: End) -> None:
        """Sends what goes now."""
        while self._waiting and not self._channel.is_closed:
            taken = end.send(self._channel.number, bytes(self._waiting[:PACKET]), self._stream)
            if not taken:
                break
            del self._waiting[:taken]
        self.wake()

    def wake(self) -> None:
        """Wakes who waits for room, or for the end."""
        is_closed = self._channel.is_closed
        for most, drained in self._draining:
            if (is_closed or len(self._waiting) <= most) and not drained.done():
                drained.set_result(None)
        self._draining = [it for it in self._draining if not it[1].done()]

    @property
    def is_empty(self) -> bool:
        """Whether all was sent."""
        return not self._waiting


class Channel:
    """One channel. At a client `stdout` and `stderr` are its readers and `stdin` its Output; at a server it is the other way round."""

    def __init__(self, connection: Connection, number: int) -> None:
        self.connection = connection
        self.number = number
        self.is_closed = False
        self.exit_status: int | None = None
        self.exit_signal: str | None = None
        self.closed: asyncio.Future[None] = connection.loop.create_future()
        self._replies: list[asyncio.Future[bool]] = []
        self._inputs = [self._reader(), self._reader()]
        self.outputs = [Output(self, 0), Output(self, 1)]
        self._is_closing = False
        self._sent_eof = False
        self._got_eof = False

    def _reader(self) -> tuple[asyncio.StreamReader, Input]:
        reader, given = asyncio.StreamReader(limit=LIMIT, loop=self.connection.loop), Input(self)
        # (of a transport a reader calls these two methods alone)
        reader.set_transport(typing.cast(asyncio.Transport, given))
        return reader, given

    @property
    def readers(self) -> list[asyncio.StreamReader]:
        """Readers of data and of standard error."""
        return [reader for reader, _ in self._inputs]

    def failure(self) -> ConnectionFailed:
        """Why the channel is over: that of the connection, where that is."""
        return again(self.connection.why) if self.connection.lost.done() else ConnectionFailed("the channel is closed")

    async def request(self, name: Text, data: bytes = b"") -> None:
        """Makes a request that wants a reply. RequestRefused where it is refused."""
        reply: asyncio.Future[bool] = self.connection.loop.create_future()
        self.queue(Ask(AskKind.REQUEST, self.number, name=in_bytes(name), flag=True, data=data))
        self._replies.append(reply)
        if await reply:
            return
        if self.connection.lost.done():
            raise self.failure()
        request = plain(in_bytes(name))
        raise made(RequestRefused, f"the request {request} is refused", request=request)

    def tell(self, name: Text, data: bytes = b"") -> None:
        """Makes a request that wants no reply."""
        self.queue(Ask(AskKind.REQUEST, self.number, name=in_bytes(name), data=data))

    def queue(self, ask: Ask) -> None:
        """Queues an ask for this channel. ConnectionFailed once it is closed: its number may be that of another channel by then."""
        if self.is_closed:
            raise self.failure()
        self.connection.queue(ask)

    def close(self) -> None:
        """Closes the channel, once what waits was sent."""
        self._is_closing = True
        self.connection.pump()

    def abort(self) -> None:
        """Closes the channel, and drops what waits."""
        for output in self.outputs:
            output.discard()
        self.close()

    async def wait_closed(self) -> None:
        """Waits until both sides have closed the channel."""
        await asyncio.shield(self.closed)

    def pump(self, end: End) -> None:
        """Sends what goes now; after it the channel's EOF, and its CLOSE, where they were asked for."""
        for output in self.outputs:
            output.pump(end)
        if self.is_closed or not all(it.is_empty for it in self.outputs):
            return
        if self.outputs[0].ends and not self._sent_eof:
            self._sent_eof = True
            end.queue(Ask(AskKind.EOF, self.number))
        if self._is_closing:
            self._is_closing = False
            end.queue(Ask(AskKind.CLOSE, self.number))

    def heard(self, event: Event) -> bool:
        """Hears an event of this channel that both roles treat alike; False where it is none."""
        if event.kind == Kind.DATA:
            stream = 1 if event.extended else 0
            reader, given = self._inputs[stream]
            reader.feed_data(event.data)
            given.came(len(event.data))
        elif event.kind == Kind.ENDED:
            self._end_readers()
        elif event.kind == Kind.CLOSED:
            self.end()
        elif event.kind == Kind.REQUEST_DONE and self._replies:
            reply = self._replies.pop(0)
            if not reply.done():
                reply.set_result(event.flag)
        else:
            return False
        return True

    def _end_readers(self) -> None:
        if not self._got_eof:
            self._got_eof = True
            for reader, _ in self._inputs:
                reader.feed_eof()

    def end(self) -> None:
        """The channel is over: readers end, and who waits is told."""
        self.is_closed = True
        self._end_readers()
        for output in self.outputs:
            output.wake()
        for reply in self._replies:
            if not reply.done():
                reply.set_result(False)
        self._replies.clear()
        if not self.closed.done():
            self.closed.set_result(None)
