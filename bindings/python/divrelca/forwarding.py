"""Ports that are forwarded (RFC 4254, 7): channels between sockets at both ends."""

from __future__ import annotations

import asyncio
import contextlib
import struct
import typing

from .codes import AskKind
from .ends import Ask
from .failures import ConnectionFailed
from .requests import Fields
from .streams import PACKET, Channel, Output, text

if typing.TYPE_CHECKING:
    from .connection import Connection

PIECE = 1 << 16
WINDOW = 1 << 21
PROHIBITED = 1
CONNECT_FAILED = 2


class Route(typing.NamedTuple):
    """Where a channel goes, and where it comes from."""

    host: str
    port: int
    from_host: str
    from_port: int

    def request(self) -> bytes:
        """What the CHANNEL_OPEN has."""
        return text(self.host.encode()) + struct.pack(">I", self.port) + text(self.from_host.encode()) + struct.pack(">I", self.from_port)


def read_route(data: bytes) -> Route | None:
    """What a CHANNEL_OPEN of `direct-tcpip` or `forwarded-tcpip` names."""
    fields = Fields(data)
    host, port, from_host, from_port = fields.string(), fields.number(), fields.string(), fields.number()
    if not fields.is_over or host is None or from_host is None:
        return None
    return Route(host.decode(errors="replace"), port or 0, from_host.decode(errors="replace"), from_port or 0)


def read_place(data: bytes) -> tuple[str, int] | None:
    """What a `tcpip-forward` or `cancel-tcpip-forward` names."""
    fields = Fields(data)
    host, port = fields.string(), fields.number()
    return (host.decode(errors="replace"), port or 0) if fields.is_over and host is not None else None


def place(host: str, port: int) -> bytes:
    """The same as bytes."""
    return text(host.encode()) + struct.pack(">I", port)


async def _there(reader: asyncio.StreamReader, output: Output) -> None:
    while data := await reader.read(PIECE):
        output.write(data)
        await output.drain()
    output.write_eof()


async def _here(reader: asyncio.StreamReader, writer: asyncio.StreamWriter) -> None:
    while data := await reader.read(PIECE):
        writer.write(data)
        await writer.drain()
    with contextlib.suppress(OSError):
        writer.write_eof()


async def relay(channel: Channel, reader: asyncio.StreamReader, writer: asyncio.StreamWriter) -> None:
    """Carries bytes between a channel and a socket until both directions are at their ends, the channel is closed, or one fails."""
    there = asyncio.ensure_future(_there(reader, channel.outputs[0]))
    here = asyncio.ensure_future(_here(channel.readers[0], writer))
    over = asyncio.ensure_future(channel.wait_closed())
    try:
        await asyncio.wait({there, over}, return_when=asyncio.FIRST_COMPLETED)
        if there.done():
            there.result()
        # a channel that is closed has an end too: what it had before is still written
        await here
        channel.close()
    except (OSError, ConnectionFailed):
        channel.abort()
    except asyncio.CancelledError:
        channel.abort()
        raise
    finally:
        for it in (there, here, over):
            it.cancel()
        writer.close()


def refuse(connection: Connection, number: int, reason: int) -> None:
    """Opens no channel for the peer (RFC 4254, 5.1)."""
    connection.queue(Ask(AskKind.REFUSE, number, number=reason))


def confirm(connection: Connection, number: int) -> Channel:
    """Confirms a channel that the peer opened."""
    channel = connection.channels[number] = Channel(connection, number)
    connection.queue(Ask(AskKind.CONFIRM, number, window=WINDOW, max_packet=PACKET))
    return channel


async def connect_here(connection: Connection, number: int, host: str, port: int) -> None:
    """Connects a channel that the peer opened to a host and port, or refuses it."""
    with contextlib.suppress(ConnectionFailed):
        try:
            reader, writer = await asyncio.open_connection(host, port)
        except (OSError, UnicodeError):
            refuse(connection, number, CONNECT_FAILED)
            return
        try:
            channel = confirm(connection, number)
        except ConnectionFailed:
            writer.close()
            raise
        await relay(channel, reader, writer)
