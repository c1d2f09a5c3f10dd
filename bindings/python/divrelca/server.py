"""The server's end of a connection of `divrelca.aio`."""

from __future__ import annotations

import asyncio
import contextlib
import inspect
import operator
import socket
import struct
import typing

from .codes import AskKind, Code, Kind, Shown
from .connection import LOGGER, Connection
from .ends import Ask, Event, ServerEnd, User
from .errors import BadArgument, Error
from .failures import ConnectionFailed, plain
from .forwarding import PROHIBITED, WINDOW, Route, connect_here, read_place, read_route, refuse, relay
from .keys import of_blob
from .requests import ExitSignal, Terminal, read_size, read_terminal, read_variable
from .streams import PACKET, Channel, text

UNKNOWN_TYPE = 3
SHORTAGE = 4
CHANNELS = 10
VARIABLES = 128

Users = typing.Optional[typing.Iterable[User]]
Lookup = typing.Callable[[bytes], typing.Union[Users, typing.Awaitable[Users]]]
Status = typing.Union[int, None, ExitSignal]
Handle = typing.Callable[["ServerProcess"], typing.Awaitable[Status]]
Forward = typing.Callable[["ServerConnection", str, int], typing.Union[bool, typing.Awaitable[bool]]]


class ServerProcess:
    """What a client asks a server for: `command`, `subsystem`, or a shell where both are None. `stdin` is an asyncio.StreamReader, `stdout` and `stderr` are
    Outputs, and `user` is who was let in, by what `shown` says. `blob` is the public key, as it goes over the wire, whose signature was verified, if it was by
    one: it tells the persons apart who share a user's name. `key` has its 32 bytes, if it is a key of ssh-ed25519. `terminal` is the one that the client asks
    for, if it does, and `env` the variables that it sets: take only those that you know. `on_resize(terminal)` and `on_signal(name)` are called where they are
    set."""

    def __init__(self, channel: Channel, command: bytes | None = None, subsystem: bytes | None = None) -> None:
        self.channel = channel
        self.user = channel.connection.user
        self.shown = channel.connection.shown
        self.key = channel.connection.key
        self.blob = channel.connection.blob
        self.peer = channel.connection.peer
        self.command = command
        self.subsystem = subsystem
        self.terminal: Terminal | None = None
        self.env: dict[str, str] = {}
        self.on_resize: typing.Callable[[Terminal], object] | None = None
        self.on_signal: typing.Callable[[str], object] | None = None
        self.stdin = channel.readers[0]
        self.stdout, self.stderr = channel.outputs

    def prepared(self, name: bytes, data: bytes) -> bool:
        """Takes a request that comes before the command; whether it is one."""
        if name == b"pty-req":
            self.terminal = read_terminal(data)
            return self.terminal is not None
        variable = read_variable(data) if name == b"env" and len(self.env) < VARIABLES else None
        if variable is not None:
            self.env[variable[0]] = variable[1]
        return variable is not None

    def told(self, name: bytes, data: bytes) -> bool:
        """Takes a request that comes after it; whether it is one."""
        if name == b"window-change" and self.terminal is not None:
            resized = read_size(self.terminal, data)
            if resized is not None:
                self.terminal = resized
                if self.on_resize is not None:
                    self.on_resize(resized)
            return resized is not None
        if name == b"signal" and self.on_signal is not None and data[4:] and text(data[4:]) == data:
            self.on_signal(data[4:].decode(errors="replace"))
            return True
        return False


class ServerConnection(Connection):
    """A server's end of a connection, made by `serve`."""

    end: ServerEnd

    def __init__(self, end: ServerEnd, handle: Handle, grace: float, lookup: Lookup | None = None) -> None:
        super().__init__(end)
        self._handle = handle
        self._grace = self.loop.call_later(grace, self._too_late)
        self._processes: dict[Channel, ServerProcess] = {}
        self._tasks: dict[Channel, asyncio.Task[None]] = {}
        self._lookup = lookup
        self._looked_up: set[bytes] = set()
        self.forward: Forward | None = None
        self.listen: Forward | None = None
        self._carrying: set[asyncio.Task[None]] = set()
        self._listening: dict[tuple[str, int], asyncio.AbstractServer] = {}
        self._opening: dict[int, asyncio.Future[Channel | None]] = {}
        self.keepalive: float | None = None

    def data_received(self, data: bytes) -> None:
        if self.user is None:
            self._acknowledge()
        super().data_received(data)

    def _acknowledge(self) -> None:
        """Acknowledges at once what came. Twice in a login a client sends two short packets of which only the second one is answered, and its system keeps
        that one back until the first is acknowledged (RFC 896). This system would wait some 40 ms to do so (RFC 1122, section 4.2.3.2)."""
        accepted = self.transport.get_extra_info("socket")
        quick = getattr(socket, "TCP_QUICKACK", None)
        if accepted is not None and quick is not None:
            with contextlib.suppress(OSError):
                accepted.setsockopt(socket.IPPROTO_TCP, quick, 1)

    def _too_late(self) -> None:
        if self.user is None and self._is_made:
            self.why = ConnectionFailed("nobody was let in in time")
            self.transport.abort()

    def failed(self) -> None:
        self._grace.cancel()
        for task in (*self._tasks.values(), *self._carrying):
            task.cancel()
        for opening in self._opening.values():
            if not opening.done():
                opening.set_result(None)
        for server in self._listening.values():
            server.close()
        self._listening.clear()

    def gone(self, channel: Channel) -> None:
        self._processes.pop(channel, None)
        if channel in self._tasks:
            self._tasks[channel].cancel()

    def _tried(self, name: bytes) -> None:
        """Looks a user up who asks by no method, once. Until that is done the client is not heard."""
        if self._lookup is not None and name and name not in self._looked_up:
            self._looked_up.add(name)
            self.pause(self._look_up(name, self._lookup))

    async def _look_up(self, name: bytes, lookup: Lookup) -> None:
        try:
            found = lookup(name)
            users = await found if inspect.isawaitable(found) else typing.cast(Users, found)
            if not self.lost.done() and not self.end.is_over:
                self.end.set_user(name, users=users or ())
        except Exception as error:
            # whose key or password was asked for before is judged as before
            if not isinstance(error, BadArgument) or error.code != Code.USER_KNOWN:
                self.loop.call_exception_handler({"message": "a user could not be looked up", "exception": error})
        finally:
            self.go_on()

    def hear(self, event: Event) -> None:
        if event.kind == Kind.ACCEPTED:
            self.user, self.shown = event.name, Shown(event.number)
            self.blob = event.data if self.shown == Shown.KEY else None
            self.key = None if self.blob is None else of_blob(self.blob)
            self._grace.cancel()
            LOGGER.info("%s: %s is let in by %s", self.peer, plain(event.name), Shown(event.number).name.lower())
            if self.keepalive is not None:
                self.watch(self.keepalive)
        elif event.kind == Kind.TRIED:
            LOGGER.info("%s: %s is not let in by %s", self.peer, plain(event.name), Shown(event.number).name.lower())
            if event.number == Shown.NOTHING:
                self._tried(event.name)
        elif event.kind == Kind.OPENED:
            self._opened(event)
        elif event.kind in (Kind.CONFIRMED, Kind.OPEN_FAILED) and event.channel in self._opening:
            is_open = event.kind == Kind.CONFIRMED
            channel = Channel(self, event.channel) if is_open else None
            if channel is not None:
                self.channels[event.channel] = channel
            self._opening.pop(event.channel).set_result(channel)
        elif event.kind == Kind.REQUESTED and event.channel in self._sessions():
            self._requested(self.channels[event.channel], event)
        elif event.kind == Kind.GLOBAL and event.name in (b"tcpip-forward", b"cancel-tcpip-forward") and event.flag:
            self.pause(self._forwards(event.name, event.data))
        else:
            self.end.decline()

    def _sessions(self) -> set[int]:
        return {it.number for it in self._processes}

    def _opened(self, event: Event) -> None:
        # a handler that goes on after its session is closed counts as one
        left = sum(it.is_closed for it in self._tasks)
        route = read_route(event.data) if event.name == b"direct-tcpip" else None
        if len(self.channels) + left >= CHANNELS and event.name == b"session":
            refuse(self, event.channel, SHORTAGE)
        elif route is not None and self.forward is not None:
            self._carry(self._direct(event.channel, route, self.forward))
        elif event.name != b"session":
            refuse(self, event.channel, UNKNOWN_TYPE if event.name != b"direct-tcpip" else PROHIBITED)
        else:
            channel = self.channels[event.channel] = Channel(self, event.channel)
            self._processes[channel] = ServerProcess(channel)
            self.end.queue(Ask(AskKind.CONFIRM, event.channel, window=WINDOW, max_packet=PACKET))

    def _requested(self, channel: Channel, event: Event) -> None:
        is_text = len(event.data) >= 4 and text(event.data[4:]) == event.data
        starts = event.name == b"shell" or event.name in (b"exec", b"subsystem") and is_text
        process = self._processes[channel]
        if channel in self._tasks:
            is_taken = process.told(event.name, event.data)
        else:
            is_taken = starts or process.prepared(event.name, event.data)
        if not is_taken:
            self.end.decline()
            return
        if event.flag:
            self.end.queue(Ask(AskKind.REPLY, channel.number, flag=True))
        if starts and channel not in self._tasks:
            process.command = event.data[4:] if event.name == b"exec" else None
            process.subsystem = event.data[4:] if event.name == b"subsystem" else None
            self._tasks[channel] = self.loop.create_task(self._run(channel, process))

    async def _run(self, channel: Channel, process: ServerProcess) -> None:
        status: int | ExitSignal = 1
        try:
            status = await self._status(process)
            for output in channel.outputs:
                await output.drain(0)
        except ConnectionFailed:
            pass
        finally:
            # also where the handler was cancelled: the client is not left waiting
            self._tasks.pop(channel, None)
            self._finish(channel, status)

    async def _status(self, process: ServerProcess) -> int | ExitSignal:
        """The status that the handler returns, and 1 where it fails."""
        try:
            status = await self._handle(process)
            if isinstance(status, ExitSignal):
                return status
            return 0 if status is None else operator.index(status) & 0xFF
        except ConnectionFailed:
            return 1
        except Exception as error:
            self.loop.call_exception_handler({"message": "the handler of a session failed", "exception": error})
            return 1

    def _finish(self, channel: Channel, status: int | ExitSignal) -> None:
        """Tells the status and closes the session, unless the client has closed it."""
        with contextlib.suppress(ConnectionFailed):
            if isinstance(status, ExitSignal):
                channel.tell("exit-signal", status.request())
            else:
                channel.tell("exit-status", struct.pack(">I", status))
            channel.outputs[0].write_eof()
            channel.close()

    def _carry(self, work: typing.Coroutine[typing.Any, typing.Any, None]) -> None:
        task = self.loop.create_task(work)
        self._carrying.add(task)
        task.add_done_callback(self._carrying.discard)

    async def _allows(self, forward: Forward, host: str, port: int) -> bool:
        try:
            answer = forward(self, host, port)
            return bool(await answer if inspect.isawaitable(answer) else answer)
        except Exception as error:
            self.loop.call_exception_handler({"message": "whether a port is forwarded could not be said", "exception": error})
            return False

    async def _direct(self, number: int, route: Route, forward: Forward) -> None:
        if await self._allows(forward, route.host, route.port):
            await connect_here(self, number, route.host, route.port)
        else:
            with contextlib.suppress(ConnectionFailed):
                refuse(self, number, PROHIBITED)

    async def _forwards(self, name: bytes, data: bytes) -> None:
        """Listens for the client, or listens no more, and replies."""
        where, bound = read_place(data), None
        try:
            if where is not None and name == b"cancel-tcpip-forward":
                server = self._listening.pop(where, None)
                bound = where[1] if server is not None else None
                if server is not None:
                    server.close()
            elif where is not None and self.listen is not None and where not in self._listening and await self._allows(self.listen, *where):
                bound = await self._listens(*where)
        except OSError as error:
            LOGGER.info("%s: no port is listened on: %s", self.peer, error)
        finally:
            with contextlib.suppress(ConnectionFailed):
                asked = where is not None and where[1] == 0 and bound is not None
                self.queue(Ask(AskKind.GLOBAL_REPLY, flag=bound is not None, data=struct.pack(">I", bound) if asked and bound is not None else b""))
            self.go_on()

    async def _listens(self, host: str, port: int) -> int:
        bound = port

        async def one(reader: asyncio.StreamReader, writer: asyncio.StreamWriter) -> None:
            origin = writer.get_extra_info("peername")[:2]
            channel = await self._open(Route(host, bound, *origin))
            if channel is None:
                writer.close()
            else:
                await relay(channel, reader, writer)

        server = await asyncio.start_server(one, host or None, port)
        bound = typing.cast(int, server.sockets[0].getsockname()[1])
        if self.lost.done():
            server.close()
        self._listening[host, bound] = server
        return bound

    async def _open(self, route: Route) -> Channel | None:
        opening: asyncio.Future[Channel | None] = self.loop.create_future()

        def done(error: Error | None, number: int | None) -> None:
            if error is None and number is not None:
                self._opening[number] = opening
            elif not opening.done():
                opening.set_result(None)

        try:
            self.queue(Ask(AskKind.OPEN, name=b"forwarded-tcpip", window=WINDOW, max_packet=PACKET, data=route.request()), done)
        except ConnectionFailed:
            return None
        return await opening
