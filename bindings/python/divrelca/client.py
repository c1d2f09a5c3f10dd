"""The client's end of a connection of `divrelca.aio`."""

from __future__ import annotations

import asyncio
import contextlib
import dataclasses
import inspect
import struct
import typing

from .agent import Identity
from .codes import AskKind, Code, Kind
from .connection import LOGGER, Connection, fail
from .ends import Ask, ClientEnd, Event
from .errors import BadArgument, Error
from .failures import ChannelRefused, ConnectionFailed, PermissionDenied, ProcessError, made, plain
from .forwarding import PROHIBITED, WINDOW, Route, connect_here, place, read_route, refuse, relay
from .requests import Fields, Terminal, variable
from .streams import PACKET, Channel, Text, in_bytes, text


@dataclasses.dataclass(frozen=True)
class Completed:
    """What a command left: all that it wrote, and its exit status, or the name of the signal that ended it."""

    stdout: bytes
    stderr: bytes
    status: int | None
    signal: str | None

    def check(self) -> Completed:
        """This, if the status is 0. ProcessError otherwise."""
        if self.status != 0:
            how = f"signal {self.signal}" if self.signal else f"status {self.status}" if self.status is not None else "no status"
            words = plain(self.stderr[-200:]).strip()
            raise made(ProcessError, f"the command ended with {how}" + (f": {words}" if words else ""), completed=self)
        return self


class ClientConnection(Connection):
    """A client's end of a connection, made by `connect`."""

    end: ClientEnd

    def __init__(
        self, end: ClientEnd, user: Text, password: Text | None = None, has_key: bool = False, identities: typing.Iterable[Identity] = ()
    ) -> None:
        super().__init__(end)
        self._identities = list(identities)
        self._offered: Identity | None = None
        self._user = in_bytes(user)
        self._asked_by_none = False
        self._password = None if password is None else in_bytes(password)
        self._has_key = has_key
        self._methods: tuple[str, ...] = ()
        self._opening: dict[int, asyncio.Future[Channel]] = {}
        self._forwards: dict[tuple[str, int], tuple[str, int]] = {}
        self._tasks: set[asyncio.Task[None]] = set()
        self.entered: asyncio.Future[None] = self.loop.create_future()
        self._banner = bytearray()

    @property
    def banner(self) -> bytes:
        """What the server shows before the login."""
        return bytes(self._banner)

    def failed(self) -> None:
        fail(self.entered, self.why)
        for opening in self._opening.values():
            fail(opening, self.why)
        self._opening.clear()
        for task in self._tasks:
            task.cancel()

    def _log_in(self) -> None:
        if not self._asked_by_none:
            # a server that looks its users up by name does so now
            self._asked_by_none = True
            self.end.queue(Ask(AskKind.LOGIN_NONE, name=self._user))
        elif self._identities:
            by = self._offered = self._identities.pop(0)
            self.end.queue(Ask(AskKind.LOGIN_PROBE, name=self._user, algorithm=by.algorithm, data=by.key), self._next_if)
        elif self._has_key:
            self._has_key = False
            self.end.queue(Ask(AskKind.LOGIN_KEY, name=self._user))
        elif self._password is not None:
            password, self._password = self._password, None
            self.end.queue(Ask(AskKind.LOGIN_PASSWORD, name=self._user, data=password))
        else:
            user = plain(self._user)
            self.why = made(PermissionDenied, f"{user} is not let in", user=user, methods=self._methods)
            self.end.queue(Ask(AskKind.DISCONNECT, data=b"no more methods"))

    def _next_if(self, error: Error | None, _: int | None) -> None:
        """Goes on to what is tried next where an ask by an identity was refused."""
        if error is not None and not self.end.is_over:
            self._log_in()

    async def _sign(self, by: Identity) -> None:
        """Has a key sign that the server would take, and asks for the login by it. Where it does not sign, what is tried next is asked for."""
        try:
            text = self.end.text_to_sign(self._user, by.algorithm, by.key)
            if inspect.iscoroutinefunction(by.sign):
                signed = await by.sign(text)
            else:
                # an agent may ask its user, who takes time
                said = await self.loop.run_in_executor(None, by.sign, text)
                signed = await said if inspect.isawaitable(said) else said
            if self.lost.done() or self.end.is_over:
                return
            try:
                self.end.set_signature(self._user, by.algorithm, by.key, signed)
            except BadArgument as error:
                if error.code != Code.SIGNATURE_KNOWN:
                    raise
            self.end.queue(Ask(AskKind.LOGIN_KEY, name=self._user, algorithm=by.algorithm, data=by.key), self._next_if)
        except Exception as error:
            LOGGER.info("%s: a key does not sign: %s", self.peer, error)
            if not self.lost.done() and not self.end.is_over:
                self._log_in()
        self.pump()

    def hear(self, event: Event) -> None:
        if event.kind == Kind.COMPLETED and event.number == 1:
            self.end.queue(Ask(AskKind.SERVICE))
        elif event.kind == Kind.KEY_OK and self._offered is not None:
            by, self._offered = self._offered, None
            if (event.name, event.data) == (by.algorithm, by.key):
                self._start(self._sign(by))
            else:
                self._log_in()
        elif event.kind in (Kind.SERVICE, Kind.FAILED):
            if event.kind == Kind.FAILED:
                self._methods = tuple(plain(event.data).split(",")) if event.data else ()
            self._log_in()
        elif event.kind == Kind.BANNER:
            self._banner += event.data
        elif event.kind == Kind.AUTHENTICATED:
            self.user = self._user
            LOGGER.info("%s: %s is let in", self.peer, plain(self._user))
            if not self.entered.done():
                self.entered.set_result(None)
        elif event.kind in (Kind.CONFIRMED, Kind.OPEN_FAILED) and event.channel in self._opening:
            self._opened(event)
        elif event.kind == Kind.OPENED and event.name == b"forwarded-tcpip":
            self._forwarded(event)
        elif event.kind == Kind.REQUESTED and event.channel in self.channels and not event.flag:
            self._ended(self.channels[event.channel], event)
        else:
            self.end.decline()

    def _opened(self, event: Event) -> None:
        waiting = self._opening.pop(event.channel)
        if event.kind == Kind.CONFIRMED:
            self.channels[event.channel] = Channel(self, event.channel)
        if waiting.done():
            if event.kind == Kind.CONFIRMED:
                self.channels[event.channel].abort()
        elif event.kind == Kind.CONFIRMED:
            waiting.set_result(self.channels[event.channel])
        else:
            words = plain(event.data)
            waiting.set_exception(made(ChannelRefused, f"no channel: {words} ({event.number})", reason=event.number, description=words))

    def _ended(self, channel: Channel, event: Event) -> None:
        fields = Fields(event.data)
        if event.name == b"exit-status":
            channel.exit_status = fields.number()
        elif event.name == b"exit-signal":
            name = fields.string()
            channel.exit_signal = None if name is None else plain(name)

    async def open_channel(self, kind: Text = b"session", data: bytes = b"") -> Channel:
        """Opens a channel. ChannelRefused where the server refuses it."""
        waiting: asyncio.Future[Channel] = self.loop.create_future()

        def done(error: Error | None, number: int | None) -> None:
            if error is None and number is not None:
                self._opening[number] = waiting
            elif not waiting.done():
                waiting.set_exception(ConnectionFailed(str(error)))

        self.queue(Ask(AskKind.OPEN, name=in_bytes(kind), window=WINDOW, max_packet=PACKET, data=data), done)
        try:
            return await waiting
        except asyncio.CancelledError:
            if waiting.done() and not waiting.cancelled() and waiting.exception() is None:
                waiting.result().abort()
            raise

    async def start(
        self,
        command: Text | None = None,
        *,
        subsystem: Text | None = None,
        env: typing.Mapping[str, str] | None = None,
        terminal: Terminal | None = None,
    ) -> ClientProcess:
        """Opens a session and starts a command, a subsystem, or a shell where there is neither. `env` are variables to set, which a server may pass over
        without a word, and `terminal` a terminal to run it in. Returns the session's `ClientProcess`."""
        channel = await self.open_channel()
        with closed_unless_done(channel):
            for name, value in (env or {}).items():
                channel.tell("env", variable(name, value))
            if terminal is not None:
                await channel.request("pty-req", terminal.request())
            if subsystem is not None:
                await channel.request("subsystem", text(in_bytes(subsystem)))
            elif command is not None:
                await channel.request("exec", text(in_bytes(command)))
            else:
                await channel.request("shell")
        return ClientProcess(channel)

    async def run(
        self,
        command: Text,
        input: Text = b"",
        *,
        check: bool = False,
        timeout: float | None = None,
        env: typing.Mapping[str, str] | None = None,
        terminal: Terminal | None = None,
    ) -> Completed:
        """Runs a command to its end and returns what it left, a `Completed`. A command that ends before it took all of its input is no failure. With `check`
        another status than 0 is a ProcessError. Where this is cancelled or fails, or takes more than `timeout` seconds (asyncio.TimeoutError), the session
        is closed."""
        done = await asyncio.wait_for(self._run(command, input, env, terminal), timeout)
        return done.check() if check else done

    async def _run(self, command: Text, input: Text, env: typing.Mapping[str, str] | None, terminal: Terminal | None) -> Completed:
        process = await self.start(command, env=env, terminal=terminal)
        with closed_unless_done(process.channel):
            read = asyncio.gather(process.stdout.read(), process.stderr.read())
            with contextlib.suppress(ConnectionFailed):
                process.stdin.write(input)
            process.stdin.write_eof()
            out, err = await read
            return Completed(out, err, *await process.wait())

    async def open_connection(self, host: str, port: int, *, origin: tuple[str, int] = ("127.0.0.1", 0)) -> Channel:
        """Has the server connect to a host and port. The data of the channel is what goes over that connection."""
        return await self.open_channel("direct-tcpip", Route(host, port, *origin).request())

    async def forward_local(self, listen_host: str, listen_port: int, host: str, port: int) -> asyncio.AbstractServer:
        """Listens here, and has the server connect each connection to a host and port there. Returns the server, whose `sockets` have the port where 0 was asked for."""

        async def one(reader: asyncio.StreamReader, writer: asyncio.StreamWriter) -> None:
            origin = writer.get_extra_info("peername")[:2]
            try:
                channel = await self.open_connection(host, port, origin=origin)
            except ConnectionFailed as error:
                LOGGER.info("%s: port %s is not forwarded: %s", self.peer, port, error)
                writer.close()
                return
            await relay(channel, reader, writer)

        return await asyncio.start_server(one, listen_host, listen_port)

    async def forward_remote(self, listen_host: str, listen_port: int, host: str, port: int) -> int:
        """Has the server listen, and connects each connection to a host and port here. Returns the port at which it listens. RequestRefused where it does not."""
        answer = await self.request("tcpip-forward", place(listen_host, listen_port))
        found = struct.unpack(">I", answer)[0] if listen_port == 0 and len(answer) == 4 else listen_port
        self._forwards[listen_host, found] = (host, port)
        return typing.cast(int, found)

    async def cancel_forward(self, listen_host: str, port: int) -> None:
        """Has the server listen no more."""
        self._forwards.pop((listen_host, port), None)
        await self.request("cancel-tcpip-forward", place(listen_host, port))

    def _forwarded(self, event: Event) -> None:
        route = read_route(event.data)
        there = None if route is None else self._forwards.get((route.host, route.port))
        if there is None:
            refuse(self, event.channel, PROHIBITED)
            return
        self._start(connect_here(self, event.channel, *there))

    def _start(self, work: typing.Coroutine[typing.Any, typing.Any, None]) -> None:
        task = self.loop.create_task(work)
        self._tasks.add(task)
        task.add_done_callback(self._tasks.discard)


@contextlib.contextmanager
def closed_unless_done(channel: Channel) -> typing.Iterator[None]:
    """Closes a channel where what is done with it fails or is cancelled."""
    try:
        yield
    except BaseException:
        channel.abort()
        raise


class ClientProcess:
    """A command at the server: `stdin` is an Output, `stdout` and `stderr` are asyncio.StreamReaders."""

    def __init__(self, channel: Channel) -> None:
        self.channel = channel
        self.stdin = channel.outputs[0]
        self.stdout, self.stderr = channel.readers

    def send_signal(self, name: str) -> None:
        """Sends the command a signal, by its name without SIG, as "INT"."""
        self.channel.tell("signal", text(name.encode()))

    def resize(self, terminal: Terminal) -> None:
        """Tells the size that the terminal has now."""
        self.channel.tell("window-change", terminal.size())

    def close(self) -> None:
        """Closes the session, whether the command has ended or not."""
        self.channel.abort()

    async def wait(self) -> tuple[int | None, str | None]:
        """Waits until the command has ended; returns its exit status and the name of its signal, None where there is none."""
        await self.channel.wait_closed()
        return self.channel.exit_status, self.channel.exit_signal
