"""Clients and servers over `asyncio`: `connect`, `serve`, and channels as streams.

A channel's input is an `asyncio.StreamReader`. One that is not read stops its peer, since no window is given back; a `drain` waits while the peer gives none.
The logger `divrelca` hears who is let in, who is not, and why a connection is over.
"""

from __future__ import annotations

import asyncio
import functools
import getpass
import inspect
import typing

from . import files, signatures
from .agent import Agent, AgentFailed, Identity, identities
from .client import ClientConnection, ClientProcess, Completed
from .codes import Login
from .connection import LOGGER, Decide
from .ends import ClientEnd, ServerEnd, User, Wanted
from .failures import (
    ChannelRefused,
    ConnectionFailed,
    ConnectionLost,
    Disconnected,
    HostKeyMismatch,
    HostKeyUnknown,
    NoCommonAlgorithm,
    PeerRefused,
    PermissionDenied,
    ProcessError,
    ProtocolError,
    RequestRefused,
)
from .files import remember_host
from .keys import fingerprint
from .requests import ExitSignal, Terminal
from .server import Forward, Handle, Lookup, ServerConnection, ServerProcess
from .streams import Channel, Output, Text, in_bytes

__all__ = [
    "Agent",
    "AgentFailed",
    "Channel",
    "ChannelRefused",
    "ClientConnection",
    "ClientProcess",
    "Completed",
    "ConnectionFailed",
    "ConnectionLost",
    "Disconnected",
    "ExitSignal",
    "HostKeyMismatch",
    "HostKeyUnknown",
    "Identity",
    "NoCommonAlgorithm",
    "Output",
    "PeerRefused",
    "PermissionDenied",
    "ProcessError",
    "ProtocolError",
    "RequestRefused",
    "ServerConnection",
    "ServerProcess",
    "Terminal",
    "Wanted",
    "by_key",
    "by_password",
    "connect",
    "fingerprint",
    "identities",
    "remember_host",
    "serve",
]

Keys = typing.Union[bytes, typing.Iterable[bytes]]


async def connect(
    host: str,
    port: int = 22,
    *,
    user: Text | None = None,
    host_key: Keys | None = None,
    known_hosts: files.Paths | None = None,
    trust: Decide | None = None,
    keys: files.Paths | None = None,
    seed: bytes = b"",
    password: Text | None = None,
    agent: bool | str | Agent = False,
    offers: typing.Iterable[Identity] = (),
    verify: Decide | None = None,
    connect_timeout: float | None = None,
    keepalive: float | None = None,
    **settings: typing.Any,
) -> ClientConnection:
    """Connects to a server, logs a user in, and returns the `ClientConnection`.

    `host_key` is the host's key, 32 bytes, or a list of keys, any one of which is enough. Without it the files `known_hosts`, else ~/.ssh/known_hosts, have
    to have one (HostKeyUnknown), unless there is `trust`: `trust(wanted)` is asked about the key of a host of which no key is known, and the server waits for it.
    It returns a bool, or is a coroutine that does; `fingerprint(wanted.key)` is what people compare, and `remember_host` notes it for the next time. A host that
    is known by another key is refused (HostKeyMismatch), and nobody is asked. So is one with a key that a line of these files revokes. `keys` are files of private keys, each tried in a connection of its own, since an end has one; `seed` is the seed of one; and
    with neither of them, nor a password, ~/.ssh/id_ed25519 is taken. After the last key the password is tried. First of all a client asks by no method, so that
    a server may look the user up. `user` is who runs this program, if none is given.

    With `agent` the keys of an ssh-agent are offered before all others, of whatever algorithm: True is the one that SSH_AUTH_SOCK names, a text the path of its
    socket (AgentFailed where there is none). `offers` are `Identity`s, keys with what signs by them, in their order before those. A server is asked first
    whether it would take a key, and only then the key signs.

    A host is asked for its key of ssh-ed25519, unless `host_algorithms` names others. `trust` is asked about a key of any algorithm, and `verify(wanted)` about the
    host's signature by one that is not of ssh-ed25519: `divrelca.signatures.verify` by `cryptography`, where none is given.

    `connect_timeout` is in seconds, for all up to the login (asyncio.TimeoutError). A server that is silent for `keepalive` seconds is asked whether it is
    there, and given up after three such questions. `settings` go to `ClientEnd`. Errors are OSError where there is no connection, and the classes of
    `ConnectionFailed`."""
    trusted = files.host_keys(known_hosts, host, port, may_lack=trust is not None) if host_key is None else host_key
    asked = once(unless_revoked(trust, files.revoked_keys(known_hosts))) if trust is not None and not trusted else None
    tried = [bytes(seed)] if seed else []
    if keys is not None or not (seed or password is not None):
        tried += files.seeds(keys)
    name = in_bytes(getpass.getuser() if user is None else user)
    offered = list(offers)
    if agent:
        offered += await asyncio.to_thread(identities, agent if isinstance(agent, Agent) else Agent(None if agent is True else agent))
    ask = functools.partial(_connect, host, port, user=name, trust=asked, verify=verify)

    async def all_keys() -> ClientConnection:
        for number, each in enumerate(tried[:-1]):
            try:
                return await ask(ClientEnd(trusted, each, **settings), offers=() if number else offered)
            except PermissionDenied:
                LOGGER.info("%s: a key does not let the user in; the next is tried", host)
        end = ClientEnd(trusted, tried[-1] if tried else b"", **settings)
        return await ask(end, password=password, has_key=bool(tried), offers=() if tried[:-1] else offered)

    connection = await asyncio.wait_for(all_keys(), connect_timeout)
    if keepalive is not None:
        connection.watch(keepalive)
    return connection


def once(decide: Decide) -> Decide:
    """What asks the same, and each question once."""
    said: dict[Wanted, bool] = {}

    async def answer(wanted: Wanted) -> bool:
        if wanted not in said:
            found = decide(wanted)
            said[wanted] = bool(await found if inspect.isawaitable(found) else found)
        return said[wanted]

    return answer


def unless_revoked(decide: Decide, revoked: set[bytes]) -> Decide:
    """What asks the same about all keys but these, which nobody trusts."""

    def answer(wanted: Wanted) -> bool | typing.Awaitable[bool]:
        if wanted.key in revoked:
            LOGGER.warning("a host shows the key %s, which is revoked", fingerprint(wanted.key))
            return False
        return decide(wanted)

    return answer


async def _connect(
    host: str,
    port: int,
    end: ClientEnd,
    *,
    user: bytes,
    password: Text | None = None,
    has_key: bool = True,
    offers: typing.Iterable[Identity] = (),
    trust: Decide | None = None,
    verify: Decide | None = None,
) -> ClientConnection:
    def made() -> ClientConnection:
        connection = ClientConnection(end, user, password, has_key, offers)
        connection.decide = trust
        if verify is not None:
            connection.verify = verify
        return connection

    try:
        if trust is not None:
            end.decide_later()
        loop = asyncio.get_running_loop()
        _, connection = await loop.create_connection(made, host, port)
    except BaseException:
        end.close()
        raise
    try:
        await asyncio.shield(connection.entered)
    except BaseException:
        connection.transport.abort()
        raise
    return connection


async def serve(
    handle: Handle,
    host: str | None = "127.0.0.1",
    port: int = 22,
    *,
    host_seed: bytes,
    users: typing.Iterable[User] = (),
    lookup: Lookup | None = None,
    authorize: Decide | None = None,
    verify: Decide | None = None,
    grace: float = 120.0,
    keepalive: float | None = None,
    forward: Forward | None = None,
    listen: Forward | None = None,
    **settings: typing.Any,
) -> asyncio.AbstractServer:
    """Listens, and calls `await handle(process)` for each command, subsystem and shell that a user asks for; what it returns is the exit status, None 0, or an
    `ExitSignal`. Where it raises, or returns something else, the status is 1, and the loop's exception handler is told. It is cancelled once the client closes
    the session. `users` are `User`s, and whoever is not let in within `grace` seconds is disconnected. Returns an `asyncio.Server`; `settings` go to `ServerEnd`.

    `lookup(name)` is asked for further `User`s of this name, in bytes, once a client asks by no method, which most do first. It returns them, or None where
    there are none, or is a coroutine that does; the client waits for it. Where it fails the loop's exception handler is told, and no user is set. A client
    that begins by a key or a password is judged by `users` alone.

    `authorize(wanted)` is asked about each password and each key of a user of whom there is no `User`, and the client waits for it: it returns a bool, or is a
    coroutine that does. Yes to a key lets nobody in by itself: the signature by this key is judged besides. One question is asked once in a connection.
    Keys may be of any algorithm. The library judges the signatures of ssh-ed25519, and `verify(wanted)` those of all others: without it
    `divrelca.signatures.verify` does, by the package `cryptography`, of RSA, ECDSA and security keys. The server announces these algorithms, or those that
    `user_algorithms` of the `settings` names.

    A client that is silent for `keepalive` seconds is asked whether it is there, and given up after three such questions. `forward(connection, host, port)` says
    whether the client may reach this host and port over the server, and `listen(connection, host, port)` whether the server may listen there for the client. Each
    returns a bool, or is a coroutine that does; without them nobody may."""
    users = list(users)
    loop = asyncio.get_running_loop()
    if authorize is not None and signatures.IS_THERE:
        settings.setdefault("user_algorithms", b",".join(signatures.ALGORITHMS))

    def accepted() -> ServerConnection:
        end = ServerEnd(host_seed, users, **settings)
        if authorize is not None:
            end.decide_later()
        connection = ServerConnection(end, handle, grace, lookup)
        connection.decide = authorize
        if verify is not None:
            connection.verify = verify
        connection.keepalive, connection.forward, connection.listen = keepalive, forward, listen
        return connection

    return await loop.create_server(accepted, host, port)


def by_key(name: Text, key: bytes) -> User:
    """A user who is let in by this public key."""
    return User(in_bytes(name), bytes(key), Login.KEY)


def by_password(name: Text, password: Text) -> User:
    """A user who is let in by this password."""
    return User(in_bytes(name), in_bytes(password), Login.PASSWORD)
