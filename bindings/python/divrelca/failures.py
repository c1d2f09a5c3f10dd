"""What can become of a connection of `divrelca.aio`, by class. Each is a `ConnectionFailed`, and so a ConnectionError, but for `ProcessError`."""

from __future__ import annotations

import copy
import typing


class ConnectionFailed(ConnectionError):
    """The connection ended, the login failed, or a channel or a request was refused."""


class ConnectionLost(ConnectionFailed):
    """The transport ended, and nobody said why; or the peer does not answer any more."""


class Disconnected(ConnectionFailed):
    """The peer ended the connection: `reason` is its number (RFC 4253, 11.1), `description` its words."""

    reason: int = 0
    description: str = ""


class PeerRefused(ConnectionFailed):
    """The peer is refused: `refusal` is the number, and `name` the name of the refusal, as "BadTag"."""

    refusal: int = 0
    name: str = ""


class HostKeyMismatch(PeerRefused):
    """The server has another key than those that the host is known by, or did not sign by it."""


class NoCommonAlgorithm(PeerRefused):
    """The two ends have no algorithm in common. This one has curve25519-sha256, ssh-ed25519, and AES-GCM of OpenSSH."""


class ProtocolError(PeerRefused):
    """The peer broke the protocol, or the bytes were changed on their way."""


class HostKeyUnknown(ConnectionFailed):
    """No key of the host is known, so it was not connected to."""


class PermissionDenied(ConnectionFailed):
    """The server does not let the user in: `methods` are those by which it could go on."""

    user: str = ""
    methods: tuple[str, ...] = ()


class ChannelRefused(ConnectionFailed):
    """The peer opens no channel: `reason` is its number (RFC 4254, 5.1), `description` its words."""

    reason: int = 0
    description: str = ""


class RequestRefused(ConnectionFailed):
    """The peer refuses a request: `request` is its name, as "exec"."""

    request: str = ""


class ProcessError(Exception):
    """A command was to end with status 0, and did not: `completed` is what it left."""

    completed: typing.Any = None


Failure = typing.TypeVar("Failure", bound=Exception)


def made(kind: type[Failure], text: str, **attributes: object) -> Failure:
    """An error of this class, with its attributes."""
    error = kind(text)
    error.__dict__.update(attributes)
    return error


def again(error: Failure) -> Failure:
    """The same error for another place, since each raise writes where it was into it."""
    return copy.copy(error)


def refused(number: int, name: str) -> PeerRefused:
    """The error of a refusal by an end."""
    kinds: dict[str, type[PeerRefused]] = {"BadHost": HostKeyMismatch, "NoCommon": NoCommonAlgorithm}
    return made(kinds.get(name, ProtocolError), f"the peer is refused: {name}", refusal=number, name=name)


def disconnected(reason: int, description: bytes) -> Disconnected:
    """The error of a peer that ended the connection."""
    words = plain(description)
    return made(Disconnected, f"the peer ended the connection: {words} ({reason})", reason=reason, description=words)


def plain(data: bytes) -> str:
    """Text of the peer for people, without characters that a terminal obeys."""
    text = data.decode(errors="replace")
    return "".join(it if it.isprintable() else "\N{REPLACEMENT CHARACTER}" for it in text)
