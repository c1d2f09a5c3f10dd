"""A client of an `ssh-agent`, which holds keys of any algorithm and signs with them: the protocol of draft-ietf-sshm-ssh-agent, as OpenSSH's agent speaks it."""

from __future__ import annotations

import dataclasses
import os
import socket
import struct
import typing

from .requests import Fields
from .streams import text

REQUEST_IDENTITIES = 11
IDENTITIES_ANSWER = 12
SIGN_REQUEST = 13
SIGN_RESPONSE = 14
RSA_SHA2_256 = 2
RSA_SHA2_512 = 4
LONGEST = 1 << 18
"""The most bytes of an answer that are read: those that OpenSSH's agent sends at most."""


class AgentFailed(OSError):
    """The agent does not answer, or refuses."""


@dataclasses.dataclass(frozen=True)
class AgentKey:
    """A key that an agent holds: `blob` is the public key as it goes over the wire, and `comment` what its owner calls it."""

    blob: bytes
    comment: str = ""

    @property
    def kind(self) -> bytes:
        """The type of the key, such as `b"ssh-rsa"`: the first text of the blob."""
        return Fields(self.blob).string() or b""

    @property
    def algorithms(self) -> tuple[bytes, ...]:
        """The algorithms by which it signs, the preferred one first. A key of RSA has two, both with SHA-2 (RFC 8332)."""
        return RSA.get(self.kind, (self.kind,)) if self.kind else ()


RSA = {
    b"ssh-rsa": (b"rsa-sha2-512", b"rsa-sha2-256"),
    b"ssh-rsa-cert-v01@openssh.com": (b"rsa-sha2-512-cert-v01@openssh.com", b"rsa-sha2-256-cert-v01@openssh.com"),
}


class Agent:
    """An agent at this socket, else at the one that SSH_AUTH_SOCK names. Each call makes a connection of its own, and waits for the answer: an agent may ask its
    user first. AgentFailed where there is no agent, or it refuses."""

    def __init__(self, path: str | os.PathLike[str] | None = None) -> None:
        self.path = os.environ.get("SSH_AUTH_SOCK", "") if path is None else os.fspath(path)

    def keys(self) -> list[AgentKey]:
        """The keys that it holds, in its order."""
        answer = self._answer(bytes([REQUEST_IDENTITIES]), IDENTITIES_ANSWER)
        fields, found = Fields(answer), []
        for _ in range(fields.number() or 0):
            blob, comment = fields.string(), fields.string()
            if blob is None or comment is None:
                break
            found.append(AgentKey(blob, comment.decode(errors="replace")))
        if not fields.is_over:
            raise AgentFailed("the agent answers what is no list of keys")
        return found

    def sign(self, key: bytes, data: bytes, algorithm: bytes) -> bytes:
        """The signature of these bytes by a key, which is given as it goes over the wire, under this algorithm."""
        flags = RSA_SHA2_512 if algorithm.startswith(b"rsa-sha2-512") else RSA_SHA2_256 if algorithm.startswith(b"rsa-sha2-256") else 0
        answer = Fields(self._answer(bytes([SIGN_REQUEST]) + text(key) + text(data) + struct.pack(">I", flags), SIGN_RESPONSE))
        signature = answer.string()
        if signature is None or not answer.is_over:
            raise AgentFailed("the agent answers what is no signature")
        return signature

    def _answer(self, request: bytes, wanted: int) -> bytes:
        """The body of the answer to a request, which has to be of this kind."""
        if not self.path:
            raise AgentFailed("SSH_AUTH_SOCK names no agent")
        with socket.socket(socket.AF_UNIX) as there:
            try:
                there.connect(self.path)
                there.sendall(text(request))
                (count,) = struct.unpack(">I", _read(there, 4))
                if not 0 < count <= LONGEST:
                    raise AgentFailed("the agent answers too much, or nothing")
                answer = _read(there, count)
            except AgentFailed:
                raise
            except OSError as error:
                raise AgentFailed(f"no agent at {self.path}: {error}") from error
        if answer[0] != wanted:
            raise AgentFailed("the agent refuses")
        return answer[1:]


def _read(there: socket.socket, count: int) -> bytes:
    found = bytearray()
    while len(found) < count:
        part = there.recv(count - len(found))
        if not part:
            raise AgentFailed("the agent ended the connection")
        found += part
    return bytes(found)


Sign = typing.Callable[[bytes], typing.Union[bytes, typing.Awaitable[bytes]]]
"""What signs a text by a key, or is a coroutine that does: it returns the signature as it goes over the wire."""


@dataclasses.dataclass(frozen=True)
class Identity:
    """A key that `connect` offers a server: `algorithm` is the name under which it is offered, `key` the public key as it goes over the wire, and `sign` what signs the
    text of a login by it. An agent, a security key or a service may hold the private one."""

    algorithm: bytes
    key: bytes
    sign: Sign


def identities(agent: Agent) -> list[Identity]:
    """The keys of an agent, each under its preferred algorithm."""

    def by(key: AgentKey) -> Identity:
        algorithm = key.algorithms[0]
        return Identity(algorithm, key.blob, lambda data: agent.sign(key.blob, data, algorithm))

    return [by(key) for key in agent.keys() if key.algorithms]
