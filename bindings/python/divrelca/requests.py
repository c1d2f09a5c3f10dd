"""What is requested on a session (RFC 4254, 6), as bytes and back."""

from __future__ import annotations

import dataclasses
import struct
import typing

from .streams import Text, in_bytes, text


@dataclasses.dataclass(frozen=True)
class Terminal:
    """A terminal: its kind, as TERM names it, its size in characters and in pixels, and its modes (RFC 4254, 8)."""

    kind: str = "xterm"
    columns: int = 80
    rows: int = 24
    width: int = 0
    height: int = 0
    modes: bytes = b"\0"

    def size(self) -> bytes:
        """Its size, as `window-change` has it."""
        return struct.pack(">IIII", self.columns, self.rows, self.width, self.height)

    def request(self) -> bytes:
        """What `pty-req` has."""
        return text(self.kind.encode()) + self.size() + text(self.modes)


@dataclasses.dataclass(frozen=True)
class ExitSignal:
    """A signal that ended a command, by its name without SIG."""

    name: str
    is_core_dumped: bool = False
    message: str = ""

    def request(self) -> bytes:
        """What `exit-signal` has."""
        return text(self.name.encode()) + bytes([self.is_core_dumped]) + text(self.message.encode()) + text(b"")


class Fields:
    """The fields of a request, one after the other. Each is None once the bytes are other ones."""

    def __init__(self, data: bytes) -> None:
        self._data: bytes | None = data

    def string(self) -> bytes | None:
        """A string."""
        count = self.number()
        if count is None or self._data is None or len(self._data) < count:
            self._data = None
            return None
        found, self._data = self._data[:count], self._data[count:]
        return found

    def byte(self) -> int | None:
        """A byte."""
        if not self._data:
            self._data = None
            return None
        found, self._data = self._data[0], self._data[1:]
        return found

    def number(self) -> int | None:
        """A number of 32 bits."""
        if self._data is None or len(self._data) < 4:
            self._data = None
            return None
        found, self._data = struct.unpack(">I", self._data[:4])[0], self._data[4:]
        return typing.cast(int, found)

    @property
    def is_over(self) -> bool:
        """Whether all was as it was read, and nothing is left."""
        return self._data == b""


def variable(name: Text, value: Text) -> bytes:
    """What `env` has."""
    return text(in_bytes(name)) + text(in_bytes(value))


def read_terminal(data: bytes) -> Terminal | None:
    """What a `pty-req` asks for."""
    fields = Fields(data)
    kind, numbers, modes = fields.string(), [fields.number() for _ in range(4)], fields.string()
    if not fields.is_over or kind is None or modes is None:
        return None
    columns, rows, width, height = (it or 0 for it in numbers)
    return Terminal(kind.decode(errors="replace"), columns, rows, width, height, modes)


def read_size(terminal: Terminal, data: bytes) -> Terminal | None:
    """The terminal with the size that a `window-change` tells."""
    fields = Fields(data)
    columns, rows, width, height = ((it or 0) for it in [fields.number() for _ in range(4)])
    return dataclasses.replace(terminal, columns=columns, rows=rows, width=width, height=height) if fields.is_over else None


def read_variable(data: bytes) -> tuple[str, str] | None:
    """What an `env` sets."""
    fields = Fields(data)
    name, value = fields.string(), fields.string()
    if not fields.is_over or name is None or value is None:
        return None
    return name.decode(errors="replace"), value.decode(errors="replace")


def read_extensions(data: bytes) -> dict[bytes, bytes]:
    """The extensions that the data of `Kind.EXTENSIONS` hold, each by its name (RFC 8308, 2.3)."""
    fields, found = Fields(data), {}
    while not fields.is_over:
        name, value = fields.string(), fields.string()
        if name is None or value is None:
            break
        found[name] = value
    return found
