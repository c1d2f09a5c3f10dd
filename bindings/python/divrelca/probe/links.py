"""What carries bytes to a peer and back. An oracle is one too."""

import contextlib
import select
import socket


class Closed(Exception):
    """The session is over: the peer said so, or closed the connection."""


class Late(Exception):
    """Nothing came within the time limit, or nothing can come any more."""


class Skipped(Exception):
    """The probe can't be made with this peer; the text says why."""


class SocketLink:
    """A connected socket."""

    is_real = True

    def __init__(self, socket_):
        self._socket = socket_
        with contextlib.suppress(OSError):
            socket_.setsockopt(socket.IPPROTO_TCP, socket.TCP_NODELAY, 1)

    def write(self, data):
        """Writes all bytes. Where the peer has closed the connection nothing is said: what it sent before can still be read."""
        self._socket.settimeout(10)
        try:
            self._socket.sendall(data)
        except socket.timeout:
            raise Late("the peer does not read") from None
        except OSError:
            pass

    def read(self, seconds):
        """Some bytes, at least one."""
        if not select.select([self._socket], [], [], seconds)[0]:
            raise Late("silence")
        try:
            data = self._socket.recv(65536)
        except OSError:
            data = b""
        if not data:
            raise Closed("the connection is closed")
        return data

    def close(self):
        with contextlib.suppress(OSError):
            self._socket.close()
