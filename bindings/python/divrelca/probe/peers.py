"""How a session with a peer under test comes about: a server is connected to, and started again where it died; a client is started once a
probe."""

import contextlib
import os
import shlex
import signal
import socket
import subprocess
import tempfile
import threading
import time

from .links import SocketLink

# by these signals a program ends that did not mean to
CRASHES = {signal.SIGSEGV, signal.SIGABRT, signal.SIGBUS, signal.SIGFPE, signal.SIGILL}


class NotThere(Exception):
    """No session comes about at all."""


def crash_of(status):
    """The name of the signal by which a program crashed, or None; a shell tells it by a status over 128."""
    number = -status if status < 0 else status - 128
    return signal.Signals(number).name if number in CRASHES else None


class Server:
    """A server at an address. `command` starts it; without one it runs already, and a server that died stays dead."""

    def __init__(self, host, port, command=None):
        self.address, self._command = (host, port), shlex.split(command) if command else None
        self._lock, self._process, self.deaths = threading.Lock(), None, 0
        self.revive()

    def revive(self):
        """Starts the server where it is not running. True where it had died."""
        with self._lock:
            if self._command is None or self._process is not None and self._process.poll() is None:
                return False
            died = self._process is not None
            self.deaths += died
            self._process = subprocess.Popen(
                self._command, stdin=subprocess.DEVNULL, stdout=subprocess.DEVNULL, stderr=subprocess.DEVNULL, start_new_session=True
            )
            return died

    def link(self):
        """A connection. NotThere after some seconds without one."""
        for wait in (0.1, 0.2, 0.4, 0.8, 1.6, *((3, 3, 3) if self._command else ()), 0):
            try:
                return SocketLink(socket.create_connection(self.address, 5))
            except OSError as error:
                why = str(error)
                self.revive()
                time.sleep(wait)
        raise NotThere(f"{self.address[0]} port {self.address[1]}: {why}")

    @contextlib.contextmanager
    def session(self):
        """A link, and a function that names a crash that the session came to see."""
        link = self.link()
        before = self.deaths
        try:
            yield link, lambda: "the server died" if self._died(before) else None
        finally:
            link.close()

    def _died(self, before):
        """Whether the server died since then. A connection ends a moment before the process does."""
        if self._command is not None:
            time.sleep(0.05)
        return self.revive() or self.deaths > before

    def close(self):
        with self._lock:
            if self._process is not None and self._process.poll() is None:
                _end(self._process)


def _end(process):
    """Ends a program that was started in a session of its own."""
    with contextlib.suppress(ProcessLookupError):
        os.killpg(process.pid, signal.SIGKILL)
    process.wait()


class Client:
    """A client that is started by a command, in which {port} is the port to connect to, and {known_hosts} a file with the tester's host
    key."""

    def __init__(self, command, known_hosts):
        self._command, self._known_hosts = command, known_hosts

    @contextlib.contextmanager
    def session(self):
        with socket.create_server(("127.0.0.1", 0)) as listener, tempfile.TemporaryFile() as errors:
            listener.settimeout(20)
            port = listener.getsockname()[1]
            words = [it.replace("{port}", str(port)).replace("{known_hosts}", self._known_hosts) for it in self._command]
            try:
                process = subprocess.Popen(words, stdin=subprocess.PIPE, stdout=subprocess.DEVNULL, stderr=errors, start_new_session=True)
            except OSError as error:
                raise NotThere(f"{words[0]}: {error}") from None
            try:
                yield SocketLink(self._connected(listener, process, errors)), lambda: self._crash(process)
            finally:
                process.stdin.close()
                _end(process)

    @staticmethod
    def _connected(listener, process, errors):
        try:
            return listener.accept()[0]
        except OSError:
            errors.seek(0)
            raise NotThere(f"the client did not connect: {errors.read().decode(errors='replace').strip()[-200:]}") from None

    @staticmethod
    def _crash(process):
        """Closes the client's input and waits for its end, a second at most."""
        with contextlib.suppress(OSError):
            process.stdin.close()
        try:
            name = crash_of(process.wait(1))
        except subprocess.TimeoutExpired:
            return None
        return f"the client crashed: {name}" if name else None

    def close(self):
        """Nothing is left: each session ended its own."""
