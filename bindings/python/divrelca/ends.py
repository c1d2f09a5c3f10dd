"""Ends without I/O: bytes of the peer and asks go in, bytes for the peer and events come out."""

from __future__ import annotations

import collections
import ctypes
import dataclasses
import os
import threading
import typing

from . import library
from .codes import AskKind, Ciphers, Code, Kind, Login, Methods, WantedKind
from .errors import Error, check, error_of, is_later
from .library import LIBRARY, Buffer, Held

SOFTWARE = b"Divrelca_Python"
MOST_SIGNED = 35036
"""The most bytes of the text of a login."""
Draw = typing.Callable[[int], bytes]
Done = typing.Callable[[typing.Optional[Error], typing.Optional[int]], None]


@dataclasses.dataclass(frozen=True)
class Event:
    """What a `take` did. `Kind` says which fields mean something; the others are 0, False and no bytes. `took` is the number of the message that was
    taken, 0 where none was. All bytes are copies."""

    kind: Kind
    channel: int = 0
    window: int = 0
    max_packet: int = 0
    number: int = 0
    took: int = 0
    flag: bool = False
    extended: bool = False
    name: bytes = b""
    data: bytes = b""


@dataclasses.dataclass(frozen=True)
class Wanted:
    """What an end that decides later asks its program. `user` is the user's name, `algorithm` and `key` are a key as it goes over the wire, `password` is the
    password, and `signature` the signature of `text` by the key; what a question of this kind has not has no bytes."""

    kind: WantedKind
    user: bytes = b""
    algorithm: bytes = b""
    key: bytes = b""
    password: bytes = dataclasses.field(default=b"", repr=False)
    text: bytes = dataclasses.field(default=b"", repr=False)
    signature: bytes = dataclasses.field(default=b"", repr=False)


@dataclasses.dataclass(frozen=True)
class Ask:
    """What an end is asked for. `AskKind` says which fields are read. A probe and a login by key are by the user's own key where `algorithm` has no bytes, else by the
    key `data` under this algorithm."""

    kind: AskKind
    channel: int = 0
    window: int = 0
    max_packet: int = 0
    number: int = 0
    flag: bool = False
    name: bytes = b""
    data: bytes = b""
    algorithm: bytes = b""

    def _in_c(self, held: Held) -> library.Ask:
        numbers = (self.kind, self.channel, self.window, self.max_packet, self.number)
        if any(not 0 <= it < 2**32 for it in numbers):
            raise OverflowError("a number of an ask has 32 bits")
        return library.Ask(*numbers, self.flag, held.bytes(self.name), held.bytes(self.data), held.bytes(self.algorithm))


@dataclasses.dataclass(frozen=True)
class User:
    """One user and one thing that lets the user in: a public key of 32 bytes, or a password. A user may stand in a list several times."""

    name: bytes
    login: bytes
    kind: Login


class End:
    """What both ends have in common. Nothing is read or written. A call holds the end's lock, so that threads may share one, and a call on a closed end is a
    ValueError. Random bytes come from `draw`, which answers as many as it is asked for, and each once; another number of them is a ValueError."""

    def __init__(self, new: typing.Any, settings: typing.Any, draw: Draw) -> None:
        self._handle = library.Handle()
        self._is_open = False
        self._lock = threading.RLock()
        self._draw = draw
        self._waiting: collections.deque[tuple[AskKind | None, Done | None]] = collections.deque()
        self._fresh: bytes | None = None
        padding = self._drawn(32)
        check(new(self._handle, settings, self._drawn(48), padding))
        self._is_open = True
        self._fresh = self._drawn(48)

    def __enter__(self: Self) -> Self:
        return self

    def __exit__(self, *_: object) -> None:
        self.close()

    def __del__(self) -> None:
        if getattr(self, "_is_open", False):
            self.close()

    def _drawn(self, count: int) -> bytes:
        drawn = bytes(self._draw(count))
        if len(drawn) != count:
            # the library would read past their end
            raise ValueError(f"draw answers {len(drawn)} bytes, and {count} are wanted")
        return drawn

    def _call(self, function: typing.Any, *words: typing.Any) -> typing.Any:
        if not self._is_open:
            raise ValueError("the end is closed")
        return function(self._handle, *words)

    def close(self) -> None:
        """Gives all memory of the end back. A second call does nothing."""
        with self._lock:
            if self._is_open:
                self._is_open = False
                LIBRARY.dv_free(self._handle)

    def decide_later(self) -> None:
        """From here on a packet that the program has to decide on is not taken before its answer. At a server that is a request for authentication of a user
        without an entry, at a client a host key that it was not made with. A signature of another algorithm than ssh-ed25519 is a question of its own, once its key has its
        yes. Call it right after the end is made. `BadArgument` with `Code.TOO_LATE` where a line of the peer was taken already, `NoMemory`."""
        with self._lock:
            check(self._call(LIBRARY.dv_decide_later))

    def _take(self, address: int | bytes, count: int) -> int:
        used = ctypes.c_size_t()
        code = self._call(LIBRARY.dv_take, address, count, used)
        if code != Code.WANTED:
            check(code)
        return used.value

    def take(self, data: Buffer) -> int:
        """Takes bytes of the peer to the end of one line or one packet, and returns how many it used; the rest is given again. `event` shows what that was.
        It uses none of some bytes only after `decide_later`, where the next packet asks the program: `wanted`. `Over` after the end, `NoMemory`."""
        with self._lock:
            return self._take(bytes(data), len(data))

    def wanted(self) -> Wanted | None:
        """What the last `take` wants the program to decide; None where that is nothing."""
        with self._lock:
            shown = library.Wanted(0, *(library.none() for _ in range(5)))
            self._call(LIBRARY.dv_show_wanted, shown)
            kind, user, algorithm = WantedKind(shown.kind), shown.user.copied(), shown.algorithm.copied()
            data, hashed, signature = shown.data.copied(), shown.hash.copied(), shown.signature.copied()
            if kind == WantedKind.SIGNATURE:
                hashed = self.text_to_sign(user, algorithm, data)
        if kind == WantedKind.NOTHING:
            return None
        key, password = (b"", data) if kind == WantedKind.PASSWORD else (data, b"")
        return Wanted(kind, user, algorithm, key, password, hashed, signature)

    def answer(self, accepts: bool) -> None:
        """Says whether the program accepts what is wanted; then the same bytes are taken. The first answer to a question counts for the whole session. What is
        not accepted is refused, and so is all that is not asked. `BadArgument` with `Code.NOTHING_WANTED` where no answer is wanted, `NoMemory`."""
        with self._lock:
            check(self._call(LIBRARY.dv_answer, bool(accepts)))

    def text_to_sign(self, user: Buffer, algorithm: Buffer, key: Buffer) -> bytes:
        """The text that a login of this user signs by this key, which is given as it goes over the wire (RFC 4252, 7). It begins with the session id. `AskRefused` with
        `Code.NOT_YET` before the first exchange of keys is over, and with `Code.TOO_LONG` where no packet has room for such a request."""
        words = [it for text in (user, algorithm, key) for it in (bytes(text), len(text))]
        room, count = (ctypes.c_uint8 * MOST_SIGNED)(), ctypes.c_size_t()
        with self._lock:
            check(self._call(LIBRARY.dv_text_to_sign, *words, room, len(room), count))
        return bytes(room[: count.value])

    def event(self) -> Event:
        """What the last `take` did, until the next `take`, `ask`, `work` or `send`."""
        with self._lock:
            shown = library.Event(name=library.none(), data=library.none())
            self._call(LIBRARY.dv_show_event, shown)
            numbers = (shown.channel, shown.window, shown.max_packet, shown.number, shown.took)
            return Event(Kind(shown.kind), *numbers, shown.flag, shown.extended, shown.name.copied(), shown.data.copied())

    def events(self, data: Buffer) -> typing.Iterator[Event | Wanted]:
        """Takes all bytes and yields each event but `Kind.NOTHING`. Once one is dealt with, the end is fed, asks for an exchange of keys where one is due, and
        makes the asks that wait. The end may be over at the end of the bytes, and then leaves the rest. Exhaust the iterator.

        An end that decides later yields a `Wanted` where the next packet asks the program: `answer` before you go on, in your own time."""
        if not data:
            return
        kept, at = ctypes.create_string_buffer(bytes(data), len(data)), 0
        while at < len(data) and not self.is_over:
            with self._lock:
                used = self._take(ctypes.addressof(kept) + at, len(data) - at)
                at += used
                event, wanted = self.event(), self.wanted() if not used else None
            if wanted is not None:
                yield wanted
                if not self.is_over and self.wanted() is not None:
                    raise ValueError("no answer was given to what the end wants to know")
            elif event.kind != Kind.NOTHING:
                yield event
            self.go_on()

    def go_on(self) -> None:
        """Feeds the end a fresh pair where it takes one, asks for an exchange of keys where one is due, and makes the asks that wait."""
        with self._lock:
            if self._fresh is None:
                self._fresh = self._drawn(48)
            if self._call(LIBRARY.dv_feed, self._fresh):
                # where none can be drawn, this pair is not handed in again
                self._fresh = None
                self._fresh = self._drawn(48)
            if self.rekey_due:
                held, channel = Held(), ctypes.c_uint32()
                code = self._call(LIBRARY.dv_ask_now, Ask(AskKind.REKEY)._in_c(held), channel)
                if code == Code.MEMORY:
                    check(code)
            self.work()

    def feed(self, cookie: Buffer, secret: Buffer) -> bool:
        """Keeps a pair of 16 and 32 random bytes for the next exchange of keys; False where the end keeps one, or can take no more."""
        if len(cookie) != 16 or len(secret) != 32:
            raise ValueError("a cookie has 16 bytes and a secret 32")
        with self._lock:
            return bool(self._call(LIBRARY.dv_feed, bytes(cookie) + bytes(secret)))

    @property
    def is_over(self) -> bool:
        """Whether the end takes nothing and sends nothing. What it put out is still to be written."""
        with self._lock:
            return bool(self._call(LIBRARY.dv_is_over))

    @property
    def rekey_due(self) -> bool:
        """Whether as many packets were sent under the keys as `epoch_limit` says."""
        with self._lock:
            return bool(self._call(LIBRARY.dv_rekey_due))

    def room(self, channel: int) -> int:
        """How many bytes of data the peer's window takes on the channel; 0 where it is not confirmed."""
        with self._lock:
            return int(self._call(LIBRARY.dv_room, channel))

    def sent(self) -> list[bytes]:
        """The payloads that the end sent in its last `take`, `ask`, `send` or `work`, whole messages, the oldest first."""
        found: list[bytes] = []
        with self._lock:
            shown = library.none()
            while self._call(LIBRARY.dv_sent, len(found), shown):
                found.append(shown.copied())
        return found

    @property
    def peer_version(self) -> bytes | None:
        """The version line of the peer without CR LF; None as long as it has not come."""
        return self._shown(LIBRARY.dv_peer_version)

    @property
    def session_id(self) -> bytes | None:
        """The session id, 32 bytes (RFC 4253, 7.2); None before the first `Kind.COMPLETED`."""
        return self._shown(LIBRARY.dv_session_id)

    def _shown(self, function: typing.Any) -> bytes | None:
        with self._lock:
            shown = library.none()
            return shown.copied() if self._call(function, shown) else None

    def output(self) -> bytes:
        """The bytes that wait for the peer, copied."""
        with self._lock:
            shown = library.none()
            self._call(LIBRARY.dv_output, shown)
            return shown.copied()

    def written(self, count: int) -> None:
        """Says that the first `count` bytes of the output were written: they are dropped."""
        with self._lock:
            self._call(LIBRARY.dv_written, count)

    def ask(self, ask: Ask) -> int | None:
        """Does what is asked for, now, and returns the number of the channel that it opens, else None. `AskRefused`, `BadArgument`, `NoMemory`, `Over`."""
        held, channel = Held(), ctypes.c_uint32()
        with self._lock:
            check(self._call(LIBRARY.dv_ask_now, ask._in_c(held), channel))
        return channel.value if ask.kind == AskKind.OPEN else None

    def queue(self, ask: Ask, done: Done | None = None) -> None:
        """Puts an ask after those that wait; its bytes are copied. Once it was made, `done(error, channel)` is called: `error` is None or what refused it, and
        `channel` the number of the channel that it opened. `BadArgument`, `NoMemory`."""
        held = Held()
        with self._lock:
            check(self._call(LIBRARY.dv_queue, ask._in_c(held)))
            self._waiting.append((ask.kind, done))

    @property
    def queued(self) -> int:
        """How many asks wait."""
        with self._lock:
            return int(self._call(LIBRARY.dv_queued))

    def work(self) -> None:
        """Makes the asks that wait, in their order, until one comes too early. `NoMemory`, after which the end is over."""
        with self._lock:
            while self._call(LIBRARY.dv_queued):
                channel = ctypes.c_uint32()
                code = self._call(LIBRARY.dv_work, channel)
                if is_later(code):
                    return
                kind, done = self._waiting.popleft()
                if done is not None:
                    done(error_of(code) if code != Code.DONE else None, channel.value if kind == AskKind.OPEN else None)
                if code == Code.MEMORY:
                    check(code)

    def _queueing(self, function: typing.Any, *words: typing.Any) -> None:
        code = self._call(function, *words)
        while len(self._waiting) < self._call(LIBRARY.dv_queued):
            self._waiting.append((None, None))
        check(code)

    def decline(self) -> None:
        """Queues the answer that the peer is owed for what `event` shows, where a program does not know what that is about. `NoMemory`."""
        with self._lock:
            self._queueing(LIBRARY.dv_decline)

    def consume(self, channel: int, count: int) -> None:
        """Says that so many bytes of data that came on the channel are done with. Once half of the window is, an ask that gives them back is queued."""
        with self._lock:
            self._queueing(LIBRARY.dv_consume, channel, count)

    def send(self, channel: int, data: Buffer, stream: int = 0) -> int:
        """Sends as much data as window and packet allow, at most 32,768 bytes, and returns how many: 0 where nothing fits. `stream` 0 is data, any other number
        extended data of that kind. Errors as those of `ask`."""
        taken = ctypes.c_size_t()
        with self._lock:
            check(self._call(LIBRARY.dv_send, channel, stream, bytes(data), len(data), taken))
        return taken.value


Self = typing.TypeVar("Self", bound=End)


def _rows(held: Held, users: list[User]) -> typing.Any:
    """Users as an array of dv_user. It points at a struct also where there are none."""
    rows = (library.User * max(len(users), 1))()
    rows[0].name = rows[0].login = library.none()
    for row, user in zip(rows, users):
        row.name, row.login, row.kind = held.bytes(user.name), held.bytes(user.login), user.kind
    return rows


class ServerEnd(End):
    """A server: `host_seed` is the seed of its host key, and `users` whom it lets in besides those of `set_user`. `user_algorithms` are names with commas between them: a
    client that takes extensions is told them (`server-sig-algs`), without which OpenSSH signs with no RSA key. `BadSetting`, `BadArgument`, `NoMemory`."""

    def __init__(
        self,
        host_seed: Buffer,
        users: typing.Iterable[User] = (),
        *,
        software: Buffer = SOFTWARE,
        epoch_limit: int = 1 << 20,
        tries: int = 6,
        methods: Methods = Methods.KEY | Methods.PASSWORD,
        ciphers: Ciphers = Ciphers.AES_BOTH,
        user_algorithms: Buffer = b"",
        draw: Draw = os.urandom,
    ) -> None:
        held, all_users = Held(), list(users)
        size = ctypes.sizeof(library.ServerSettings)
        texts, rows = (held.bytes(software), held.bytes(host_seed)), _rows(held, all_users)
        numbers = epoch_limit, tries, methods, ciphers
        settings = library.ServerSettings(size, *texts, rows, len(all_users), *numbers, held.bytes(user_algorithms))
        super().__init__(LIBRARY.dv_server_new, settings, draw)

    def set_user(
        self,
        name: Buffer,
        keys: typing.Iterable[bytes] = (),
        passwords: typing.Iterable[bytes] = (),
        *,
        users: typing.Iterable[User] = (),
    ) -> None:
        """Sets what lets the user of this name in, besides what the server has: public keys, passwords, and `User`s of this name. Without any of them nobody
        is let in by this call. The time for it is `Kind.TRIED` of `Shown.NOTHING`.

        `BadArgument` has `Code.USER_KNOWN` once a key or a password of the user was asked for, or the user was set. It has `Code.BAD_LOGIN` where a `User` has
        another name. Nothing changed then. `NoMemory`, `Over`."""
        whose = bytes(name)
        entries = [User(whose, it, Login.KEY) for it in keys] + [User(whose, it, Login.PASSWORD) for it in passwords] + list(users)
        held = Held()
        rows = _rows(held, entries)
        with self._lock:
            check(self._call(LIBRARY.dv_server_set_user, whose, len(whose), rows, len(entries)))


def _joined(host_key: Buffer | typing.Iterable[bytes]) -> Buffer:
    """One key, or several, as the bytes that the library takes."""
    if isinstance(host_key, (bytes, bytearray, memoryview)):
        return host_key
    keys = [bytes(key) for key in host_key]
    if any(len(key) != 32 for key in keys):
        check(Code.BAD_KEY)
    return b"".join(keys)


class ClientEnd(End):
    """A client: `host_key` is the public key of the one host to trust, or several keys, as `known_host_keys` returns them, any one of which is enough.
    `user_seed` is the seed of the user's key, no bytes where there is none. `host_algorithms` are the algorithms of host keys that it offers, the preferred one first;
    without any, ssh-ed25519 alone. With `takes_extensions` the server may announce some. `BadSetting`, `BadArgument`, `NoMemory`."""

    def __init__(
        self,
        host_key: Buffer | typing.Iterable[bytes],
        user_seed: Buffer = b"",
        *,
        software: Buffer = SOFTWARE,
        epoch_limit: int = 1 << 20,
        ciphers: Ciphers = Ciphers.AES_BOTH,
        host_algorithms: typing.Iterable[Buffer] = (),
        takes_extensions: bool = False,
        draw: Draw = os.urandom,
    ) -> None:
        held, names = Held(), list(host_algorithms)
        texts = held.bytes(software), held.bytes(_joined(host_key)), held.bytes(user_seed)
        rows = (library.Bytes * max(len(names), 1))(*map(held.bytes, names or [b""]))
        size, rest = ctypes.sizeof(library.ClientSettings), (rows, len(names), epoch_limit, ciphers, takes_extensions)
        super().__init__(LIBRARY.dv_client_new, library.ClientSettings(size, *texts, *rest), draw)

    def set_signature(self, user: Buffer, algorithm: Buffer, key: Buffer, signature: Buffer) -> None:
        """Gives the client a signature of `text_to_sign` of these, as an agent made it: 1 to 4,096 bytes. A login by this key is asked for then. The first signature of a text
        counts. `BadArgument` with `Code.BAD_SIGNATURE` where it has no bytes or too many, and with `Code.SIGNATURE_KNOWN` where one was given before, or the user's own
        key signs this text. `AskRefused` as `text_to_sign`, `NoMemory`, `Over`. Nothing changed then."""
        words = [it for text in (user, algorithm, key, signature) for it in (bytes(text), len(text))]
        with self._lock:
            check(self._call(LIBRARY.dv_set_signature, *words))
