"""The shared library: its structs and calls, as `divrelca.h` declares them.

It is looked for where DIVRELCA_LIBRARY says, else in this package, else in `build/` of the repository that holds the package.
"""

from __future__ import annotations

import ctypes
import os
import pathlib
import typing
from ctypes import POINTER, c_bool, c_int32, c_size_t, c_uint8, c_uint32, c_void_p

MAJOR = 3
Buffer = typing.Union[bytes, bytearray, memoryview]


class Bytes(ctypes.Structure):
    """dv_bytes."""

    _fields_ = [("at", c_void_p), ("len", c_size_t)]

    def copied(self) -> bytes:
        """The bytes, copied."""
        return ctypes.string_at(self.at, self.len)


class Handle(ctypes.Structure):
    """dv_end."""

    _fields_ = [("at", c_void_p)]


class User(ctypes.Structure):
    """dv_user."""

    _fields_ = [("name", Bytes), ("login", Bytes), ("kind", c_uint32)]


class ServerSettings(ctypes.Structure):
    """dv_server_settings."""

    _fields_ = [
        ("size", c_size_t),
        ("software", Bytes),
        ("host_seed", Bytes),
        ("users", POINTER(User)),
        ("users_len", c_size_t),
        ("epoch_limit", c_uint32),
        ("tries", c_uint32),
        ("methods", c_uint32),
        ("ciphers", c_uint32),
        ("user_algorithms", Bytes),
    ]


class ClientSettings(ctypes.Structure):
    """dv_client_settings."""

    _fields_ = [
        ("size", c_size_t),
        ("software", Bytes),
        ("host_key", Bytes),
        ("user_seed", Bytes),
        ("host_algorithms", POINTER(Bytes)),
        ("host_algorithms_len", c_size_t),
        ("epoch_limit", c_uint32),
        ("ciphers", c_uint32),
        ("takes_extensions", c_bool),
    ]


NUMBERS = [(name, c_uint32) for name in ("kind", "channel", "window", "max_packet", "number")]


class Event(ctypes.Structure):
    """dv_event."""

    _fields_ = [*NUMBERS, ("took", c_uint8), ("flag", c_bool), ("extended", c_bool), ("name", Bytes), ("data", Bytes)]


class Ask(ctypes.Structure):
    """dv_ask."""

    _fields_ = [*NUMBERS, ("flag", c_bool), ("name", Bytes), ("data", Bytes), ("algorithm", Bytes)]


class Wanted(ctypes.Structure):
    """dv_wanted."""

    _fields_ = [("kind", c_uint32), *((name, Bytes) for name in ("user", "algorithm", "data", "hash", "signature"))]


class Held:
    """Bytes that C reads, kept alive as long as the structs that point at them."""

    def __init__(self) -> None:
        self.kept: list[typing.Any] = []

    def bytes(self, value: Buffer) -> Bytes:
        """A dv_bytes of these bytes. It points at a byte also where there are none."""
        kept = ctypes.create_string_buffer(bytes(value))
        self.kept.append(kept)
        return Bytes(ctypes.addressof(kept), len(value))


def file() -> pathlib.Path | None:
    """The file of the library that would be loaded, or None where there is none."""
    named = os.environ.get("DIVRELCA_LIBRARY")
    here = pathlib.Path(__file__).resolve().parent
    places = [pathlib.Path(named)] if named else [here / "libdivrelca.so", *(it / "build" / "libdivrelca.so" for it in list(here.parents)[2:3])]
    return next((it for it in places if it.is_file()), None)


def loaded() -> ctypes.CDLL:
    """The library with its calls declared. OSError where it is missing, or where its version is another."""
    path = file()
    if path is None:
        raise OSError("libdivrelca.so is not found: run `make lib`, or name it by DIVRELCA_LIBRARY")
    library = ctypes.CDLL(str(path))
    declare(library, "dv_version", c_uint32)
    if library.dv_version() >> 16 != MAJOR:
        raise OSError(f"{path} has version {library.dv_version() >> 16}, and version {MAJOR} is wanted")
    key, number = c_uint8 * 32, POINTER(c_size_t)
    declare(library, "dv_receipt", None, POINTER(Bytes))
    declare(library, "dv_code_name", None, c_int32, POINTER(Bytes))
    declare(library, "dv_message_name", None, c_uint8, POINTER(Bytes))
    declare(library, "dv_private_key", c_int32, c_void_p, c_size_t, key, key, number)
    declare(library, "dv_authorized_key", c_int32, c_void_p, c_size_t, c_size_t, key, number, number)
    declare(library, "dv_known_host", c_int32, c_void_p, c_size_t, c_void_p, c_size_t, key, number)
    declare(library, "dv_known_host_key", c_int32, c_void_p, c_size_t, c_void_p, c_size_t, c_size_t, key, number)
    declare(library, "dv_skipped_host", c_int32, c_void_p, c_size_t, c_void_p, c_size_t, c_size_t, number)
    declare(library, "dv_skipped_user", c_int32, c_void_p, c_size_t, c_size_t, number)
    declare(library, "dv_fingerprint", None, c_void_p, c_size_t, c_uint8 * 43)
    declare(library, "dv_public_key", None, key, key)
    declare_ends(library)
    return library


def declare(library: ctypes.CDLL, name: str, answer: typing.Any, *words: typing.Any) -> None:
    """What a call answers and takes."""
    call = getattr(library, name)
    call.restype = answer
    call.argtypes = words


def declare_ends(library: ctypes.CDLL) -> None:
    """The calls of ends."""
    end = POINTER(Handle)
    declare(library, "dv_server_new", c_int32, end, POINTER(ServerSettings), c_void_p, c_void_p)
    declare(library, "dv_client_new", c_int32, end, POINTER(ClientSettings), c_void_p, c_void_p)
    declare(library, "dv_free", None, Handle)
    declare(library, "dv_decide_later", c_int32, end)
    declare(library, "dv_take", c_int32, end, c_void_p, c_size_t, POINTER(c_size_t))
    declare(library, "dv_show_wanted", None, end, POINTER(Wanted))
    declare(library, "dv_answer", c_int32, end, c_bool)
    declare(library, "dv_text_to_sign", c_int32, end, *[c_void_p, c_size_t] * 4, POINTER(c_size_t))
    declare(library, "dv_set_signature", c_int32, end, *[c_void_p, c_size_t] * 4)
    declare(library, "dv_show_event", None, end, POINTER(Event))
    declare(library, "dv_sent", c_bool, end, c_size_t, POINTER(Bytes))
    declare(library, "dv_peer_version", c_bool, end, POINTER(Bytes))
    declare(library, "dv_session_id", c_bool, end, POINTER(Bytes))
    declare(library, "dv_output", None, end, POINTER(Bytes))
    declare(library, "dv_written", None, end, c_size_t)
    declare(library, "dv_feed", c_bool, end, c_void_p)
    declare(library, "dv_is_over", c_bool, end)
    declare(library, "dv_rekey_due", c_bool, end)
    declare(library, "dv_room", c_uint32, end, c_uint32)
    declare(library, "dv_ask_now", c_int32, end, POINTER(Ask), POINTER(c_uint32))
    declare(library, "dv_queue", c_int32, end, POINTER(Ask))
    declare(library, "dv_queued", c_size_t, end)
    declare(library, "dv_work", c_int32, end, POINTER(c_uint32))
    declare(library, "dv_decline", c_int32, end)
    declare(library, "dv_send", c_int32, end, c_uint32, c_uint32, c_void_p, c_size_t, POINTER(c_size_t))
    declare(library, "dv_consume", c_int32, end, c_uint32, c_size_t)
    declare(library, "dv_server_set_user", c_int32, end, c_void_p, c_size_t, POINTER(User), c_size_t)


LIBRARY = loaded()


def none() -> Bytes:
    """A dv_bytes of no bytes, which points at one."""
    return Bytes(ctypes.addressof(NONE), 0)


NONE = (c_uint8 * 1)()


def code_name(code: int) -> str:
    """The name of a code, as "NotYet"; "UNKNOWN" where there is none."""
    name = none()
    LIBRARY.dv_code_name(code, name)
    return name.copied().decode()


def receipt() -> str:
    """The sum of the receipt of the library's build, 64 hexadecimal digits; other words where it has none, as "not proved"."""
    text = none()
    LIBRARY.dv_receipt(text)
    return text.copied().decode()


def message_name(number: int) -> str:
    """The name of a message of SSH by its number, as "KEXINIT"; "UNKNOWN" where there is none."""
    name = none()
    LIBRARY.dv_message_name(number, name)
    return name.copied().decode()
