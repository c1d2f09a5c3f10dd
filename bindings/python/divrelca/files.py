"""What `connect` reads: keys of hosts and of users, in the files of OpenSSH."""

from __future__ import annotations

import base64
import contextlib
import os
import pathlib
import re
import typing

from .codes import Code
from .errors import BadFile
from .failures import HostKeyUnknown
from .keys import known_host_keys, private_key

Path = typing.Union[str, "os.PathLike[str]"]
Paths = typing.Union[Path, typing.Iterable[Path]]
HOME = pathlib.Path("~/.ssh")


def _all(paths: Paths) -> list[pathlib.Path]:
    given = [paths] if isinstance(paths, (str, os.PathLike)) else paths
    return [pathlib.Path(it).expanduser() for it in given]


def host_keys(known_hosts: Paths | None, host: str, port: int, may_lack: bool = False) -> list[bytes]:
    """The keys that these files, else ~/.ssh/known_hosts, have of the host. HostKeyUnknown where there is none, unless there may be none, and BadFile where a
    file can't be believed."""
    found: list[bytes] = []
    for file in _all(HOME / "known_hosts" if known_hosts is None else known_hosts):
        try:
            found += known_host_keys(file.read_bytes(), host, port)
        except BadFile as error:
            if error.code != Code.FILE_ANY_HOST_KEY:
                raise
        except FileNotFoundError:
            if known_hosts is not None and not may_lack:
                raise
    if not found and not may_lack:
        raise HostKeyUnknown(f"no key of {host} is known" + ("" if port == 22 else f" at port {port}"))
    return list(dict.fromkeys(found))


def seeds(keys: Paths | None) -> list[bytes]:
    """The seeds of these private keys; of ~/.ssh/id_ed25519 where none are named and that is there. BadFile where one has none."""
    if keys is not None:
        return [private_key(file.read_bytes())[0] for file in _all(keys)]
    by_default = (HOME / "id_ed25519").expanduser()
    return [private_key(by_default.read_bytes())[0]] if by_default.is_file() else []


def revoked_keys(known_hosts: Paths | None) -> set[bytes]:
    """The keys of all lines of these files, else of ~/.ssh/known_hosts, with the mark @revoked, as they go over the wire."""
    found: set[bytes] = set()
    for file in _all(HOME / "known_hosts" if known_hosts is None else known_hosts):
        with contextlib.suppress(FileNotFoundError):
            for line in file.read_bytes().splitlines():
                words = line.split()
                if words[:1] == [b"@revoked"] and len(words) > 3:
                    with contextlib.suppress(ValueError):
                        found.add(base64.b64decode(words[3], validate=True))
    return found


NAME = re.compile(r"[A-Za-z0-9._@:%-]+")


def remember_host(file: Path, host: str, port: int, algorithm: bytes, key: bytes) -> None:
    """Adds a line to a file of known hosts: the name of the host, the algorithm, and the key as it goes over the wire. The file is made with mode 0600 where it
    is not there. ValueError where this is no name of a host or of an algorithm, OSError where the file can't be written."""
    if not NAME.fullmatch(host) or not NAME.fullmatch(algorithm.decode("ascii", "replace")):
        raise ValueError("no name of a host or of an algorithm")
    name = host if port == 22 else f"[{host}]:{port}"
    line = f"{name} {algorithm.decode()} {base64.b64encode(key).decode()}\n".encode()
    with open(pathlib.Path(file).expanduser(), "a+b", opener=_private) as known:
        if known.tell():
            known.seek(-1, os.SEEK_END)
            if known.read(1) != b"\n":
                line = b"\n" + line
        known.write(line)


def _private(file: str, flags: int) -> int:
    return os.open(file, flags, 0o600)
