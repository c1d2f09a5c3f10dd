"""A proved server and client of SSH-2: ends without I/O, and `divrelca.aio` with sockets. docs/PYTHON.md has a first program.

What is proved is the library below; this package is tested, and trusted by who uses it.
"""

from .codes import AskKind, Ciphers, Code, Kind, Login, Methods, Shown, WantedKind
from .ends import Ask, ClientEnd, End, Event, ServerEnd, User, Wanted
from .errors import AskRefused, BadArgument, BadFile, BadSetting, Error, NoMemory, Over, is_later
from .keys import authorized_keys, fingerprint, known_host, known_host_keys, of_blob, private_key, public_key, skipped_hosts, skipped_users, to_blob
from .library import message_name, receipt
from .requests import read_extensions

__version__ = "0.1.0"
__all__ = [
    "Ask",
    "AskKind",
    "AskRefused",
    "BadArgument",
    "BadFile",
    "BadSetting",
    "Ciphers",
    "ClientEnd",
    "Code",
    "End",
    "Error",
    "Event",
    "Kind",
    "Login",
    "Methods",
    "NoMemory",
    "Over",
    "ServerEnd",
    "Shown",
    "User",
    "Wanted",
    "WantedKind",
    "authorized_keys",
    "fingerprint",
    "is_later",
    "known_host",
    "known_host_keys",
    "message_name",
    "of_blob",
    "private_key",
    "public_key",
    "read_extensions",
    "receipt",
    "skipped_hosts",
    "skipped_users",
    "to_blob",
]
