"""Numbers of `divrelca.h`, under its names without their beginnings."""

import enum


class Code(enum.IntEnum):
    """What a call answers. The ranges stand for good: 1 to 12 a refused ask, 101 to 104 a setting, 201 and on a key file, 301 and on an argument."""

    DONE = 0
    NOT_YET = 1
    BUSY = 2
    NO_CHANNEL = 3
    NO_ROOM = 4
    TOO_LONG = 5
    ENDED_ALREADY = 6
    TABLE_FULL = 7
    NOTHING_OWED = 8
    REKEY_DUE = 9
    TOO_MUCH = 10
    WRONG_SIDE = 11
    NO_MATERIAL = 12
    BAD_SOFTWARE = 101
    BAD_LIST = 102
    BAD_LIMIT = 103
    BAD_EXTENSION = 104
    FILE_BEGIN = 201
    FILE_END = 202
    FILE_BASE64 = 203
    FILE_FORMAT = 204
    FILE_UNENCRYPTED = 205
    FILE_ED25519 = 206
    FILE_PAIR = 207
    FILE_KEY = 208
    FILE_HOST = 209
    FILE_MARK = 210
    FILE_HASHED_HOST = 211
    FILE_AUTHORIZED_KEY = 212
    FILE_ANY_HOST_KEY = 213
    FILE_ONE_HOST_KEY = 214
    FILE_UNREVOKED = 215
    FILE_ANY_KEY = 216
    FILE_PASSWORD = 217
    BAD_SIZE = 301
    BAD_KEY = 302
    BAD_LOGIN = 303
    BAD_METHODS = 304
    BAD_CIPHERS = 305
    BAD_ASK = 306
    NO_KEY = 307
    NOTHING_QUEUED = 308
    USER_KNOWN = 309
    WANTED = 310
    NOTHING_WANTED = 311
    TOO_LATE = 312
    NO_SIGNATURE = 313
    BAD_SIGNATURE = 314
    SIGNATURE_KNOWN = 315
    MEMORY = -1
    OVER = -2


class Login(enum.IntEnum):
    """What lets a user in."""

    KEY = 1
    PASSWORD = 2


class Ciphers(enum.IntEnum):
    """Which encryptions are offered: aes128-gcm@openssh.com, aes256-gcm@openssh.com, or both, the second one first."""

    AES128 = 1
    AES256 = 2
    AES_BOTH = 3


class Methods(enum.IntFlag):
    """Which methods of authentication a server names and takes."""

    KEY = 1
    PASSWORD = 2


class Shown(enum.IntEnum):
    """What a user showed to be let in."""

    NOTHING = 0
    """Nothing: the method `none`."""
    KEY = 1
    """A signature by a key."""
    PASSWORD = 2
    """A password."""
    PROBE = 3
    """A key without a signature, which asks whether it would do."""
    OTHER = 4
    """Something by another method, which let nobody in."""


class WantedKind(enum.IntEnum):
    """What an end asks its program."""

    NOTHING = 0
    """Nothing."""
    ADMISSION = 1
    """Server: whether the user is let in by the method `none`."""
    PASSWORD = 2
    """Server: whether this is the password of the user."""
    KEY = 3
    """Server: whether this is a key of the user. Yes lets nobody in by itself: the signature by the key is judged besides."""
    HOST_KEY = 4
    """Client: whether this is the key of the host. The host's signature by the key is judged besides."""
    SIGNATURE = 5
    """Server: whether this is the signature of the text by the key, which had its yes and is of another algorithm than ssh-ed25519."""
    HOST_SIGNATURE = 6
    """Client: the same of the host; the text is the hash of the exchange of keys."""


class Kind(enum.IntEnum):
    """What was done in a `take`. In brackets: which fields of the event mean something besides `kind` and `took`."""

    NOTHING = 0
    """No whole line or packet yet, or one of which nothing is told."""
    REFUSED = 1
    """The peer is refused, and the end is over [number; name: of the refusal, as `b"BadTag"`]."""
    COMPLETED = 2
    """An exchange of keys is over at this end [number: its position, from 1]."""
    SERVICE = 3
    """Client: the service is there, and a login can be asked for."""
    ACCEPTED = 4
    """Server: the user is let in [name; number: by what, as `Shown`; data: the key, if it was by one]. The key is the one whose signature was verified,
    and never one that was only offered."""
    AUTHENTICATED = 5
    """Client: the user is let in [number: what the request showed that the server answered, as `Shown`]."""
    FAILED = 6
    """Client: the login failed [data: the methods that can go on, with commas; flag: partly a success]."""
    BANNER = 7
    """Client: a text to show before the login [data]."""
    KEY_OK = 8
    """Client: a signature by this key would be looked at [name: algorithm; data: key]."""
    IGNORED = 9
    """A message that means nothing here."""
    DEBUGGED = 10
    """A message for a log [flag: to be shown; data]."""
    UNIMPLEMENTED = 11
    """The peer did not understand a packet [number: its sequence number]."""
    DISCONNECTED = 12
    """The peer ended the connection, and the end is over [number: reason; data]."""
    EXTENSIONS = 13
    """The peer announced extensions [number: how many; data: their names and values, which `read_extensions` reads]."""
    TRIED = 14
    """Server: a request for authentication that did not let the user in [name: the user; number: what it showed, as `Shown`; data: the key, if it showed
    one, or the name of another method]. After `Shown.NOTHING` the user can be looked up: `ServerEnd.set_user`."""
    GLOBAL = 16
    """A global request [name; flag: a reply is wanted; data]."""
    GLOBAL_DONE = 17
    """The reply to this end's oldest global request [flag: success; data]."""
    OPENED = 19
    """The peer opens a channel: confirm or refuse it [channel; name: its type; window, max_packet; data]."""
    CONFIRMED = 20
    """The peer confirms a channel [channel, window, max_packet, data]."""
    OPEN_FAILED = 21
    """The peer refuses a channel [channel; number: reason; data]."""
    DATA = 22
    """Data came [channel, data; extended; number: the kind of extended data, 1 of standard error]."""
    ADJUSTED = 23
    """The window for this end's data grew [channel; number: by how many bytes]."""
    ENDED = 24
    """The peer sends no more data [channel]."""
    CLOSED = 25
    """The peer closed the channel [channel]."""
    REQUESTED = 26
    """A request on a channel [channel, name; flag: a reply is wanted; data]."""
    REQUEST_DONE = 27
    """The reply to this end's oldest request on the channel [channel; flag: success]."""


class AskKind(enum.IntEnum):
    """What an end is asked for. In brackets: the fields of `Ask` that are read besides `kind`."""

    REKEY = 1
    """Begins an exchange of keys."""
    DISCONNECT = 2
    """Ends the connection [data: a description, at most 1,024 bytes]."""
    SERVICE = 3
    """Client: asks for the service of authentication, after the first `Kind.COMPLETED`."""
    LOGIN_NONE = 4
    """Client: a login by no method, which shows what methods there are [name: the user]."""
    LOGIN_PASSWORD = 5
    """Client: a login by password [name: the user; data: the password]."""
    LOGIN_PROBE = 6
    """Client: whether the user's key would do [name: the user]."""
    LOGIN_KEY = 7
    """Client: a login by the user's key, signed [name: the user]."""
    OPEN = 8
    """Opens a channel; its number is answered [name: the type; window, max_packet; data]."""
    CONFIRM = 9
    """Confirms a channel that the peer opened [channel, window, max_packet, data]."""
    REFUSE = 10
    """Refuses it [channel; number: reason]."""
    DATA = 11
    """Sends data [channel, data]."""
    EXTENDED_DATA = 12
    """Sends extended data [channel; number: its kind; data]."""
    ADJUST = 13
    """Lets the peer send more [channel; number: bytes]."""
    EOF = 14
    """Says that no more data is sent [channel]."""
    CLOSE = 15
    """Closes the channel [channel]."""
    REQUEST = 16
    """A request on a channel [channel, name; flag: a reply is wanted; data]."""
    REPLY = 17
    """Replies to the peer's oldest request on the channel [channel; flag: success]."""
    GLOBAL = 18
    """A global request [name; flag: a reply is wanted; data]."""
    GLOBAL_REPLY = 19
    """Replies to the peer's oldest global request [flag: success; data]."""
