"""Two sessions that are not drawn: one end of each side reaches the number of requests that may wait, of the peer's and of its own, and then says
CLOSE, after which the peer still speaks. Meanwhile asks are as long as they may be, and one byte longer."""

import random

from drawn import Session, settings_of
from end import End, Some, made
from rules import LONGEST_DESCRIPTION, LONGEST_PAYLOAD, MOST_WAITING
from turns import sent

MESSAGES = [made("GlobalRequest", b"g", True, b""), made("GlobalRequest", b"g", False, b""), made("ChannelRequest", 0, b"r", True, b""),
            made("ChannelRequest", 0, b"r", False, b""), made("ChannelSuccess", 0), made("RequestFailure")]
ASKS = [made("AskGlobal", b"g", True, b""), made("AskGlobal", b"g", False, b""), made("AskRequest", 0, b"r", True, b""),
        made("AskRequest", 0, b"r", False, b""),
        made("AskRequest", 7, b"r", True, b""), made("AskReply", 0, True), made("AskGlobalReply", False, b""),
        *(made("AskDisconnect", bytes([120]) * size) for size in (LONGEST_DESCRIPTION, LONGEST_DESCRIPTION + 1)),
        *(made("AskGlobal", b"g", False, bytes(size)) for size in (LONGEST_PAYLOAD - 7, LONGEST_PAYLOAD - 6)),
        *(made("AskOpen", b"s", 9, 9, bytes(size)) for size in (LONGEST_PAYLOAD - 18, LONGEST_PAYLOAD - 17))]
# No exchange is in these histories, so there is nothing to say of keys.
COLUMNS = ("phases", "authenticated", "counts_sent", "counts_taken", "may_take", "refused", "asks_refused", "channel_0", "globals")


def took(word, *fields, at=None):
    return made("Took", at, made(word, *fields), b"")


def opening(side):
    """An end that is authenticated, outside of an exchange, with a channel. Such a history begins in the middle: no end has it."""
    success = took("UserauthSuccess") if side == "Client" else sent("UserauthSuccess")
    zero = Some(0)
    if side == "Client":
        channel = [sent("ChannelOpen", b"s", 0, 9, 9, b"", at=zero), took("ChannelOpenConfirmation", 0, 5, 9, 9, b"", at=zero)]
    else:
        channel = [took("ChannelOpen", b"s", 5, 9, 9, b"", at=zero), sent("ChannelOpenConfirmation", 5, 0, 9, 9, b"", at=zero)]
    return [took("NewKeys"), success, *channel]


def session(side):
    """Requests of each kind, one fewer than may wait, one more, and a reply to one."""
    zero, turns = Some(0), [opening(side)]
    kinds = [(took("GlobalRequest", b"g", True, b""), sent("RequestFailure")), (sent("GlobalRequest", b"g", True, b""), took("RequestSuccess", b"")),
             (took("ChannelRequest", 0, b"r", True, b"", at=zero), sent("ChannelFailure", 5, at=zero)),
             (sent("ChannelRequest", 5, b"r", True, b"", at=zero), took("ChannelSuccess", 0, at=zero))]
    for request, reply in kinds:
        turns += [[request] * (MOST_WAITING - 1), [request], [reply], [request]]
    turns += [[sent("ChannelClose", 5, at=zero)], [took("ChannelRequest", 0, b"r", True, b"", at=zero)], [took("ChannelData", 0, b"abc", at=zero)],
              [took("ChannelSuccess", 0, at=zero)], [took("ChannelEof", 0, at=zero)], [took("ChannelClose", 0, at=zero)]]
    settings = settings_of(random.Random(side), side)
    end = End(side, settings.__class__(**{**vars(settings), "epoch_limit": 10**6}))
    for item in (item for turn in turns for item in turn):
        end.happens(item)
    return Session(f"{side}Limits", end, turns, MESSAGES, ASKS, [80, 98], [], COLUMNS)


def sessions():
    return [session("Client"), session("Server")]
