"""What an end may take, and as what it refuses a message or an ask: the rows of the standards, over the state of `end`.

The parts of the ends are those of specs/Words.antt of test_histories. A point is the secret, two share their exclusive or, a host key names its
algorithm, a signature is the word `right`, and the server lets in a guest, a user by a password, and a user by a key."""

from end import ASK_REFUSALS, CONNECTION, KNOWN, LARGEST_DATA, LARGEST_WINDOW, REFUSALS, STRICT, USERAUTH, Made, chosen, peer_of, shared_of

GENERIC = {1, 2, 3, 4}
RIGHT, PASSWORD, KEY, USER, GUEST = b"right", b"p", b"k", b"u", b"guest"
LONGEST_PAYLOAD, LONGEST_DESCRIPTION, MOST_WAITING = 34000, 1024, 256


def host_key(algorithm):
    return b"key of " + algorithm


# ---- which numbers may be taken


def may_take(end, number):
    """RFC 4253 sections 7.1 and 7.3, strict key exchange, RFC 4252 section 6, and the choices of docs/STRICTER.md. One choice that is not there is taken
    as the definitions have it: RFC 4253 section 11.4 has each unknown number answered by UNIMPLEMENTED, also in the first exchange of a plain session."""
    if end.stage == "Start":
        return number in ({1} if end.settings.strictness == "Require" else GENERIC) | {20}
    if end.stage == "Guessed":
        return 30 <= number <= 49
    if end.stage in ("Exchanging", "Keying"):
        awaited = 21 if end.stage == "Keying" else 30 if end.side == "Server" else 31
        if number == awaited:
            return True
        if end.into.epoch == 0:
            return number in ({1} if end.is_strict else GENERIC)
        return number in GENERIC or (number < 30 and number not in KNOWN)
    return may_take_outside(end, number)


def may_take_outside(end, number):
    """Outside of an exchange."""
    is_client = end.side == "Client"
    if number in GENERIC:
        return True
    if number not in KNOWN:
        return number < 80 or end.is_in
    if number == 5:
        return not is_client and not end.took_request
    if number == 6:
        return is_client and end.sent_request and not end.took_accept
    if number == 7:
        return end.may_take_extensions
    if number == 50:
        return not is_client and end.sent_accept
    if number in (51, 52):
        return is_client and end.asked is not None
    if number == 53:
        return is_client and end.took_accept and not end.is_in
    if number == 60:
        return is_client and end.is_probing
    return (number == 20 or number >= 80) and end.is_in


# ---- refusals of a peer


def refusal(end, message):
    """The number of the refusal of this message, or 0 if the end takes it. The packet after a wrong guess is not read."""
    if not may_take(end, message.number):
        return REFUSALS.index("Unexpected") + 1
    if end.stage == "Guessed":
        return 0
    why = next((name for holds, name in checks(end, message) if holds), None)
    return REFUSALS.index(why) + 1 if why else 0


def checks(end, message):
    word, fields = message.word, message.fields
    if word == "ServiceRequest":
        return [(fields[0] != USERAUTH, "NoService")]
    if word == "ServiceAccept":
        return [(fields[0] != USERAUTH, "Unexpected")]
    if word == "KexInit":
        return kexinit_checks(end, fields[0])
    if word == "KexEcdhInit":
        return [(shared_now(end, fields[0]) is None, "BadPoint")]
    if word == "KexEcdhReply":
        key, point, signature = fields
        return [(shared_now(end, point) is None, "BadPoint"), (key != host_key(algorithms_now(end)[1]) or signature != RIGHT, "BadHost")]
    if word == "UserauthRequest":
        return [(not end.is_in and fails(end, *fields) and end.failures >= end.settings.tries, "TooManyTries")]
    if word in ("RequestSuccess", "RequestFailure"):
        return [(end.globals_there == 0, "Unexpected")]
    if word == "GlobalRequest":
        return [(fields[1] and end.globals_here >= MOST_WAITING, "OwedFull")]
    return channel_checks(end, word, fields) if 91 <= message.number <= 100 else []


def kexinit_checks(end, theirs):
    is_first, is_marked = end.into.epoch == 0, STRICT[peer_of(end.side)] in theirs.kex
    both = bool(end.ours) and STRICT[end.side] in end.ours[0][0].kex and is_marked
    ours = end.settings.offer(end.side, False)
    return [
        (is_first and end.settings.strictness == "Require" and not is_marked, "NotStrict"),
        (is_first and both and end.into.since > 0, "Unexpected"),
        (None in chosen(*end.offers_in_order(ours, theirs)), "NoCommon"),
        (not end.is_blocked and not end.keeps_pair, "NoMaterial"),
    ]


def secret_now(end):
    return end.pairs[end.out.epoch][1] if len(end.pairs) > end.out.epoch else b""


def shared_now(end, point):
    return shared_of(secret_now(end), point) if len(point) == 32 else None


def algorithms_now(end):
    return chosen(*end.offers_in_order(end.ours[-1][0], end.theirs[-1][0]))


def channel_checks(end, word, fields):
    channel = end.channels.get(fields[0])
    if word in ("ChannelOpenConfirmation", "ChannelOpenFailure"):
        is_offered = channel is not None and channel.is_mine and not channel.is_confirmed
        return [(channel is None, "UnknownChannel"), (not is_offered, "Unexpected")]
    if channel is None or not channel.is_open:
        return [(True, "UnknownChannel")]
    if word == "ChannelWindowAdjust":
        return [(channel.room + fields[1] > LARGEST_WINDOW, "WindowTooLarge")]
    if word in ("ChannelData", "ChannelExtendedData"):
        return [(channel.peer_ended, "Unexpected"), (len(fields[-1]) > min(channel.window, channel.most), "WindowOverrun")]
    if word == "ChannelEof":
        return [(channel.peer_ended, "Unexpected")]
    if word == "ChannelRequest":
        return [(fields[2] and not channel.closed and channel.here >= MOST_WAITING, "OwedFull")]
    return [(channel.there == 0, "Unexpected")] if word in ("ChannelSuccess", "ChannelFailure") else []


# ---- requests for authentication (RFC 4252 sections 5.2, 7 and 8)


def is_method(method, word):
    return isinstance(method, Made) and method.word == word


def is_configured(settings, name):
    return name in settings.methods


def knows_key(user, key):
    return user == USER and key == KEY


def is_accepted(end, user, service, method):
    if service != CONNECTION:
        return False
    if is_method(method, "Password"):
        return is_configured(end.settings, b"password") and method.fields[1] is None and (user, method.fields[0]) == (USER, PASSWORD)
    if is_method(method, "Publickey"):
        is_signed = method.fields[2] is not None and method.fields[2].value == RIGHT
        return is_configured(end.settings, b"publickey") and is_signed and knows_key(user, method.fields[1])
    return method == "NoMethod" and user == GUEST


def is_good_probe(end, user, service, method):
    is_probe = is_method(method, "Publickey") and method.fields[2] is None
    return is_probe and service == CONNECTION and is_configured(end.settings, b"publickey") and knows_key(user, method.fields[1])


def fails(end, user, service, method):
    return not is_accepted(end, user, service, method) and not is_good_probe(end, user, service, method)


# ---- refusals of an ask


def ask_refusal(end, ask):
    """The number of the refusal of this ask, or 0 if the end does it."""
    why = next((name for holds, name in ask_checks(end, ask.word, ask.fields) if holds), None)
    return ASK_REFUSALS.index(why) + 1 if why else 0


def ask_checks(end, word, fields):
    is_client = end.side == "Client"
    if word == "AskService":
        return [(not is_client, "WrongSide"), (end.into.epoch == 0, "NotYet"), (end.sent_request, "Busy")]
    if word == "AskRekey":
        return [(not end.is_in, "NotYet"), (end.is_blocked or end.stage != "Normal", "Busy"), (not end.keeps_pair, "NoMaterial")]
    if word == "AskDisconnect":
        return [(len(fields[0]) > LONGEST_DESCRIPTION, "TooLong")]
    if word in ("AskNone", "AskPassword", "AskProbe", "AskSign"):
        return [(not is_client, "WrongSide"), (not end.took_accept, "NotYet"), (end.asked is not None, "Busy"), (end.is_in, "Ended"),
                (request_size(word, fields) > LONGEST_PAYLOAD, "TooLong")]
    is_busy = end.is_blocked or waits_too_much(end, word, fields)
    first = [(not end.is_in, "NotYet"), (is_busy, "Busy"), (end.out.since >= end.settings.epoch_limit, "RekeyDue")]
    return first + connection_ask_checks(end, word, fields)


def waits_too_much(end, word, fields):
    """256 requests of this end wait for a reply, and this one wants a reply too."""
    if word == "AskGlobal":
        return fields[1] and end.globals_there >= MOST_WAITING
    return word == "AskRequest" and fields[2] and fields[0] in end.channels and end.channels[fields[0]].there >= MOST_WAITING


def request_size(word, fields):
    """The bytes of the request (RFC 4252 sections 5, 7 and 8); that with a signature counts with one of 4,096 bytes."""
    method = {"AskNone": b"none", "AskPassword": b"password"}.get(word, b"publickey")
    texts = [fields[0], CONNECTION, method, *fields[1:]] + ([bytes(4096)] if word == "AskSign" else [])
    return 1 + sum(4 + len(text) for text in texts) + (word != "AskNone")


def connection_ask_checks(end, word, fields):
    if word == "AskGlobal":
        return [(1 + 4 + len(fields[0]) + 1 + len(fields[2]) > LONGEST_PAYLOAD, "TooLong")]
    if word == "AskGlobalReply":
        return [(end.globals_here == 0, "NothingOwed"), (1 + len(fields[1]) > LONGEST_PAYLOAD, "TooLong")]
    if word == "AskOpen":
        kind, window, most, rest = fields
        return [(not 1 <= most <= LARGEST_DATA, "TooMuch"), (1 + 4 + len(kind) + 12 + len(rest) > LONGEST_PAYLOAD, "TooLong")]
    channel = end.channels.get(fields[0])
    if word in ("AskConfirm", "AskRefuse"):
        is_waiting = channel is not None and not channel.is_mine and not channel.is_confirmed
        more = [(not 1 <= fields[2] <= LARGEST_DATA, "TooMuch"), (17 + len(fields[3]) > LONGEST_PAYLOAD, "TooLong")] if word == "AskConfirm" else []
        return [(not is_waiting, "NoChannel"), *more]
    if channel is None or not channel.is_open:
        return [(True, "NoChannel")]
    return open_channel_checks(channel, word, fields)


def open_channel_checks(channel, word, fields):
    is_over = channel.ended if word in ("AskData", "AskEof") else channel.closed
    more = []
    if word == "AskData":
        more = [(len(fields[2]) > min(LARGEST_DATA, channel.largest), "TooLong"), (len(fields[2]) > channel.room, "NoRoom")]
    elif word == "AskAdjust":
        more = [(channel.window + fields[1] > LARGEST_WINDOW, "TooMuch")]
    elif word == "AskReply":
        more = [(channel.here == 0, "NothingOwed")]
    elif word == "AskRequest":
        more = [(1 + 4 + 4 + len(fields[1]) + 1 + len(fields[3]) > LONGEST_PAYLOAD, "TooLong")]
    return [(is_over, "Ended"), *more]
