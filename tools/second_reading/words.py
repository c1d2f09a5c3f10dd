"""Writes values as terms of antt: in lines of at most 140 columns, with the imports that they need."""

import re

from end import Made, Proposal, Some, Word

WIDTH = 140
PROTOCOL = "ssh_model.specs.Protocol."
MESSAGES = ("Disconnect Ignore Unimplemented Debug ServiceRequest ServiceAccept ExtInfo KexInit NewKeys KexEcdhInit KexEcdhReply UserauthRequest "
            "UserauthFailure UserauthSuccess UserauthBanner UserauthPkOk GlobalRequest RequestSuccess RequestFailure ChannelOpen "
            "ChannelOpenConfirmation ChannelOpenFailure ChannelWindowAdjust ChannelData ChannelExtendedData ChannelEof ChannelClose ChannelRequest "
            "ChannelSuccess ChannelFailure Unknown").split()
ASKS = ("AskService AskNone AskPassword AskProbe AskSign AskRekey AskOpen AskConfirm AskRefuse AskData AskAdjust AskEof AskClose AskRequest AskReply "
        "AskGlobal AskGlobalReply AskDisconnect").split()
FACTS = ("Completed Service Accepted Authenticated Failed Banner KeyOk Ignored GotExtensions Debugged NotImplemented Disconnected Global GlobalDone "
         "Opening Opened Confirmed OpenFailed GotData Adjusted Ended Closed Requested RequestDone").split()
ITEMS = "Fed Asked AskRefused SentLine TookLine TookOtherLine Sent Took TookGuess Told Refused Died".split()
# Where each word stands that a drawn file may have: the module, and the name by which it is imported.
PLACES = {
    "ℕ": ("std.specs.Prelude", "ℕ"), "List": ("std.specs.Prelude", "List"), "[]": ("std.specs.Prelude", "[]"), "∷": ("std.specs.Prelude", "◌∷◌"),
    "++": ("std.specs.Prelude", "◌++◌"), "≡": ("std.specs.Prelude", "◌≡◌"),
    **{word: ("std.specs.Prelude", word) for word in ("Some", "None", "true", "false", "codes", "replicate", "map", "length", "take")},
    "sha256": ("sha2.specs.Sha256", "sha256"),
    **{word: (PROTOCOL + "Wire.Packet", word) for word in ("is_size", "with_length", "without_length")},
    **{word: (PROTOCOL + "Sessions.Refusals", word) for word in ("refusal_number", "refusal_name", "refusal_reason", "ask_refusal_number")},
    **{word: (PROTOCOL + "Authentication.Requests", word) for word in ("signed_text",)},
    **{word: (PROTOCOL + "Wire.Message", f"Msg.{word}") for word in MESSAGES},
    **{word: (PROTOCOL + "Wire.Message", f"Method.{word}") for word in ("NoMethod", "Password", "Publickey", "Other")},
    **{word: (PROTOCOL + "Wire.Message", word) for word in ("Msg", "message_number", "message_name", "is_known", "is_unknown")},
    **{word: (PROTOCOL + "Sessions.Items", f"Ask.{word}") for word in ASKS},
    **{word: (PROTOCOL + "Sessions.Items", f"Fact.{word}") for word in FACTS},
    **{word: (PROTOCOL + "Sessions.Items", f"Item.{word}") for word in ITEMS},
    **{word: (PROTOCOL + "Sessions.Items", f"Credential.{word}") for word in ("NoCredential", "ByPassword", "ByKey")},
    **{word: (PROTOCOL + "Sessions.Items", word) for word in ("Ask", "Item", "sent", "took", "has_died")},
    **{word: (PROTOCOL + "Sessions.Phases", f"Phase.{word}") for word in ("Start", "Guessed", "Exchanging", "Keying", "Normal")},
    **{word: (PROTOCOL + "Sessions.Phases", word) for word in (
        "phase", "blocked", "has_material", "service_requested", "sent_service_accept", "took_service_accept", "authenticated", "failures", "outstanding",
        "may_take_extensions", "other_lines")},
    **{word: (PROTOCOL + "Sessions.Epochs", word) for word in ("epoch", "count", "after_first")},
    **{word: (PROTOCOL + "Sessions.Transport", word) for word in ("announces", "point_now", "next_cookie")},
    **{word: (PROTOCOL + "Sessions.Turns", word) for word in ("can_feed",)},
    **{word: (PROTOCOL + "Sessions.Parties", word) for word in ("Parties", "Settings", "offer")},
    **{word: (PROTOCOL + "KeyExchange.Exchanges", word) for word in (
        "is_strict", "sending_number", "taking_number", "exchanges", "choices", "sending_key", "taking_key", "session_id", "sending_name",
        "taking_name", "iv_letter", "cipher_letter", "mac_letter")},
    **{word: (PROTOCOL + "KeyExchange.Exchange", word) for word in ("exchange_text", "mpint_of", "blocks")},
    **{word: ("ssh_model.specs.declared.strictness.Strictness.TheVariants", word) for word in ("Require", "Offer", "Off")},
    **{word: ("ssh_model.specs.declared.side.Side.TheVariants", word) for word in ("Client", "Server")},
    "Refusal.": ("ssh_model.specs.declared.refusal.Refusal", "Refusal"), "AskRefusal.": ("ssh_model.specs.declared.ask_refusal.AskRefusal", "AskRefusal"),
    "kind.": ("ssh_model.specs.declared.request_kind.RequestKind.TheVariants", "as kind"),
    **{word: ("test_histories.specs.Words", word) for word in (
        "moments", "whole", "says", "hears", "says_on", "hears_on", "proposing", "guessing", "with_cookie", "ends_of", "allowed", "numbers_from", "verdicts",
        "ask_verdicts", "request_number",
        "channel_state", "owed_closes", "waiting_globals", "names_of", "replies", "held", "named", "Pair", "pair", "chosen_by", "can_choose_by",
        "wrong_guesses", "judged", "Answered")},
    "filter": ("std.specs.List", "filter"),
}
TOKEN = re.compile(r'"[^"]*"|(?<![\w.])(?:kind\.|Refusal\.|AskRefusal\.)|(?<![\w.])\w+|\[\]|[^\s\w"()]+')


def imports(text, keyword="use"):
    """The lines that import what the text names."""
    found = {}
    for token in TOKEN.findall(text):
        if token in PLACES:
            module, name = PLACES[token]
            found.setdefault(module, []).append(name)
    lines = []
    for module, names in found.items():
        if names[0].startswith("as "):
            lines.append(f"{keyword} Rattle.{module} {names[0]}{';' if keyword != 'use' else ''}")
            continue
        lines += import_lines(keyword, module, list(dict.fromkeys(names)))
    return lines


def import_lines(keyword, module, names):
    lines, front, back = [], f"{keyword} Rattle.{module}.{{", "}" if keyword == "use" else "};"
    for name in names:
        if lines and len(lines[-1]) + len(name) + 3 <= 125:
            lines[-1] += ", " + name
        else:
            lines.append(front + name)
    return [line + back for line in lines]


def atom(text):
    """The text as an argument: in parentheses if it is more than one word."""
    return f"({text})" if " " in text else text


def element(text):
    """The text as an element of a list: in parentheses if it is a list or has one."""
    return f"({text})" if "∷" in text or "++" in text else text


def chain(values):
    """A list: equal values that follow each other stand once, with their count."""
    pieces, i = [], 0
    while i < len(values):
        n = next((n for n in range(i, len(values)) if values[n] != values[i]), len(values)) - i
        pieces.append(f"replicate {n} {atom(values[i])} ++ " if n > 1 else f"{element(values[i])} ∷ ")
        i += n
    text = "".join(pieces)
    return text.removesuffix(" ++ ") if text.endswith(" ++ ") else text + "[]"


def bytes_term(data):
    """Bytes: what can be printed as text, and many equal bytes with their count."""
    if len(data) > 8 and len(set(data)) == 1:
        return f"replicate {len(data)} {data[0]}"
    if re.fullmatch(rb"[a-zA-Z0-9 .@-]+", data):
        return f'codes "{data.decode()}"'
    pieces = []
    for match in re.finditer(rb'[a-zA-Z0-9 .@-]{3,}|(.)\1{3,}|.', data, re.S):
        piece = match.group()
        if len(set(piece)) == 1 and len(piece) > 3:
            pieces.append(f"replicate {len(piece)} {piece[0]} ++ ")
        elif len(piece) > 2:
            pieces.append(f'codes "{piece.decode()}" ++ ')
        else:
            pieces.append(f"{piece[0]} ∷ ")
    text = "".join(pieces)
    return text.removesuffix(" ++ ") if text.endswith(" ++ ") else text + "[]"


def term(value):
    """The value as a term."""
    if isinstance(value, bool):
        return str(value).lower()
    if isinstance(value, (Word, int)):
        return str(value)
    if value is None:
        return "None"
    if isinstance(value, Some):
        return f"Some {atom(term(value.value))}"
    if isinstance(value, bytes):
        return bytes_term(value)
    if isinstance(value, Proposal):
        lists = (value.kex, value.host, value.enc_cs, value.enc_sc, value.mac_cs, value.mac_sc)
        text = " ".join(["guessing" if value.follows else "proposing", *(atom(term(names)) for names in lists)])
        return f"with_cookie ({term(value.cookie)}) ({text})" if value.cookie else text
    if isinstance(value, Made):
        return made_term(value)
    return chain([term(part) for part in value])


def settings_lines(value):
    """Settings, a field a line."""
    fields = {**vars(value), "strictness": Word(value.strictness), "extensions": Word(extensions(value.extensions))}
    return [f"  {name} = {term(field)};" for name, field in fields.items()]


def extensions(pairs):
    return chain([f"record {{ name = {term(name)}; value = {term(value)} }}" for name, value in pairs])


def made_term(value):
    fields = value.fields
    if value.word in ("ExtInfo", "GotExtensions"):
        return f"{value.word} {atom(extensions(fields[0]))}"
    if value.word in ("Sent", "Took") and not fields[2]:
        at, message = fields[0], atom(term(fields[1]))
        word = "says" if value.word == "Sent" else "hears"
        return f"{word}_on {at.value} {message}" if at else f"{word} {message}"
    return " ".join([value.word, *(atom(term(part)) for part in fields)])


def wrapped(text, front="", indent=4):
    """The text in lines that are not too long, broken before an operator; what is in quotes is one word."""
    words = re.findall(r'(?:"[^"]*"|[^\s"])+', text)
    pieces = [words[:1]]
    for word in words[1:]:
        if word in ("∷", "++", "≡"):
            pieces.append([])
        pieces[-1].append(word)
    lines, line = [], front
    for piece in map(" ".join, pieces):
        if len(line) + len(piece) > WIDTH:
            lines.append(line.rstrip())
            line = " " * indent
        line += piece + " "
    return [*lines, line.rstrip()]
