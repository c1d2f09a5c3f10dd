"""Proofs that an end does in a drawn session what the definitions have it do: for each message that was taken, and each ask that was not refused, the
row by which the definitions answer it. What a row takes follows from the turn, so a term names the rows alone."""

import re

from end import End
from turns import ON_CHANNEL
from words import import_lines, imports, term

MODEL = "ssh_model.specs.Protocol."
# Where the types of rows stand.
KINDS = {
    MODEL + "Sessions.Transport": ("TransportAnswer", "CompletingAnswer", "IsAnnounced", "TransportAsk"),
    MODEL + "Authentication.Rows": ("AuthenticationAnswer", "AuthenticationAsk"),
    MODEL + "Channels.Connection": ("AreReplies", "ConnectionAnswer", "ConnectionAsk"),
    MODEL + "Sessions.Turns": ("Answer", "OnAsk"),
}
TRANSPORT = {"Disconnect": "disconnect _ _ _", "Ignore": "ignore _", "Unimplemented": "unimplemented _", "Debug": "debug _ _ _", "Unknown": "unknown _ _",
             "ServiceRequest": "service_request _ _", "ServiceAccept": "service_accept _", "ExtInfo": "extensions _", "NewKeys": "newkeys"}
LOGIN = {"UserauthFailure": "failure _ _", "UserauthSuccess": "success _ refl", "UserauthBanner": "banner _ _", "UserauthPkOk": "key_ok _ _"}
CONNECTION = {"GlobalRequest": "global _ _ _", "RequestSuccess": "global_success _", "RequestFailure": "global_failure", "ChannelOpen": "opened _ _ _ _ _ _ refl",
              "ChannelOpenConfirmation": "confirmation _ _ _ _ _", "ChannelOpenFailure": "failure _ _ _ _", "ChannelWindowAdjust": "adjust _ _",
              "ChannelData": "got_data _ _", "ChannelExtendedData": "got_extended _ _ _", "ChannelEof": "eof _", "ChannelRequest": "request _ _ _ _",
              "ChannelSuccess": "success _", "ChannelFailure": "no_success _"}
TRANSPORT_ASKS = {"AskService": "service _", "AskRekey": "rekey _", "AskDisconnect": "disconnect _ _"}
LOGIN_ASKS = {"AskNone": "none _ _", "AskPassword": "password _ _ _", "AskProbe": "probe _ _ _ _", "AskSign": "sign _ _ _ _"}
CONNECTION_ASKS = {"AskOpen": "opens _ _ _ _ _ _ refl", "AskConfirm": "confirm _ _ _ _ _", "AskRefuse": "refuse _ _ _", "AskAdjust": "adjust _ _ _",
                   "AskEof": "eof _ _", "AskClose": "close _ _", "AskRequest": "request _ _ _ _ _", "AskGlobal": "global _ _ _ _"}


def row(kind, text):
    """The name of a row, by the name that it has here, and what it takes."""
    name, _, rest = text.partition(" ")
    return f"{kind}.{name} {rest}".strip()


def answer(kind, row_kind, text):
    return f"{row('Answer', kind)} ({row(row_kind, text)})"


def kexinit(end):
    side = end.side.lower()
    return f"kexinit_at_{side} _ {'_ ' * (side == 'client')}refl" if end.is_blocked else f"answered_at_{side} _ _ {'_ ' * (side == 'client')}refl"


def replies(closes):
    """Replies that are sent, the newest first."""
    return f"AreReplies.reply _ _ _ ({replies(closes[1:])})" if closes else "AreReplies.none"


def login(items):
    said = items[0].fields[1].word if items[0].word == "Sent" else ""
    return {"UserauthSuccess": "request_accepted _ _ _ _ refl refl", "UserauthPkOk": "request_probed _ _ _ _ _ refl refl",
            "UserauthFailure": "request_failed _ _ _ _ refl refl", "": "request_too_late _ _ _ refl"}[said]


def of_message(end, message, items):
    word = message.word
    if word in TRANSPORT:
        return answer("of_transport", "TransportAnswer", TRANSPORT[word])
    if word == "KexInit":
        return answer("of_transport", "TransportAnswer", kexinit(end))
    if word in ("KexEcdhInit", "KexEcdhReply"):
        announced = row("IsAnnounced", "extensions _ refl" if end.announces else "nothing refl")
        made = row("CompletingAnswer", f"init _ _ _ ({announced})" if word == "KexEcdhInit" else f"reply _ _ _ _ ({announced})")
        return f"{row('Answer', 'of_completion')} ({replies(end.owed)}) ({made})"
    if word in LOGIN or word == "UserauthRequest":
        return answer("of_authentication", "AuthenticationAnswer", LOGIN.get(word) or login(items))
    if word == "ChannelClose":
        closes = [item for item in items if item.word == "Sent"]
        return answer("of_connection", "ConnectionAnswer", f"close _ ({replies(closes)})")
    return answer("of_connection", "ConnectionAnswer", CONNECTION[word])


def of_ask(ask):
    word, fields = ask.word, ask.fields
    for kind, row_kind, rows in (("of_transport", "TransportAsk", TRANSPORT_ASKS), ("of_authentication", "AuthenticationAsk", LOGIN_ASKS),
                                 ("of_connection", "ConnectionAsk", CONNECTION_ASKS)):
        if word in rows:
            return f"{row('OnAsk', kind)} ({row(row_kind, rows[word])})"
    text = {"AskData": "sends _ _ _" if fields[1] is None else "sends_extended _ _ _ _", "AskReply": "reply_yes _ _" if fields[1] else "reply_no _ _",
            "AskGlobalReply": "global_yes _ _" if fields[0] else "global_no _ _"}[word]
    return f"{row('OnAsk', 'of_connection')} ({row('ConnectionAsk', text)})"


def steps(session):
    """A term for each turn."""
    end = End(session.end.side, session.end.settings)
    for turn in session.turns:
        first, items = turn[0], turn[1:]
        if first.word == "Took":
            message = first.fields[1]
            # Without its name the check of a message on a channel is tried before the message is known, which takes much memory.
            named = f"{{message = {term(message)}}} " if message.word in ON_CHANNEL else ""
            yield f"Answered.takes {named}refl ({of_message(end, message, items)})"
        elif first.word == "Asked" and items[0].word != "AskRefused":
            yield f"Answered.asks refl ({of_ask(first.fields[0])})"
        else:
            yield "Answered.refused refl" if first.word == "Asked" else "Answered.other refl"
        for item in turn:
            end.happens(item)


def proof(session):
    """The file with the proof."""
    terms = list(steps(session))
    lines = [f"      {term} (" for term in terms] + ["      Answered.ends" + ")" * len(terms)]
    text, name = "\n".join(lines), session.name.lower()
    head = ["use Rattle.std.specs.Prelude.{refl}"]
    for module, kinds in KINDS.items():
        used = [kind for kind in kinds if re.search(rf"\b{kind}\.", text)]
        head += import_lines("use", module, used)
    head += imports(text)
    head += import_lines("use", MODEL + "KeyExchange.Choice", ["methods"]) + import_lines("use", MODEL + "Channels.History", ["has_place", "some_free"])
    head.append(f"use Rattle.test_histories.proofs.answers.{name}.Goals as goal")
    made = ["", "pub returns : goal.returns", "unfolding methods has_place some_free", "returns c = record {", "  answered =", text + ";", "}"]
    return "\n".join([*head, *made]) + "\n"


def module(sessions):
    """The file with what is proved."""
    lines = ["//! What the ends do in the drawn sessions, message after message and ask after ask; written by tools/second_reading.", "",
             *import_lines("ghost use", "std.specs.Prelude", ["[]"]),
             *import_lines("ghost use", "ssh_model.specs.declared.side.Side.TheVariants", ["Client", "Server"]),
             *import_lines("ghost use", "test_histories.specs.Words", ["Answered"])]
    lines += [f"ghost use Rattle.test_histories.specs.Drawn.{session.name} as {session.name.lower()};" for session in sessions]
    for session in sessions:
        s, side = session.name.lower(), session.end.side
        lines += ["", f"/// The answers of {session.name}.", f"pub fn {s}()", f"    ensures answered {{ Answered {s}.ends {side} [] {s}.turns }}", "{}"]
    return "\n".join(lines) + "\n"
