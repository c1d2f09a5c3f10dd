"""What an end adds to its history when a message comes or something is asked of it: the turns of drawn sessions."""

from end import CONNECTION, REASONS, REFUSALS, ASK_REFUSALS, USERAUTH, Some, Word, made
from rules import RIGHT, algorithms_now, ask_refusal, host_key, is_accepted, is_good_probe, refusal, secret_now

# The channel of these is their first field; an OPEN's is a new number.
ON_CHANNEL = {"ChannelOpenConfirmation", "ChannelOpenFailure", "ChannelWindowAdjust", "ChannelData", "ChannelExtendedData", "ChannelEof", "ChannelClose",
              "ChannelRequest", "ChannelSuccess", "ChannelFailure"}


def sent(word, *fields, at=None, payload=b""):
    return made("Sent", at, made(word, *fields), payload)


def told(word, *fields):
    return made("Told", made(word, *fields))


def kind_of(method):
    word = getattr(method, "word", "")
    return Word({"Password": "kind.Password", "Publickey": "kind.Signature"}.get(word, "kind.Nothing") if word != "Publickey" or method.fields[2]
                else "kind.Probe")


def credential(method):
    word = getattr(method, "word", "")
    return made("ByKey", *method.fields[:2]) if word == "Publickey" else Word("ByPassword" if word == "Password" else "NoCredential")


class Turns:
    """Makes the items of one turn. `label` names the payload of a KEXINIT, and `number` a new channel."""

    def __init__(self, end, label, number):
        self.end, self.label, self.number = end, label, number

    def on_message(self, message):
        end, why = self.end, refusal(self.end, message)
        if why:
            return self.refused(REFUSALS[why - 1])
        if end.stage == "Guessed":
            return [made("TookGuess", b""), told("Ignored")]
        at = None
        if message.word in ON_CHANNEL:
            at = Some(message.fields[0])
        elif message.word == "ChannelOpen":
            at = Some(self.number())
        payload = self.label() if message.word == "KexInit" else b""
        answer = getattr(self, "on_" + message.word.lower(), self.on_connection)
        return [made("Took", at, message, payload), *answer(message.word, message.fields, at)]

    def refused(self, name):
        reason = REASONS.get(name, 2)
        said = [] if reason is None else [sent("Disconnect", reason, name.encode(), b"")]
        return [made("Refused", Word("Refusal." + name), Some(b"")), *said, made("Died")]

    # ---- the transport

    def on_disconnect(self, word, fields, at):
        return [told("Disconnected", fields[0], fields[1]), made("Died")]

    def on_ignore(self, word, fields, at):
        return [told("Ignored")]

    def on_unimplemented(self, word, fields, at):
        return [told("NotImplemented", fields[0])]

    def on_debug(self, word, fields, at):
        return [told("Debugged", fields[0], fields[1])]

    def on_unknown(self, word, fields, at):
        return [sent("Unimplemented", self.end.into.number)]

    def on_servicerequest(self, word, fields, at):
        return [sent("ServiceAccept", fields[0])]

    def on_serviceaccept(self, word, fields, at):
        return [told("Service")]

    def on_extinfo(self, word, fields, at):
        return [told("GotExtensions", fields[0])]

    def on_kexinit(self, word, fields, at):
        end = self.end
        own = [] if end.is_blocked else [self.offer()]
        return own + ([sent("KexEcdhInit", secret_now(end))] if end.side == "Client" else [])

    def offer(self):
        cookie = self.end.pairs[len(self.end.ours)][0]
        return sent("KexInit", self.end.settings.offer(self.end.side, False, cookie), payload=self.label())

    def on_kexecdhinit(self, word, fields, at):
        reply = sent("KexEcdhReply", host_key(algorithms_now(self.end)[1]), secret_now(self.end), RIGHT)
        return [reply, *self.completed()]

    def on_kexecdhreply(self, word, fields, at):
        return self.completed()

    def completed(self):
        end = self.end
        announced = [sent("ExtInfo", end.settings.extensions)] if end.announces else []
        owed = [sent("ChannelClose", theirs, at=Some(number)) for number, theirs in end.owed]
        return [sent("NewKeys"), *announced, *owed, told("Completed", end.out.epoch + 1)]

    def on_newkeys(self, word, fields, at):
        return []

    # ---- authentication

    def on_userauthrequest(self, word, fields, at):
        end = self.end
        if end.is_in:
            return [told("Ignored")]
        if is_accepted(end, *fields):
            return [sent("UserauthSuccess"), told("Accepted", fields[0], credential(fields[2]))]
        if is_good_probe(end, *fields):
            return [sent("UserauthPkOk", *fields[2].fields[:2])]
        return [sent("UserauthFailure", end.settings.methods, False)]

    def on_userauthfailure(self, word, fields, at):
        return [told("Failed", *fields)]

    def on_userauthsuccess(self, word, fields, at):
        return [told("Authenticated", kind_of(self.end.asked))]

    def on_userauthbanner(self, word, fields, at):
        return [told("Banner", fields[0])]

    def on_userauthpkok(self, word, fields, at):
        return [told("KeyOk", *fields)]

    # ---- the connection

    def on_connection(self, word, fields, at):
        end, x = self.end, at and at.value
        facts = {
            "GlobalRequest": lambda: told("Global", *fields), "RequestSuccess": lambda: told("GlobalDone", True, *fields),
            "RequestFailure": lambda: told("GlobalDone", False, b""), "ChannelOpen": lambda: told("Opened", x, fields[0], *fields[2:]),
            "ChannelOpenConfirmation": lambda: told("Confirmed", x, *fields[2:]), "ChannelOpenFailure": lambda: told("OpenFailed", x, *fields[1:3]),
            "ChannelWindowAdjust": lambda: told("Adjusted", x, fields[1]), "ChannelData": lambda: told("GotData", x, None, fields[1]),
            "ChannelExtendedData": lambda: told("GotData", x, Some(fields[1]), fields[2]), "ChannelEof": lambda: told("Ended", x),
            "ChannelClose": lambda: told("Closed", x), "ChannelRequest": lambda: told("Requested", x, *fields[1:]),
            "ChannelSuccess": lambda: told("RequestDone", x, True), "ChannelFailure": lambda: told("RequestDone", x, False),
        }
        answers_close = word == "ChannelClose" and not end.channels[x].closed and not end.is_blocked
        reply = [sent("ChannelClose", end.channels[x].theirs, at=at)] if answers_close else []
        return [*reply, facts[word]()]

    # ---- asks

    def on_ask(self, ask):
        why = ask_refusal(self.end, ask)
        if why:
            return [made("Asked", ask), made("AskRefused", Word("AskRefusal." + ASK_REFUSALS[why - 1]))]
        return [made("Asked", ask), *self.done(ask.word, ask.fields)]

    def done(self, word, fields):
        if word == "AskService":
            return [sent("ServiceRequest", USERAUTH)]
        if word == "AskRekey":
            return [self.offer()]
        if word == "AskDisconnect":
            return [sent("Disconnect", 11, fields[0], b""), made("Died")]
        if word in ("AskNone", "AskPassword", "AskProbe", "AskSign"):
            return [sent("UserauthRequest", fields[0], CONNECTION, self.method(word, fields))]
        if word == "AskGlobal":
            return [sent("GlobalRequest", *fields)]
        if word == "AskGlobalReply":
            return [sent("RequestSuccess", fields[1]) if fields[0] else sent("RequestFailure")]
        if word == "AskOpen":
            x = self.number()
            return [sent("ChannelOpen", fields[0], x, *fields[1:], at=Some(x)), told("Opening", x)]
        return [self.done_on_channel(word, fields, self.end.channels[fields[0]].theirs)]

    def method(self, word, fields):
        if word == "AskPassword":
            return made("Password", fields[1], None)
        signature = Some(RIGHT) if word == "AskSign" else None
        return Word("NoMethod") if word == "AskNone" else made("Publickey", fields[1], fields[2], signature)

    def done_on_channel(self, word, fields, theirs):
        x = fields[0]
        if word == "AskConfirm":
            message = ("ChannelOpenConfirmation", theirs, x, *fields[1:])
        elif word == "AskRefuse":
            message = ("ChannelOpenFailure", theirs, fields[1], b"", b"")
        elif word == "AskData":
            message = ("ChannelData", theirs, fields[2]) if fields[1] is None else ("ChannelExtendedData", theirs, fields[1].value, fields[2])
        elif word == "AskAdjust":
            message = ("ChannelWindowAdjust", theirs, fields[1])
        elif word == "AskRequest":
            message = ("ChannelRequest", theirs, *fields[1:])
        elif word == "AskReply":
            message = ("ChannelSuccess" if fields[1] else "ChannelFailure", theirs)
        else:
            message = ("ChannelEof" if word == "AskEof" else "ChannelClose", theirs)
        return sent(*message, at=Some(x))
