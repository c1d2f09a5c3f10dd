"""The drawn sessions as files of the crate: the turns as definitions, and the values of functions after each turn as clauses."""

from end import End, Some, Word, peer_of
from rules import ask_refusal, may_take, refusal, secret_now
from words import atom, bytes_term, chain, imports, settings_lines, term, wrapped

MODEL = "ssh_model::specs::Protocol"
# The definitions that are unfolded only where a proof says so, and that these values need.
UNFOLDED = ("Channels::History::has_place", "Channels::History::some_free", "KeyExchange::Choice::methods", "KeyExchange::Exchange::string_of")
UNFOLDING = f"#[tactic(auto, unfolding({', '.join(f'{MODEL}::{name}' for name in UNFOLDED)}))]"
CHANNELS = range(3)

# ---- the turns


def spec(session):
    side, end = session.end.side, session.end
    turns = [chain([term(item) for item in turn]) for turn in session.turns]
    definitions = [
        ("the turns", "turns", "List (List Item)", parts_lines(turns)),
        ("messages that might come at any moment", "messages", "List Msg", parts_lines([term(message) for message in session.messages])),
        ("asks that might come at any moment", "asks", "List Ask", parts_lines([term(ask) for ask in session.asks])),
        ("numbers that might come at any moment", "numbers", "List ℕ", wrapped(chain([str(n) for n in session.numbers]), "    ")),
        *(("the text that is hashed in this exchange", f"text_{i}", "List ℕ", wrapped(text_term(x), "    ")) for i, x in enumerate(end.exchanges)),
    ]
    lines = ["", f"-- the ends, of which the {side.lower()} has drawn settings", "abbrev pub ends : Parties (List ℕ)"]
    lines += [f"ends = ends_of {side} (record {{", *settings_lines(end.settings), "})"]
    for comment, name, kind, value in definitions:
        lines += ["", f"-- {comment}", f"abbrev pub {name} : {kind}", f"{name} =", *value]
    head = [f"-- A drawn session of a {side.lower()}, written by tools/second_reading.", *imports("\n".join(lines))]
    return "\n".join(head + lines) + "\n"


def parts_lines(parts):
    lines = []
    for i, part in enumerate(parts):
        lines += wrapped(("∷ " if i else "") + f"({part})" + (" ∷ []" if i + 1 == len(parts) else ""), "    ")
    return lines


def text_term(exchange):
    return f"{bytes_term(exchange.front())} ++ mpint_of {exchange.number():#x}"


# ---- values after a turn


def channel_state(end, number):
    channel = end.channels.get(number)
    if channel is None:
        return []
    if not channel.is_confirmed:
        return [1, channel.window, channel.most] if channel.is_mine else [2, channel.room, channel.largest, channel.theirs]
    if channel.peer_closed:
        return [4]
    flags = [int(flag) for flag in (channel.ended, channel.closed, channel.peer_ended)]
    return [3, channel.room, channel.largest, channel.window, channel.most, channel.theirs, *flags, channel.here, channel.there]


def replies(end, number):
    """RFC 4254 section 5.3: CLOSE answers CLOSE, unless it was sent; and not while a key exchange is under way (RFC 4253 section 7.1)."""
    channel = end.channels.get(number)
    answers = channel is not None and channel.is_open and not channel.closed and not end.is_blocked
    return [[number, channel.theirs]] if answers else []


def request_number(method):
    if method is None or method == "NoMethod":
        return 0 if method is None else 1
    if method.word == "Publickey":
        return 3 if method.fields[2] is None else 4
    return 2 if method.word == "Password" else 5


def key(end, epoch, side):
    """The names of the encryption and the MAC of a direction, given by the side that sends."""
    if epoch == 0:
        return None
    names = end.exchanges[epoch - 1].algorithms
    return Some(names[2] + names[4] if side == "Client" else names[3] + names[5])


def cookie(end):
    return end.pairs[len(end.ours)][0] if end.keeps_pair else b""


def columns(session, s):
    """For each function its name in the table, the function of a history, and what it is by the second reading."""
    return [*of_transport(session.end.side, s), *of_login(session, s), *of_channels(session.end.side)]


def of_transport(side, s):
    return [
        ("phases", f"phase {s}.ends {side}", lambda e: Word(e.stage)),
        ("blocked", "blocked", lambda e: e.is_blocked),
        ("died", "has_died", lambda e: e.has_died),
        ("can_feed", "can_feed", lambda e: not e.has_died and not e.keeps_pair),
        ("points", f"point_now {s}.ends {side}", secret_now),
        ("cookies", "next_cookie", cookie),
        ("other_lines", "other_lines", lambda e: e.other_lines),
        ("strict", f"is_strict {side}", lambda e: e.is_strict),
        ("epochs_sent", "λ h. epoch (sent h)", lambda e: e.out.epoch),
        ("epochs_taken", "λ h. epoch (took h)", lambda e: e.into.epoch),
        ("counts_sent", "λ h. count (sent h)", lambda e: e.out.since),
        ("counts_taken", "λ h. count (took h)", lambda e: e.into.since),
        ("later_sent", "λ h. length (after_first (sent h))", lambda e: e.out.later),
        ("later_taken", "λ h. length (after_first (took h))", lambda e: e.into.later),
        ("numbers_sent", f"sending_number {side}", lambda e: e.out.number),
        ("numbers_taken", f"taking_number {side}", lambda e: e.into.number),
        ("keys_sent", f"sending_key {s}.ends {side}", lambda e: key(e, e.out.epoch, side)),
        ("keys_taken", f"taking_key {s}.ends {side}", lambda e: key(e, e.into.epoch, peer_of(side))),
    ]


def of_login(session, s):
    side, accept = session.end.side, "took" if session.end.side == "Client" else "sent"
    return [
        ("may_take", f"allowed {s}.ends {side} {s}.numbers", lambda e: [n for n in session.numbers if may_take(e, n)]),
        ("extensions", f"may_take_extensions {side}", lambda e: e.may_take_extensions),
        ("announces", f"announces {s}.ends {side}", lambda e: e.announces),
        ("requested", f"service_requested {side}", lambda e: e.is_requested),
        ("accepted", f"{accept}_service_accept", lambda e: e.took_accept or e.sent_accept),
        ("authenticated", f"authenticated {side}", lambda e: e.is_in),
        ("failures", "failures", lambda e: e.failures),
        ("outstanding", "λ h. request_number (outstanding h)", lambda e: request_number(e.asked)),
        ("refused", f"verdicts {s}.ends {side} {s}.messages", lambda e: [refusal(e, message) for message in session.messages]),
        ("asks_refused", f"ask_verdicts {s}.ends {side} {s}.asks", lambda e: [ask_refusal(e, ask) for ask in session.asks]),
    ]


def of_channels(side):
    return [
        *((f"channel_{x}", f"channel_state {side} {x}", lambda e, x=x: channel_state(e, x)) for x in CHANNELS),
        ("held", f"held {side} (numbers_from 0 3)", lambda e: [x in e.channels for x in CHANNELS]),
        ("replies", f"replies {side} (numbers_from 0 3)", lambda e: [replies(e, x) for x in CHANNELS]),
        ("owed", f"owed_closes {side}", lambda e: [list(close) for close in reversed(e.owed)]),
        ("globals", "waiting_globals", lambda e: [e.globals_here, e.globals_there]),
    ]


def ranges(numbers):
    """Numbers that grow, as runs."""
    pieces = []
    for n in numbers:
        if pieces and pieces[-1][0] + pieces[-1][1] == n:
            pieces[-1][1] += 1
        else:
            pieces.append([n, 1])
    return " ++ ".join(f"numbers_from {first} {count}" for first, count in pieces) or "[]"


def clause(name, text):
    return wrapped(f"{{ {text} }}", f"    ensures {name} ", 8)


def function(session):
    """The function whose clauses are the table of a session: values after each turn, all numbers after some, and the exchanges at the end."""
    s, side = session.name.lower(), session.end.side
    described = [column for column in columns(session, s) if not session.only or column[0] in session.only]
    values, tables = [[] for _ in described], []
    end = End(side, session.end.settings)
    for i, turn in enumerate(session.turns):
        for item in turn:
            end.happens(item)
        for column, (_, _, value) in zip(values, described):
            column.append(term(value(end)))
        if i in session.places:
            tables.append((i + 1, ranges([n for n in range(256) if may_take(end, n)])))
    lines = [f"/// {session.name}: values after each of {len(session.turns)} turns.", UNFOLDING, f"pub fn {s}()"]
    for (name, made, _), column in zip(described, values):
        lines += clause(name, f"map {atom(made)} (moments {s}.turns) ≡ {chain(column)}")
    for i, table in tables:
        lines += clause(f"all_numbers_{i}", f"allowed {s}.ends {side} (numbers_from 0 256) (whole (take {i} {s}.turns)) ≡ {table}")
    return [*lines, *([] if session.only else of_exchanges(s, end)), "{}"]


def of_exchanges(s, end):
    side, exchanges = end.side, end.exchanges
    at = f"{s}.ends {side} (whole {s}.turns)"
    lines = clause("first_offer", f"offer {s}.ends {side} true [] ≡ {term(end.settings.offer(side, True))}")
    lines += clause("later_offer", f"offer {s}.ends {side} false [] ≡ {term(end.settings.offer(side, False))}")
    texts = chain([f"{s}.text_{i}" for i in reversed(range(len(exchanges)))])
    lines += clause("texts", f"map exchange_text (exchanges {at}) ≡ {texts}")
    lines += clause("algorithms", f"map names_of (choices {side} (whole {s}.turns)) ≡ {chain([term(x.algorithms) for x in reversed(exchanges)])}")
    if exchanges:
        lines += clause("session", f"session_id (exchanges {at}) ≡ sha256 {s}.text_0")
    for word, epoch, sender in (("sending", end.out.epoch, side), ("taking", end.into.epoch, peer_of(side))):
        name = f"named {sender} (sha256 {s}.text_{epoch - 1}) (sha256 {s}.text_0)" if epoch else "None"
        lines += clause(f"{word}_key", f"{word}_name {at} ≡ {name}")
    return lines


def module(group):
    body = "\n\n".join("\n".join(function(session)) for session in group)
    aliases = [f"ghost use Rattle.test_histories.specs.Drawn.{session.name} as {session.name.lower()};" for session in group]
    head = ["//! Drawn sessions and their tables, written by tools/second_reading.", "", *imports(body, "ghost use"), *aliases]
    return "\n".join(head) + "\n\n" + body + "\n"
