"""Values besides histories: choices of algorithms, verdicts on requests, numbers and names of messages, sizes of packets, and texts that are hashed."""

import re

from drawn import POOLS, some_of
from end import CONNECTION, EXTENDS, KNOWN, NUMBERS, REASONS, REFUSALS, STRICT, USERAUTH, End, Proposal, Settings, Some, Word, chosen, guess_is_wrong
from end import made, string
from rules import GUEST, KEY, PASSWORD, RIGHT, USER, fails, is_accepted, is_good_probe
from tables import MODEL, clause, ranges
from words import atom, chain, imports, term, wrapped

PAIRS = 32
METHODS = ((b"publickey", b"password"), (b"password",), (b"publickey",), ())
# Blocks of 8 bytes after a length in clear are left out: there the definition has packets of 12 bytes, and RFC 4253 section 6 none below 16. No cipher
# of this core has them.
BLOCKS = ((8, True, 0), (8, True, 32), (16, True, 32), (16, False, 16), (64, False, 16), (64, True, 0))
LARGEST = 35000


def proposal(rng, side):
    markers = [STRICT[side]] * (rng.random() < 0.5) + [EXTENDS[side]] * (rng.random() < 0.5)
    kex = list(some_of(rng, POOLS["kex"])) + markers
    rng.shuffle(kex)
    lists = [some_of(rng, POOLS[kind]) for kind in ("host", "encryption", "encryption", "mac", "mac")]
    return Proposal(tuple(kex), *lists, follows=rng.random() < 0.7)


def requests(rng):
    methods = [Word("NoMethod"), made("Other", b"hostbased", b"")]
    methods += [made("Password", word, new) for word in (PASSWORD, b"q") for new in (None, Some(b"n"))]
    methods += [made("Publickey", b"alg", key, signature) for key in (KEY, b"l") for signature in (None, Some(RIGHT), Some(b"wrong"))]
    found = [made("UserauthRequest", user, service, method) for user in (USER, GUEST) for service in (CONNECTION, USERAUTH) for method in methods]
    return rng.sample(found, 32)


def may_have_size(block, counts_length, tag, size):
    """RFC 4253 section 6: whole blocks of at least 8 bytes, at least 16 bytes and one block, and 35,000 bytes with the tag at most. Where the length
    stands in clear (RFC 5647 section 7.2), it is not counted in blocks."""
    counted = size if counts_length else size - 4
    return size >= max(16, block) and counted > 0 and counted % max(8, block) == 0 and size + tag <= LARGEST


def message_name(number):
    """RFC 4250 section 4.1.2, RFC 5656 section 4 and RFC 8308 section 2.3, without SSH_MSG_."""
    word = {n: word for word, n in NUMBERS.items()}.get(number, "Unknown")
    return re.sub("(?<!^)(?=[A-Z])", "_", word).upper().replace("KEX_INIT", "KEXINIT").replace("NEW_KEYS", "NEWKEYS").encode()


def examples():
    """One message of each kind."""
    fields = dict(Disconnect=(2, b"", b""), Ignore=(b"",), Unimplemented=(0,), Debug=(True, b"", b""), ServiceRequest=(b"",), ServiceAccept=(b"",),
                  ExtInfo=((),), KexEcdhInit=(b"",), KexEcdhReply=(b"", b"", b""), UserauthRequest=(b"", b"", Word("NoMethod")), UserauthFailure=((), False),
                  UserauthBanner=(b"", b""), UserauthPkOk=(b"", b""), GlobalRequest=(b"", True, b""), RequestSuccess=(b"",), ChannelOpen=(b"", 0, 0, 0, b""),
                  ChannelOpenConfirmation=(0, 0, 0, 0, b""), ChannelOpenFailure=(0, 1, b"", b""), ChannelWindowAdjust=(0, 1), ChannelData=(0, b""),
                  ChannelExtendedData=(0, 1, b""), ChannelEof=(0,), ChannelClose=(0,), ChannelRequest=(0, b"", True, b""), ChannelSuccess=(0,),
                  ChannelFailure=(0,), KexInit=(Proposal(*[()] * 6),))
    return [made(word, *fields.get(word, ())) for word in NUMBERS] + [made("Unknown", 77)]


def definition(comment, name, kind, parts):
    lines = ["", f"-- {comment}", f"abbrev pub {name} : {kind}", f"{name} ="]
    for i, part in enumerate(parts):
        lines += wrapped(("∷ " if i else "") + f"({part})" + (" ∷ []" if i + 1 == len(parts) else ""), "    ")
    return lines


def algorithms(pairs):
    names = [[name or b"" for name in chosen(*pair)] for pair in pairs]
    guesses = [[guess_is_wrong(client, server), guess_is_wrong(server, client)] for client, server in pairs]
    return [
        "/// Algorithms that are chosen, and guesses.", f"#[tactic(auto, unfolding({MODEL}::KeyExchange::Choice::methods))]", "pub fn algorithms()",
        *clause("chosen", f"map chosen_by drawn.pairs ≡ {chain([term(value) for value in names])}"),
        *clause("can_choose", f"map can_choose_by drawn.pairs ≡ {chain([term(None not in chosen(*pair)) for pair in pairs])}"),
        *clause("wrong_guesses", f"map wrong_guesses drawn.pairs ≡ {chain([term(value) for value in guesses])}"), "{}",
    ]


def logins(found):
    lines = ["/// Requests for authentication, by the methods that the server names.", "pub fn logins()"]
    for i, methods in enumerate(METHODS):
        end = End("Server", Settings(b"", (), (), (), (), methods=methods))
        values = [[judge(end, *request.fields) for judge in (is_accepted, is_good_probe, fails)] for request in found]
        lines += clause(f"judged_{i + 1}", f"map (judged {atom(term(methods))}) drawn.requests ≡ {chain([term(value) for value in values])}")
    return [*lines, "{}"]


def numbers(messages):
    known, reasons = sorted(KNOWN), [REASONS.get(name, 2) for name in REFUSALS]
    return [
        "/// Numbers, names and reason codes.", "pub fn numbers()",
        *clause("known", f"filter is_known (numbers_from 0 256) ≡ {ranges(known)}"),
        *clause("unknown", f"filter (is_unknown false) (numbers_from 0 256) ≡ {ranges([n for n in range(256) if n not in known or n == 60])}"),
        *clause("unknown_to_one_that_probes", f"filter (is_unknown true) (numbers_from 0 256) ≡ {ranges([n for n in range(256) if n not in known])}"),
        *clause("names", f"map message_name (numbers_from 0 256) ≡ {chain([term(message_name(n)) for n in range(256)])}"),
        *clause("of_messages", f"map message_number drawn.messages ≡ {chain([str(message.number) for message in messages])}"),
        *clause("of_refusals", f"map refusal_number drawn.refusals ≡ {ranges(range(1, 20))}"),
        *clause("of_reasons", f"map refusal_reason drawn.refusals ≡ {chain([term(reason and Some(reason)) for reason in reasons])}"),
        "{}",
    ]


def sizes():
    lines = ["/// Sizes that a packet may have without its tag.", "pub fn sizes()"]
    for i, (block, counts_length, tag) in enumerate(BLOCKS):
        blocks = f"{'with' if counts_length else 'without'}_length {block}"
        for part, first, count in (("small", 0, 160), ("large", LARGEST - 80, 88)):
            found = [n for n in range(first, first + count) if may_have_size(block, counts_length, tag, n)]
            lines += clause(f"{part}_{i + 1}", f"filter (is_size ({blocks}) {tag}) (numbers_from {first} {count}) ≡ {chain([str(n) for n in found])}")
    return [*lines, "{}"]


def mpint(number):
    """RFC 4251 section 5: the shortest bytes, with a zero byte in front if the top bit is set."""
    return string(number.to_bytes((number.bit_length() + 8) // 8, "big") if number else b"")


def mpints(rng):
    found = [0, 1, 127, 128, 255, 256, 32767, 32768, *sorted(rng.randrange(2**17) for _ in range(8))]
    unfolded = ", ".join(f"{MODEL}::KeyExchange::Exchange::{name}" for name in ("string_of", "mpint_body", "digits"))
    return [
        "/// Small numbers as mpints.", f"#[tactic(auto, unfolding({unfolded}))]", "pub fn mpints()",
        *clause("mpints", f"map mpint_of {atom(term(found))} ≡ {chain([chain([str(byte) for byte in mpint(n)]) for n in found])}"), "{}",
    ]


def texts():
    """RFC 4252 section 7 and RFC 4253 section 7.2."""
    session, fields = b"session id", (USER, CONNECTION, b"publickey")
    signed = string(session) + b"\x32" + b"".join(map(string, fields)) + b"\x01" + string(b"alg") + string(KEY)
    first, second = 'sha256 (codes "KHXid")', 'sha256 (codes "KH" ++ sha256 (codes "KHXid"))'
    third = f'sha256 (codes "KH" ++ {first} ++ {second})'
    unfolding = f"#[tactic(auto, unfolding({MODEL}::KeyExchange::Exchange::%s))]"
    arguments = " ".join(atom(term(text)) for text in (session, USER, CONNECTION, b"alg", KEY))
    return [
        "/// The text that a client signs.", unfolding % "string_of", "pub fn signed()",
        *clause("text", f"signed_text {arguments} ≡ {term(signed)}"), "{}", "",
        "/// The blocks of which keys are made, and their letters.", unfolding % "blocks", "pub fn keys()",
        *clause("blocks_1", f'blocks (codes "KH") (codes "Xid") 1 ≡ {first}'),
        *clause("blocks_2", f'blocks (codes "KH") (codes "Xid") 2 ≡ {first} ++ {second}'),
        *clause("blocks_3", f'blocks (codes "KH") (codes "Xid") 3 ≡ ({first} ++ {second}) ++ {third}'),
        *clause("of_client", 'iv_letter Client ∷ cipher_letter Client ∷ mac_letter Client ∷ [] ≡ codes "ACE"'),
        *clause("of_server", 'iv_letter Server ∷ cipher_letter Server ∷ mac_letter Server ∷ [] ≡ codes "BDF"'), "{}",
    ]


def files(rng):
    pairs = [(proposal(rng, "Client"), proposal(rng, "Server")) for _ in range(PAIRS)]
    found, messages = requests(rng), examples()
    lines = definition("KEXINITs of a client and a server", "pairs", "List Pair", [f"pair {atom(term(a))} {atom(term(b))}" for a, b in pairs])
    lines += definition("requests for authentication", "requests", "List Msg", [term(request) for request in found])
    lines += definition("a message of each kind", "messages", "List Msg", [term(message) for message in messages])
    lines += definition("all refusals of a peer", "refusals", "List Refusal", [f"Refusal.{name}" for name in REFUSALS])
    spec = ["-- Values to which definitions are applied, written by tools/second_reading.", *imports("\n".join(lines)), *lines]
    body = "\n".join([*algorithms(pairs), "", *logins(found), "", *numbers(messages), "", *sizes(), "", *mpints(rng), "", *texts()])
    head = ["//! Values of definitions besides histories, written by tools/second_reading.", "", *imports(body, "ghost use"),
            "ghost use Rattle.test_histories.specs.Drawn.Rows as drawn;", ""]
    return {"specs/Drawn/Rows.antt": "\n".join(spec) + "\n", "src/rows.rt": "\n".join(head) + "\n" + body + "\n"}
