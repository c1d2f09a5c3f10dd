"""Writes docs/BELIEVED.md, the definitions that who judges the theorems has to read and believe, with their lines; `believed.py check` compares it, and
fails where a definition of Protocol/ is reached from nothing that is named here. `believed.py list` prints every definition that is reached.

Each theorem has roots, the definitions that say what is claimed and of what. With them count all definitions that they use, and the enums of the model's
code. A third set of roots says what a program has of the first theorem, a fourth what a transcript means, a fifth what programs print. Of the third and the
fourth the files of the roots count, and what they use in Protocol/. What they use for the place of a run at which an end or a pair stands is left out: the
contracts establish and keep that, and assume nothing of it."""

import re
import sys
from pathlib import Path

import specs

TOP = specs.TOP
CRATES = specs.CRATES
PAGE = TOP / "docs/BELIEVED.md"
PROTOCOL = "ssh_model.Protocol."
SESSIONS = "ssh_model.Protocol.Sessions."
# An enum of code, with the comment over it.
ENUM = re.compile(r"^///(?:(?!^pub ).*\n)+?pub enum (\w+) \{\n(?:.*\n)*?\}$", re.M)

TWO_ENDS = ["Claims.IsSafe", "Honest.IsHonest", "Events.IsFirst", "Events.Plays", "Events.PutsOut", "Parties.AreLawful", "Parties.BothOffer", "Turns.Run",
            "Quiet.IsDelivered", "Quiet.IsSettled", "Quiet.HasParts", "Faithful.IsFaithful", "Faithful.KillsNobody", "Faithful.Carries", "Faithful.IsUnderWay",
            "Faithful.HasVersion", "Faithful.SparesAll"]
# The files of these claims, which have a table of their own.
CLAIMS = ["Claims", "Events", "Faithful", "Honest", "Quiet"]
ANY_PEER = ["AnyPeer.IsGuarded", "AnyPeer.KeepsTransport", "AnyLayers.TransportRun", "Turns.EndRun", "Bounded.PutsOutFew"]
TRANSCRIPT = ["ssh_end/specs/TwoEnds/Playing.antt", "ssh_end/specs/TwoEnds/Items.antt", "ssh_end_machine/specs/Kinds.antt", "ssh_end/specs/TwoEnds/Recording.antt"]
# What these use to say which ask is which.
ASKS = ["ssh_end_machine/specs/Asking.antt"]
# How a history of the first theorem goes with what a program sees: the place of an end, a call that takes it to the next one, what a turn shows and tells,
# and what messages and settings are as values.
CODE = [
    *(f"ssh_end_machine/specs/{name}.antt" for name in ("Stands", "Places", "Steps", "Turn", "Told", "Asking")),
    *(f"ssh_message/specs/{name}.antt" for name in ("Meaning", "Announced")),
    *(f"ssh_config/specs/{name}.antt" for name in ("Meaning", "Values")),
    "ssh_model/specs/State/End/Summary.antt",
]
# The ghost members by which these know an end's parts: what a trait says that it has, and which one an impl gives.
MEMBERS = {
    "ssh_end_machine/src/role.rt": ["is_of", "judging", "signing", "is_made_of"],
    "ssh_end_machine/src/party.rt": ["is_of", "judging", "signing"],
    "ssh_end_machine/src/server_role.rt": ["is_made_of"],
    "ssh_end_machine/src/client_role.rt": ["is_made_of"],
    "ssh_transport/src/role.rt": ["is_of", "filler_of", "is_made_of"],
    "ssh_transport/src/server.rt": ["is_of", "filler_of", "is_made_of"],
    "ssh_transport/src/client.rt": ["is_of", "filler_of", "is_made_of"],
    "ssh_packet/src/sealing.rt": ["crypto", "laws"],
    "ssh_packet/src/writer.rt": ["gives"],
    "ssh_kex/src/parts.rt": ["does", "keys", "judged"],
    "ssh_auth/src/parts.rt": ["verdicts", "signature_of"],
    "divrelca/src/parts/either.rt": ["crypto"],
    "divrelca/src/parts/gcm_sealing.rt": ["crypto"],
    "divrelca/src/parts/curve25519.rt": ["does"],
    "divrelca/src/parts/ed25519_signer.rt": ["keys", "signature_of"],
    "divrelca/src/parts/ed25519_trust.rt": ["judged"],
    "divrelca/src/parts/ed25519_judge.rt": ["verdicts"],
    "divrelca/src/keys.rt": ["gives"],
    "divrelca/src/users.rt": ["verdicts"],
    "divrelca/src/user_key.rt": ["signature_of"],
}
# What programs print of refusals and messages, and where the clause stands that says it.
PRINTED = {
    "Sessions.Refusals.refusal_number": "ssh_model/src/refusal.rt",
    "Sessions.Refusals.ask_refusal_number": "ssh_model/src/ask_refusal.rt",
    "Sessions.Refusals.ask_refusal_name": "ssh_model/src/ask_refusal.rt",
    "Wire.Message.message_name": "ssh_message/src/naming.rt",
}

HEAD = """# What has to be believed

Written by `tools/believed.py`, which reads all specs into definitions and follows what each uses; `make quick` compares
it. Who judges the two theorems of [THEOREMS.md](THEOREMS.md) reads these definitions. He believes that they say what
the standards say, what the claims mean, and how both go with what a program sees. Everything else in `specs/`, and all
proofs, is checked by the prover. Trusted besides is the toolchain.

The rules and the code come of one reading of the standards. `tools/second_reading` is another reading, a program in
Python. For a thousand drawn histories it says what the functions of a history are, and what an end answers. The prover
comes to the same (`crates/test_histories`). Encodings, lines, packets and the claims are not compared.

A table counts, of each file, the definitions that are reached and their lines, with the comments over them. A
definition is counted in the first table that reaches it. Of a file in `src/` the enums, structs and constants count, or
the ghost members. [definitions.md](definitions.md) has the comment of each definition of the model, with the section of
the standard that it follows. Below most claims stand some hundred definitions: [PINNED.md](PINNED.md) says which clauses
change if one of these does.

"""

LAST = """
## What needs no reading

- **That a pair stands at a place of a run** (`PairStands`, `crates/ssh_end/specs/TwoEnds/Standing.antt`, and all that
  it uses). `Pair::new` establishes it and `Pair::play` and `Pair::feed` keep it; nothing is assumed of it. If it
  meant less than it seems to, the claims about what was recorded and put out would stand all the same.
- The specs between the model and the ends that no table above has. They say which state of the code belongs to a
  place of a run (`StandsAt` uses them). `new` establishes that and each call keeps it; nothing is assumed of it.
- In `crates/ssh_model/specs/`, all outside of `Protocol/` but what the tables above have of `State/`: the rest of it
  says how code keeps to the rules without a history. `Laws/` has other forms of the rules, which are proved of them,
  and what code uses of them. `OneEpoch/`, `ChannelLayer/` and `Example/` are examples. Each definition of `Protocol/`
  is in a table above, and `make quick` fails where one is not.
- In `crates/ssh_model/src/`, all but the enums above: what else stands there is proved.
- Lemmas, invariants and answers in `proofs/`.
"""

SPECS = specs.Specs()


def members_of(file, names):
    """The ghost members of a file with these names, each up to the line that ends it."""
    text = (CRATES / file).read_text()
    found = {name: re.findall(rf"^    ghost {name}(?:: | = )\{{(?:.*\n)*?.*\}}[,;]$", text, re.M) for name in names}
    for name, members in found.items():
        if not members:
            sys.exit(f"crates/{file} has no ghost member {name}")
    return found


def named_in(file, texts):
    """The definitions that these texts of a file of code name."""
    scope = SPECS.scope(CRATES / file)
    return {used.path for text in texts for token in specs.NAME.findall(text) if (used := SPECS.resolve(token, scope, {}))}


def in_files(files):
    wanted = {CRATES / file for file in files}
    return {path for path, one in SPECS.found.items() if one.file in wanted}


def is_rule(path):
    return path.startswith(PROTOCOL)


def reached_by_each():
    """What is reached from each set of roots: the definitions, and the enums of the model. Each is reached by the first set alone."""
    code, transcript = in_files(CODE), in_files(TRANSCRIPT + ASKS)
    members = {used for file, names in MEMBERS.items() for used in named_in(file, sum(members_of(file, names).values(), []))}
    sets = {
        "two ends": SPECS.reached({SESSIONS + root for root in TWO_ENDS}),
        "any peer": SPECS.reached({SESSIONS + root for root in ANY_PEER}),
        "code": SPECS.reached(code, lambda path: path in code or is_rule(path)),
        "transcript": SPECS.reached(transcript, lambda path: path in transcript or is_rule(path)),
        "members": SPECS.reached(members, lambda path: not path.startswith("ssh_model.") or is_rule(path)),
        "printed": SPECS.reached({PROTOCOL + root for root in PRINTED}),
    }
    # (what the code's roots use of other crates is the place of a run, or a type of the program's own calls)
    sets["code"] = {path for path in sets["code"] if path in code or is_rule(path)}
    sets["transcript"] = {path for path in sets["transcript"] if path in transcript or is_rule(path)}
    seen = set()
    for name, found in sets.items():
        sets[name], seen = found - seen, seen | found
    return sets


def lines_of(one):
    """The lines of a definition, with the comment over it."""
    if one.kind == "code" and one.crate == "ssh_model":
        enum = next(each[0] for each in ENUM.finditer(one.file.read_text()) if each[1] == one.name)
        return sum(1 for line in enum.split("\n") if line and not line.strip().startswith("#["))
    return one.lines + (len(one.comment) if one.has_comment else 0)


def table(paths, of="Definitions"):
    files = {}
    for path in paths:
        files.setdefault(SPECS.found[path].file, []).append(SPECS.found[path])
    rows = [f"| `crates/{file.relative_to(CRATES)}` | {len(files[file])} | {sum(map(lines_of, files[file]))} |" for file in sorted(files)]
    total = f"| **{len(rows)} files** | **{len(paths)}** | **{sum(lines_of(SPECS.found[path]) for path in paths)}** |"
    return "\n".join([f"| File | {of} | Lines |", "|---|---|---|", *rows, total]) + "\n"


def member_table():
    rows, count, total = [], 0, 0
    for file, names in MEMBERS.items():
        found = members_of(file, names)
        lines = sum(len(member.split("\n")) for members in found.values() for member in members)
        count, total = count + sum(map(len, found.values())), total + lines
        rows.append(f"| `crates/{file}` | {', '.join(f'`{name}`' for name in names)} | {lines} |")
    return "\n".join(["| File | Ghost members | Lines |", "|---|---|---|", *rows, f"| **{len(rows)} files** | **{count}** | **{total}** |"]) + "\n"


def printed_table():
    rows = [f"| `{root.split('.')[-1]}` | `crates/{file}` |" for root, file in PRINTED.items()]
    return "\n".join(["| Definition | The clause stands in |", "|---|---|", *rows]) + "\n"


def page():
    sets = reached_by_each()
    claims = {path for path in sets["two ends"] if path.split(".")[-2] in CLAIMS and path.startswith(SESSIONS)}
    return "".join([
        HEAD,
        "## The rules of a session, an honest run, and what is claimed of two ends\n\n",
        "In `crates/ssh_model/specs/Protocol/`, the claims are `Sessions/Claims.antt`, an honest run `Sessions/Honest.antt`, what\n"
        "happens to two ends `Sessions/Events.antt`. The others are the rules, with the enums of `crates/ssh_model/src/` that the\nrules cite.\n\n",
        table(sets["two ends"] - claims) + "\n" + table(claims),
        "\n## What is claimed of one end against any peer, besides\n\n",
        table(sets["any peer"]),
        "\n## What the first theorem says of code\n\n",
        "The theorem is about a history. A program sees calls, bytes and events. These files say how the two go together: that\n"
        "an end stands at a place of a run (`StandsAt`), that a call takes it to the next one (`TurnedTo`, `AskedTo`, `FedTo`),\n"
        "what a turn shows of its items (`UnitTurned`, `TurnShows`, `told_of`, `ShowsAsk`, `DoneInSession`), which message and\n"
        "which settings a value stands for, and that a state sums up a history (`EndTurned`). If `TurnShows` were empty, the\n"
        "theorem would say nothing to a program.\n\n",
        table(sets["code"]),
        "\nThe premise of each clause `placed`, `opens` and `plays` is that the parties of the run have the end's settings and\n"
        "parts (`is_of`). Ghost members say what these parts are: a trait has a member, and each impl gives it. There are such\n"
        "parties for all settings and parts (`HasParts.exists`, `Lifts.exists`), so no clause holds for want of them. Whether the\n"
        "members say what the parts do is read here. A program that supplies parts of its own believes its own members besides.\n\n",
        member_table(),
        "\nThese members name further definitions. Those of `divrelca` and `ciphers` say what the library's own parts are, such as\n"
        "AES-GCM and Ed25519. A program that supplies other parts does not read them.\n\n",
        table(sets["members"]),
        "\n## What a transcript means\n\n",
        "The clause `plays` of `Pair::play` says by these what was recorded and put out. The definition `ask_of`, by which it says\n"
        "which ask is which, is in the table of code.\n\n",
        table(sets["transcript"]),
        "\n## What programs print\n\n",
        "No theorem needs these. By them a clause says what the library and `ssh_trace` give as the number or the name of a\n"
        "refusal or of a message.\n\n",
        printed_table(),
        LAST,
    ])


def wrong():
    """What is wrong with the folder of the rules: a definition of it that nothing reaches, or one of the model that a claim reaches and that stands elsewhere."""
    sets = reached_by_each()
    reached = set().union(*sets.values())
    for path, one in SPECS.found.items():
        if is_rule(path) and path not in reached:
            yield f"{one.file.relative_to(TOP)}: no claim reaches {one.name}"
    for path in sets["two ends"] | sets["any peer"]:
        if not is_rule(path) and not path.startswith("ssh_model.declared."):
            yield f"{SPECS.found[path].file.relative_to(TOP)}: a claim reaches {SPECS.found[path].name}"
    for root, file in PRINTED.items():
        clauses = re.findall(r"^\s+ensures .*$", (CRATES / file).read_text(), re.M)
        if PROTOCOL + root not in named_in(file, clauses):
            yield f"crates/{file}: no clause says {root}"


def main(words):
    if words == ["list"]:
        for name, paths in reached_by_each().items():
            print("\n".join(f"{name}\t{path}\t{lines_of(SPECS.found[path])}" for path in sorted(paths)))
        return 0
    if words == ["check"]:
        if found := sorted(wrong()):
            print("\n".join(found))
            return 1
        if PAGE.read_text() != page():
            print("docs/BELIEVED.md is not what tools/believed.py writes")
            return 1
        return 0
    PAGE.write_text(page())
    return 0


if __name__ == "__main__":
    sys.exit(main(sys.argv[1:]))
