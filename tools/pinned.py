"""Pins the statements that matter: `pinned.py write` stores a sum of each and of all definitions below it, and `pinned.py check` compares them.

A statement is a clause of a contract or a ghost member of a part. Its sum is of its text and of the texts of the definitions that it names, of those that
these name, and so on: comments and space do not count, nor does the module in which a definition stands. docs/pinned.tsv has a line for each statement, and
docs/pinned_definitions.tsv the sum of each definition below one of them, by which `pinned.py check` says which definition changed, and in which statements it
is. docs/PINNED.md is written from both. What the toolchain has in its own crates is below no statement here.

`pinned.py test` changes definitions and clauses in a copy of the tree, and fails if other statements are named than those above them."""

import hashlib
import re
import shutil
import sys
import tempfile
from functools import cache
from pathlib import Path

import believed
import specs

STATEMENTS, DEFINITIONS, PAGE = "docs/pinned.tsv", "docs/pinned_definitions.tsv", "docs/PINNED.md"
# The functions whose contracts are pinned, all their clauses, by what they say.
CONTRACTS = {
    "The laws of the two theorems": {
        "ssh_model/src/laws/any_peer.rt": ["against_any_peer", "against_any_layers"],
        "ssh_model/src/laws/session.rt": ["agreement", "beginning", "authorized", "windows", "windows_at_each_end", "no_false_alarm", "safety", "every_play"],
        "ssh_model/src/laws/quiet.rt": ["no_deadlock", "lawful_parts"],
        "ssh_model/src/laws/faithful.rt": ["kills_nobody", "spares_all"],
        "ssh_model/src/laws/bounds.rt": ["few_bytes"],
        "ssh_model/src/laws/one_end.rt": ["nothing_unanswered"],
        "ssh_model/src/laws/judges.rt": ["judges_exchanged"],
        "ssh_end_machine/src/judge_laws.rt": ["users_exchanged"],
        "ssh_end_machine/src/end_laws.rt": ["end_stands"],
    },
    "Two ends": {"ssh_end/src/pair.rt": ["new", "play", "feed"]},
    "One end": {
        "ssh_end_machine/src/opening.rt": ["new"],
        "ssh_end_machine/src/end.rt": ["take", "take_step", "ask", "ask_step", "feed_material"],
        "ssh_end_machine/src/server_role.rt": ["replace_user"],
    },
    "A transport under other layers": {
        "ssh_transport/src/transport.rt": ["new", "take"],
        "ssh_transport/src/transport/above.rt": ["refuse", "send", "die"],
        "ssh_transport/src/transport/asking.rt": ["ask", "feed_material", "authenticated"],
    },
    "What is asked of supplied parts": {
        "ssh_packet/src/sealing.rt": ["lengths", "make", "block", "counts_length", "tag_len", "seal", "open"],
        "ssh_packet/src/writer.rt": ["fill"],
        "ssh_kex/src/parts.rt": ["public", "shared", "key", "sign", "judge"],
        "ssh_auth/src/parts.rt": ["none", "password", "key_known", "signature", "sign"],
        "ssh_end_machine/src/role.rt": ["has_parts", "of"],
        "ssh_transport/src/role.rt": ["of"],
    },
    "Packets, sealed and opened": {
        "ssh_packet/src/writer.rt": ["write_packet"],
        "ssh_packet/src/reader.rt": ["take"],
    },
    "The ciphers": {
        "ciphers/src/aes_gcm/gcm.rt": ["new", "new_256", "mask", "tag"],
        "ciphers/src/x25519/curve.rt": ["x25519", "public", "shared", "clamped"],
        "ciphers/src/ed25519/keys.rt": ["from_seed", "public", "sign"],
        "ciphers/src/ed25519/verification.rt": ["verify"],
        "ciphers/src/ed25519/order.rt": ["is_small_order"],
    },
    "The parts of the library, and whom they trust": {
        "divrelca/src/parts/packet_key.rt": ["new", "nonce", "mask", "tag"],
        "divrelca/src/parts/ed25519_signer.rt": ["new", "public_key"],
        "divrelca/src/parts/ed25519_trust.rt": ["from_key"],
        "divrelca/src/users.rt": ["new", "is"],
        "divrelca/src/keys.rt": ["new", "from_key"],
    },
    "The library for C": {
        "divrelca_c/src/embedded/opening.rt": ["open_server", "open_client"],
        "divrelca_c/src/making.rt": ["key_in", "host_keys_in", "signer_in", "user_in", "users_in", "server_in", "client_in"],
    },
}
MEMBERS = "Ghost members, by which the claims know the parts of an end"

# Changes for the test: a file, a text of it and another one, what has to be named of these, and a statement that must not be.
CHANGES = [
    ("ssh_model/specs/Protocol/Sessions/Epochs.antt", "wire_number false l = length l % 2 ^ 32", "wire_number false l = length l % 2 ^ 31",
     ["changed definition: ssh_model.Protocol.Sessions.Epochs.wire_number", "changed statement: safety ensures of crates/ssh_model/src/laws/session.rt",
      "changed statement: Pair::play ensures plays of crates/ssh_end/src/pair.rt"], "GcmKey::mask"),
    ("ciphers/specs/AesGcm/Ghash.antt", "\n-- ", "\n-- (another comment) ", [], ""),
    ("ssh_end/src/pair.rt", "ensures plays { IfOk result", "ensures plays { IfErr result",
     ["changed statement: Pair::play ensures plays of crates/ssh_end/src/pair.rt"], "Pair::new"),
    ("ssh_model/src/refusal.rt", "    BadTag,", "    BadTag,\n    BadLuck,",
     ["changed definition: ssh_model.declared.refusal.Refusal", "changed statement: against_any_peer ensures of crates/ssh_model/src/laws/any_peer.rt"], "x25519"),
    ("divrelca/src/parts/gcm_sealing.rt", "ghost crypto = { aes_gcm }", "ghost crypto = { no_cipher }",
     ["changed statement: ghost crypto of crates/divrelca/src/parts/gcm_sealing.rt"], "safety"),
]

HEAD = """# Pinned statements

Written by `tools/pinned.py write`; `make quick` compares it. A proof says that the code keeps its contracts. It does
not say that the contracts are still those of last week: a change of one definition changes each claim above it, and the
prover is content. So the text of each statement that matters is pinned, with all definitions below it. A change of any
of them shows as a change of [pinned.tsv](pinned.tsv) in the diff, however small it is.

- A line of `pinned.tsv` has a statement, the file where it stands, how many definitions are below it, and a sum
  (SHA-256) of its text and of theirs. Comments and space do not count, nor does the module of a definition.
- `pinned_definitions.tsv` has the sum of each of these definitions by itself, shortened.
- If one changes, `python3 tools/pinned.py check` prints which definitions changed and which statements are above them.
  If that is meant, `python3 tools/pinned.py write` stores the new sums. The commit says why.
- The definitions of the toolchain's own crates, such as `List` or `sha256`, are not counted. The toolchain is trusted.

Pinned are the contracts of these functions, all clauses and what each function takes and gives.

"""


def squeezed(text):
    """A text without comments and attributes, and with one space for each space."""
    return " ".join(re.sub(r"(^|\s)(--|//[/!]?)( .*)?$|^\s*#\[.*\]$", " ", text, flags=re.M).split())


def sum_of(*texts):
    return hashlib.sha256("\0".join(texts).encode()).hexdigest()


class Pins:
    """The statements of a tree, with what is below each."""

    def __init__(self, top=specs.TOP):
        self.top, self.specs = top, specs.Specs(top)

    def statements(self):
        """Each statement as its group, its file, its name and its text."""
        for group, files in CONTRACTS.items():
            for file, functions in files.items():
                for function in functions:
                    found = contracts_of((self.top / "crates" / file).read_text(), function)
                    if not found:
                        sys.exit(f"crates/{file} has no contract of {function}")
                    yield from ((group, file, name, text) for name, text in found)
        for file, names in believed.MEMBERS.items():
            text = (self.top / "crates" / file).read_text()
            for name in names:
                for at, member in enumerate(re.findall(rf"^    ghost {name}(?:: | = )\{{(?:.*\n)*?.*\}}[,;]$", text, re.M)):
                    yield MEMBERS, file, f"ghost {name}" + (f" {at + 1}" if at else ""), member

    def named(self, file, text):
        """The definitions that a text of code names, by the names that it gives them."""
        scope = self.specs.scope(self.top / "crates" / file)
        return {token: used.path for token in specs.NAME.findall(text) if (used := self.specs.resolve(token, scope, {}))}

    @cache
    def own_sum(self, path):
        return sum_of(squeezed(self.specs.found[path].text))

    @cache
    def full_sum(self, path):
        """A sum of a definition and of what each of its names stands for. The module of what it uses does not count."""
        return sum_of(squeezed(self.specs.found[path].text), *sorted(f"{used.rsplit('.', 1)[1]} {self.own_sum(used)}" for used in self.specs.uses(path)))

    def rows(self):
        """For each statement its group, name, file, the paths of the definitions below it, and its sum."""
        for group, file, name, text in self.statements():
            named = self.named(file, text)
            views = views_of((self.top / "crates" / file).read_text())
            named |= self.named(file, views)
            below = self.specs.reached(set(named.values()))
            uses = sorted(f"{token} {self.own_sum(path)}" for token, path in named.items())
            yield group, name, file, below, sum_of(squeezed(text), squeezed(views), *uses, *sorted(self.full_sum(path) for path in below))


def views_of(text):
    """What values of the types of a file stand for: `self.old` of a clause is one."""
    return "\n".join(re.findall(r"^    ghost (?:Value|view) = \{(?:.*\n)*?.*\};$", text, re.M))


def numbered(names, at):
    """The name at this place, with a number if it stands before it too."""
    before = names[:at].count(names[at])
    return names[at] + (f" {before + 1}" if before else "")


def contracts_of(text, function):
    """The clauses of the functions of this name, and of each what it takes and gives, with names."""
    found = []
    for match in re.finditer(rf"^( *)(?:pub(?:\([^)]*\))? )?(?:const )?(?:unsafe )?fn {function}\b", text, re.M):
        owner = re.findall(r"^(?:impl|pub trait)\b(?:<[^{]*?>)? (?:\S+ for )?(\w+)", text[: match.start()].replace("\n", " \n"), re.M)
        where = f"{owner[-1]}::{function}" if owner and match[1] else function
        head, clauses, piece = [], [], []
        for line in text[match.start():].split("\n"):
            begins = re.match(r"\s+(?:requires|ensures)\b", line)
            if piece or begins:
                piece.append(line)
                said = "\n".join(piece)
                if said.count("{") == said.count("}"):
                    clauses.append(said)
                    piece = []
                    if line.endswith(";"):
                        break
            elif line.strip().startswith("//"):
                continue
            elif line.strip() in ("{", "{}") or (clauses and line.strip()):
                break
            else:
                head.append(line)
                if line.endswith(("{", "{}", ";")):
                    break
        if clauses:
            found.append((f"{where} fn", " ".join(head)))
            names = [squeezed(clause).split(" {")[0] for clause in clauses]
            found += [(f"{where} {numbered(names, at)}", clause) for at, clause in enumerate(clauses)]
    return found


def written(pins):
    """The three files, as texts."""
    rows = sorted(pins.rows(), key=lambda row: (row[2], row[1]))
    statements = "".join(f"{name}\tcrates/{file}\t{len(below)}\t{total}\n" for _, name, file, below, total in rows)
    below = set().union(*(row[3] for row in rows))
    definitions = "".join(f"{path}\t{pins.own_sum(path)[:16]}\n" for path in sorted(below))
    return {STATEMENTS: statements, DEFINITIONS: definitions, PAGE: page(rows, len(below))}


def page(rows, definitions):
    groups = {}
    for group, name, file, below, _ in rows:
        function = name.split(" ")[0] if group != MEMBERS else name
        groups.setdefault(group, {}).setdefault((function, file), []).append(len(below))
    said = [HEAD]
    for group in [*CONTRACTS, MEMBERS]:
        said.append(f"**{group}.**\n\n| Of | In | Statements | Definitions below, at most |\n|---|---|---|---|\n")
        said += [f"| `{function}` | `crates/{file}` | {len(counts)} | {max(counts)} |\n" for (function, file), counts in groups[group].items()]
        said.append("\n")
    said.append(f"In all, {len(rows)} statements are pinned, and {definitions:,} definitions are below them.\n")
    return "".join(said)


def table_of(text):
    """The lines of a table by their first columns; the last is a sum."""
    rows = [line.split("\t") for line in text.split("\n") if line]
    return {tuple(row[:-1]) if len(row) == 2 else tuple(row[:2]): row[-1] for row in rows}


def differences(pins, now):
    """What changed since the files were written, in words."""
    old = {name: table_of((pins.top / name).read_text()) for name in (STATEMENTS, DEFINITIONS)}
    new = {name: table_of(now[name]) for name in (STATEMENTS, DEFINITIONS)}
    for kind, name in (("definition", DEFINITIONS), ("statement", STATEMENTS)):
        for key in sorted(old[name].keys() | new[name].keys()):
            if old[name].get(key) != new[name].get(key):
                change = "changed" if key in old[name] and key in new[name] else "gone" if key in old[name] else "new"
                yield f"{change} {kind}: {' of '.join(key)}"


def tested():
    """What goes wrong with the changes of the test, each made in a copy of the tree alone."""
    with tempfile.TemporaryDirectory() as folder:
        copy = Path(folder)
        shutil.copytree(specs.TOP / "docs", copy / "docs")
        for crate in sorted(specs.CRATES.iterdir()):
            for part in filter(Path.is_dir, (crate / "specs", crate / "src")):
                shutil.copytree(part, copy / "crates" / crate.name / part.name)
        for file, old, new, named, unnamed in CHANGES:
            place = copy / "crates" / file
            text = place.read_text()
            place.write_text(text.replace(old, new, 1))
            pins = Pins(copy)
            found = list(differences(pins, written(pins)))
            place.write_text(text)
            above = {f"changed statement: {name} of crates/{at}" for _, name, at, below, _ in pins.rows() if below & {line.split(": ")[1] for line in found}}
            if old not in text or not set(named) <= set(found) or above - set(found) or (not named and found):
                yield f"crates/{file}: {new!r} is not told as it should be"
            if unnamed and any(f"statement: {unnamed}" in line for line in found):
                yield f"crates/{file}: {new!r} is told of {unnamed}"


def main(words):
    if words == ["test"]:
        wrong = list(tested())
        print("\n".join(wrong), end="\n" if wrong else "")
        return int(bool(wrong))
    pins = Pins(Path(words[1]) if words[1:] else specs.TOP)
    now = written(pins)
    if words[:1] == ["write"]:
        for name, text in now.items():
            (pins.top / name).write_text(text)
        return 0
    found = list(differences(pins, now))
    if not found and now[PAGE] != (pins.top / PAGE).read_text():
        found = [f"{PAGE} is not what tools/pinned.py writes"]
    print("\n".join(found), end="\n" if found else "")
    return int(bool(found))


if __name__ == "__main__":
    sys.exit(main(sys.argv[1:]))
