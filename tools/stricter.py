"""Writes docs/STRICTER.md from the table docs/stricter.tsv, in which each row is a point in which the ends are stricter than the standards; `stricter.py check` compares
them, and says what is wrong with the table. Its columns, with a tab between two:

    group           the part of the page
    refused as      the refusal of a peer; `ask NAME` for that of an ask; `failure`; several with commas; `-` where nothing is refused
    phase           when: a word of PHASES
    messages        the numbers of the messages, `4 to 7` for several in a row, `line`, or `all`
    section or own  the sections, as `4253 6.1`; `strict` for OpenSSH's strict key exchange; `own` where no standard asks for it
    the rule, what is so here, and the peers that are shut out by it, by name

Each refusal of a peer has a row, except those of NOT_STRICTER: there the ends do what every end does."""

import re
import sys
from pathlib import Path

TOP = Path(__file__).resolve().parent.parent
TABLE, PAGE = TOP / "docs/stricter.tsv", TOP / "docs/STRICTER.md"
PHASES = {"line", "any", "first exchange", "exchange", "login", "connection", "ask"}
NOT_STRICTER = {"BadTag", "BadHost"}
GROUPS = {
    "lines": "Version lines (RFC 4253 section 4.2)",
    "packets": "Packets (RFC 4253 section 6)",
    "types": "Data types (RFC 4251 section 5)",
    "exchange": "Key exchange (RFC 4253 section 7, RFC 8731, OpenSSH's strict key exchange)",
    "login": "Service and authentication (RFC 4253 section 10, RFC 4252)",
    "extensions": "Extensions (RFC 8308)",
    "channels": "Channels (RFC 4254)",
}
HEAD = """# Where the ends are stricter than the RFCs

Written by `tools/stricter.py` from [stricter.tsv](stricter.tsv), which programs can read; `make quick` compares the
two. The page lists what an RFC allows and these ends refuse, or never do. It also has what an RFC forbids and other
implementations take. Each row names the refusal, as `ssh_types::Refusal` prints it, and the peers that are known to
be shut out by it. So somebody whose peer is refused finds the rule here.

When a peer is refused, a DISCONNECT with a reason code goes out if a sequence number is left for it, except after
`BadLine` and `BadVersion`. The end is then over. A refused ask (`ssh_types::AskRefusal`) changes nothing.

The column "Rule" has the section of an RFC, `strict` for strict key exchange in OpenSSH's file PROTOCOL, or `own`
where no standard asks for it.
"""


def rows():
    lines = TABLE.read_text().split("\n")[1:-1]
    return [line.split("\t") for line in lines]


def variants_of(file, name):
    body = (TOP / "crates/ssh_model/src" / file).read_text().split(f"pub enum {name}")[1].split("\n}")[0]
    return set(re.findall(r"^    (\w+)", body, re.M))


def names_in(cell):
    """The refusals of a peer and of an ask that a cell has."""
    words = [word for word in cell.split(", ") if word not in ("-", "failure")]
    asks = {word.removeprefix("ask ") for word in words if word.startswith("ask ")}
    return {word for word in words if not word.startswith("ask ")}, asks


def faults():
    peers, asks = variants_of("refusal.rt", "Refusal"), variants_of("ask_refusal.rt", "AskRefusal")
    named = set()
    for number, row in enumerate(rows(), 2):
        if len(row) != 8:
            yield f"docs/stricter.tsv:{number}: {len(row)} columns, and not 8"
            continue
        group, refused, phase, messages, section = row[:5]
        here, there = names_in(refused)
        named |= here
        if group not in GROUPS or phase not in PHASES or not here <= peers or not there <= asks:
            yield f"docs/stricter.tsv:{number}: a group, a phase or a refusal is none"
        if not re.fullmatch(r"line|all|\d+( to \d+)?( \d+( to \d+)?)*", messages):
            yield f"docs/stricter.tsv:{number}: {messages} are no messages"
        if not re.fullmatch(r"own|strict|\d{4}( [\d.]+)?(, \d{4}( [\d.]+)?)*", section):
            yield f"docs/stricter.tsv:{number}: {section} is no section"
    for name in sorted(peers - named - NOT_STRICTER):
        yield f"docs/stricter.tsv: no row has {name}"


def shown(cell):
    """A cell of refusals as the page has it."""
    words = {"-": "", "failure": "a failure"}
    return ", ".join(words.get(word, f"ask: `{word[4:]}`" if word.startswith("ask ") else f"`{word}`") for word in cell.split(", "))


def page():
    text = HEAD
    for group, title in GROUPS.items():
        text += f"\n## {title}\n\n| Rule | The RFC | Here | Refused as | Shuts out |\n|---|---|---|---|---|\n"
        for kind, refused, _, _, section, rule, here, peers in rows():
            if kind == group:
                text += f"| {section} | {rule} | {here} | {shown(refused)} | {peers} |\n"
    return text


def main(words):
    found = list(faults())
    if words == ["check"] and not found and PAGE.read_text() != page():
        found = ["docs/STRICTER.md is not what tools/stricter.py writes"]
    if words == ["write"] and not found:
        PAGE.write_text(page())
    print("\n".join(found), end="\n" if found else "")
    return 1 if found else 0


if __name__ == "__main__":
    sys.exit(main(sys.argv[1:]))
