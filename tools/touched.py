"""Counts the files that three changes touch, for the section "To change X, touch Y" of CONTRIBUTING.md, and writes the counts there; `touched.py check` compares them.

A file counts for a change where it names what is changed: the message, by its type or its name on the wire; the bound, by its number; the cipher, by
its type or its name on the wire. Files of tests, edits, tools and pages are left out, except the page that has the bounds."""

import re
import subprocess
import sys
from pathlib import Path

TOP = Path(__file__).resolve().parent.parent
PAGE = TOP / "CONTRIBUTING.md"
MESSAGES = ["ChannelEof", "ChannelClose", "GlobalRequest", "UserauthBanner", "ExtInfo", "ServiceAccept", "NewKeys"]
BEGIN, END = "<!-- made by tools/touched.py -->\n", "<!-- end -->\n"


def files_with(pattern, folders=("crates/", "docs/", "tools/")):
    names = subprocess.run(["git", "ls-files", "--cached", "--others", "--exclude-standard"], cwd=TOP, capture_output=True, text=True, check=True).stdout.split()
    found = []
    for name in names:
        # (recorded bytes are no text)
        if name.startswith(tuple(folders)) and (TOP / name).exists() and re.search(pattern, (TOP / name).read_bytes().decode(errors="replace")):
            found.append(name)
    return found


def wire_name(message):
    return re.sub(r"(?<=[a-z])(?=[A-Z])", "_", message).upper()


def kinds(files):
    """How many of the files are definitions, code, proofs, edits, tests and pages."""
    def kind(name):
        if name.startswith(("docs/", "tools/")):
            return "docs and tools"
        if re.search(r"crates/(test_|example_|ssh_toys/|ssh_bench/)|/cases/", name):
            return "tests"
        if "/falsify/" in name or "/must-fail/" in name:
            return "edits"
        for part in ("specs", "proofs", "src"):
            if f"/{part}/" in name:
                return part
        return "tests"
    order = ["specs", "src", "proofs", "edits", "tests", "docs and tools"]
    counted = {each: sum(1 for name in files if kind(name) == each) for each in order}
    return ", ".join(f"{count} {name}" for name, count in counted.items() if count)


def changed(pattern):
    """The files that have this and would have to change with it: no edits, tests, tools or pages."""
    return [name for name in files_with(pattern, ("crates/",)) if kinds([name]).split()[1] in ("specs", "src", "proofs")]


def rows():
    counts = {message: changed(rf"\b({message}|{wire_name(message)})\b") for message in MESSAGES}
    least, most = min(counts, key=lambda m: len(counts[m])), max(counts, key=lambda m: len(counts[m]))
    yield f"a message: `{least}`, the least of {len(MESSAGES)} looked at", counts[least]
    yield f"a message: `{most}`, the most", counts[most]
    yield "a bound: the number of channels of an end", changed(r"(?i)1[,_]?024\b.*channel|channel.*\b1[,_]?024") + files_with(r"(?i)channels.*\b1,024", ("docs/STRICTER.md",))
    yield "a cipher: aes256-gcm, the second one", changed(r"Aes256|AES_256|aes256-gcm")


def table():
    lines = ["| Change | Files that name it | Of these |", "|---|---|---|"]
    lines += [f"| {what} | {len(files)} | {kinds(files)} |" for what, files in rows()]
    return "\n".join(lines) + "\n"


def main(words):
    text = PAGE.read_text()
    before, _, rest = text.partition(BEGIN)
    _, _, after = rest.partition(END)
    made = f"{before}{BEGIN}{table()}{END}{after}"
    if words == ["check"]:
        if made != text:
            print("the counts in CONTRIBUTING.md are not what tools/touched.py counts")
        return int(made != text)
    PAGE.write_text(made)
    return 0


if __name__ == "__main__":
    sys.exit(main(sys.argv[1:]))
