"""Writes the tables of docs/definitions.md, the definitions of the model with the comments over them; `definitions.py check` compares them.

A table has the public definitions of one file of crates/ssh_model/specs. A comment speaks for the definition below it and for those after that, up to
the next comment. The public enums of crates/ssh_model/src are definitions too: each has a table of its variants, with their doc comments. What stands
above the mark in the page is written by hand.

Each definition of Protocol/ says in its comment where it comes from, in parentheses: the sections of the standards, such as `(RFC 4253 section 7.1)` or
`(OpenSSH's PROTOCOL section 1.9)`, or `(own)`, or several of these with commas between. What the head of a file has, as `(own)` or as `(own, if nothing
else is said)`, counts for those definitions of the file that say nothing. `definitions.py check` fails where neither says it."""

import re
import sys
from itertools import takewhile
from pathlib import Path

import specs

TOP = Path(__file__).resolve().parent.parent
SPECS = TOP / "crates/ssh_model/specs"
CODE = TOP / "crates/ssh_model/src"
PAGE = TOP / "docs/definitions.md"
PLACE = r"\d+(?:\.\d+)*"
SOURCE = rf"(?:own|(?:RFC \d+|OpenSSH's PROTOCOL) (?:section {PLACE}|sections {PLACE}(?:, {PLACE})* and {PLACE}))"
SOURCES = re.compile(rf"\({SOURCE}(?:, {SOURCE})*\)")
SOURCES_OF_FILE = re.compile(rf"\({SOURCE}(?:, {SOURCE})*(?:, if nothing else is said)?\)")
MARK = "<!-- below this line: made by tools/definitions.py -->\n"
DEFINITION = re.compile(r"(?:(?:abbrev|unfoldable) )*pub (?!mod |use )(?:(?:data|record) )?([^ ({:]+)")
ENUM = re.compile(r"^pub enum (\w+) \{\n(.*?)^\}$", re.M | re.S)
VARIANT = re.compile(r"^    ([A-Z]\w*)\b")
ENUMS = """### The enums of Rust

These enums of `crates/ssh_model/src` belong to the rules. Code has the very same ones, so no mapping between the two has to be believed.
"""
FOLDERS = {
    "Protocol": "The rules of a session, an honest run, and the claims. Who judges the theorems reads these: [BELIEVED.md](BELIEVED.md).",
    "State": "What code keeps in place of a history, and when that sums one up. Nothing here has to be believed.",
    "Laws": "Other forms of the rules, which are proved of them, and what crates that read, write and send use of the rules. Nothing here has to be believed.",
    "OneEpoch": "The packets of one direction under one key. Nothing here has to be believed.",
    "ChannelLayer": "Runs of two ends that have channels and nothing else, and what is claimed of them. Nothing here has to be believed.",
    "Example": "Two toy ends and short histories of theirs, on which every row of the tables is computed. The toys protect nothing.",
}


def files_below(node):
    """The files of a node, in the order in which it declares them."""
    found = []
    for name in re.findall(r"^pub mod (\w+)$", node.read_text(), re.M):
        file = (node.parent if node.stem == "Lib" else node.with_suffix("")) / f"{name}.antt"
        found += files_below(file) if file.read_text().startswith("pub mod ") else [file]
    return found


def rows(lines):
    """The names of the definitions that each comment speaks for."""
    found, comment = [([], [])], []
    for line in lines:
        if line.startswith("-- "):
            if not comment:
                found.append(([], comment))
            if not line.startswith("-- ----"):
                comment.append(line[3:])
            continue
        if definition := DEFINITION.match(line):
            found[-1][0].append(definition[1])
        comment = []
    return [(names, " ".join(words)) for names, words in found if names]


def table(file):
    lines = file.read_text().split("\n")
    size = next(at for at, line in enumerate(lines) if not line.startswith("-- "))
    head = " ".join(line[3:] for line in lines[:size])
    said = [f"### `{file.relative_to(SPECS).with_suffix('')}`", "", head, "", "| Definition | Says |", "|---|---|"]
    for names, words in rows(lines[size:]):
        if not words:
            sys.exit(f"{file.relative_to(TOP)}: no comment speaks for {', '.join(names)}")
        said.append(f"| {', '.join(f'`{name}`' for name in names)} | {words.replace('|', chr(92) + '|')} |")
    return "\n".join(said) + "\n"


def documented(lines, pattern):
    """The names that the lines declare, each with the doc comment over it."""
    found, words = [], []
    for line in lines:
        if line.strip().startswith("///"):
            words.append(line.strip()[3:].strip())
        elif declared := pattern.match(line):
            found.append((declared[1], " ".join(word for word in words if word)))
            words = []
        elif not line.strip().startswith("#["):
            words = []
    return found


def enum_tables():
    """A table for each enum of the model's code, with its variants."""
    said = [ENUMS]
    for file in sorted(CODE.rglob("*.rt")):
        text = file.read_text()
        docs = dict(documented(text.split("\n"), re.compile(r"^pub enum (\w+)")))
        for name, body in ENUM.findall(text):
            variants = documented(body.split("\n"), VARIANT)
            if bare := [each for each, words in [(name, docs[name]), *variants] if not words]:
                sys.exit(f"{file.relative_to(TOP)}: no comment speaks for {', '.join(bare)}")
            rows_of_it = [f"| `{variant}` | {words} |" for variant, words in variants]
            said.append("\n".join([f"#### `{name}`", "", docs[name], "", "| Variant | Means |", "|---|---|", *rows_of_it]) + "\n")
    return said


def tables():
    said, folder = [], None
    for file in files_below(SPECS / "Lib.antt"):
        if file.relative_to(SPECS).parts[0] != folder:
            folder = file.relative_to(SPECS).parts[0]
            said.append(f"## `{folder}`\n\n{FOLDERS[folder]}\n")
            said += enum_tables() if folder == "Protocol" else []
        said.append(table(file))
    return "\n".join(said)


def sourceless():
    """The definitions of Protocol/ whose comment does not say where they come from, or says it in another form."""
    for module, found in specs.Specs().modules.items():
        if module.startswith("ssh_model.Protocol"):
            head = " ".join(line[3:] for line in takewhile(lambda line: line.startswith("-- "), found[0].file.read_text().split("\n")))
            for one in found:
                said = " ".join(one.comment)
                if not SOURCES.search(said) and not SOURCES_OF_FILE.search(head):
                    yield f"{one.path}: the comment names no section of a standard, and is not marked as own"
                for words in re.findall(r"\([^()]*(?:RFC|PROTOCOL)[^()]*\)", said):
                    if not SOURCES.fullmatch(words):
                        yield f"{one.path}: {words} is not of the form (RFC 4253 section 7.1)"


def main(words):
    by_hand, mark, made = PAGE.read_text().partition(MARK)
    if not mark:
        sys.exit("docs/definitions.md has no mark")
    if words == ["check"]:
        wrong = list(sourceless())
        if made != "\n" + tables():
            wrong.append("docs/definitions.md is not what tools/definitions.py writes")
        print("\n".join(wrong), end="\n" if wrong else "")
        return int(bool(wrong))
    PAGE.write_text(by_hand + mark + "\n" + tables())
    return 0


if __name__ == "__main__":
    sys.exit(main(sys.argv[1:]))
