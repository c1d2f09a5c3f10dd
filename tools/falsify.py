"""Tries wrong bodies: the edits of crates/NAME/falsify/ of the crates named, in a copy of the tree, which tools/falsify.sh made and in which
this runs. Each has to be refused by the prover of its own crate, over what the checks before it have proved.

The edits of a file stand in falsify/ under its path, with `.edits` behind it. An edit is a line `edit: NAME` and then pairs of lines `old: TEXT`
and `new: TEXT`, each TEXT one line that stands in the file once. After a line `file: PATH` the pairs of this edit are of that other file.

Edits of different functions are tried in one check. A function is proved over the contracts of those that it calls, so what the prover does not
prove of a function is told at its place and comes of its own body, where all contracts are as they were. An edit counts as refused there if
something is not proved at the function that it changes, and if no function that no edit changes has such a line. Every other edit (of a
contract, a constant, a definition) and every edit that no line tells of is tried alone. An edit of a constant is also refused where a
`prove!` about it, which is computed, no longer holds."""

import os
import pathlib
import re
import subprocess
import sys
from dataclasses import dataclass

RT = os.environ.get("RT", "rt")
JOBS = ["--jobs", os.environ["RT_JOBS"]] if os.environ.get("RT_JOBS") else []
FUNCTION = re.compile(r"(?P<indent> *)(?:pub(?:\([^)]*\))? )?(?:const )?fn (?P<name>\w+)")
OWNER = re.compile(r"(?:unsafe )?impl(?:<.*?>)? (?:\S+ for )?(?P<name>\w+)")
IN_SOURCE = re.compile(r"(?:note: )?(?:\./)?(?P<path>src/\S+?):(?P<line>\d+):\d+: .*is not proved")
IN_PROOF = re.compile(r"(?:\./)?(?P<folder>proofs/\S+)/\w+\.antt:\d+:\d+: error")
IN_TEXT = re.compile(r"(?:\./)?(?P<path>(?:src|specs)/\S+?):\d+:\d+: error: (?P<item>`[^`]*`: )?(?P<why>.*)")
# An error that comes of what a proof names, and not of what it claims; and one of a text that says nothing, so that no claim was tried.
OF_NAMES = re.compile(r"has no field|is not in scope|has no `|was not admitted")
# A `prove!` about constants that does not hold: it is computed, before anything is proved.
OF_CONSTANTS = re.compile(r"(?:\./)?src/\S+?:\d+:\d+: error\[failed-constant-evaluation\]")
UNREAD = re.compile(r"is not in scope|has no field|is no name|operand is missing|expected the end|cannot continue")


@dataclass(frozen=True)
class Function:
    """Lines of a file, from 1: from the first attribute or comment of a function to its last brace, and the first of its body."""

    path: str
    owner: str
    name: str
    first: int
    body: int
    last: int

    def is_told(self, line):
        """Whether this line of a report says that something of this function is not proved."""
        told = IN_SOURCE.match(line)
        if told:
            return told["path"] == self.path and self.first <= int(told["line"]) <= self.last
        told = IN_PROOF.match(line)
        if not told or OF_NAMES.search(line):
            return False
        *parts, name = pathlib.PurePath(told["folder"]).parts[1:]
        if self.owner:
            # a method's proof stands beside its type, whose module may be another than the method's
            return name == self.name and bool(parts) and parts[-1].startswith(self.owner)
        return name == self.name and parts == [it for it in pathlib.PurePath(self.path).with_suffix("").parts[1:] if it not in ("lib", "mod")]


@dataclass(frozen=True)
class Edit:
    """A wrong body: the crate's folder, the edit's name, and of each change the file, the old text and the new one."""

    crate: pathlib.Path
    name: str
    changes: tuple

    def lines(self):
        """The path and the line of each change, where its old text stands in its file once, after the changes before it."""
        texts, found = {path: (self.crate / path).read_text() for path, _, _ in self.changes}, []
        for path, old, new in self.changes:
            if texts[path].count(old) != 1:
                return []
            found.append((path, texts[path][: texts[path].index(old)].count("\n") + 1))
            texts[path] = texts[path].replace(old, new)
        return found

    def functions(self):
        """The functions whose bodies this changes, or none where it changes something else."""
        found = set()
        for path, line in self.lines():
            here = [it for it in functions_of(path, (self.crate / path).read_text()) if it.body < line <= it.last]
            if not here or not path.startswith("src/"):
                return frozenset()
            found.add(here[-1])
        return frozenset(found)


def functions_of(path, source):
    """The functions of a formatted file that have a body of some lines: the brace that ends one is indented as its first line."""
    lines, found, owner = source.split("\n"), [], ""
    for at, line in enumerate(lines):
        impl, begins = OWNER.match(line), FUNCTION.match(line)
        owner = impl["name"] if impl else "" if line == "}" else owner
        body = next((it for it in range(at, len(lines)) if lines[it].endswith(("{", "{}", ";"))), None) if begins else None
        if body is None or not lines[body].endswith("{"):
            continue
        first, last = at, lines.index(begins["indent"] + "}", body)
        while lines[first - 1].strip().startswith(("#[", "//")):
            first -= 1
        found.append(Function(path, owner if begins["indent"] else "", begins["name"], first + 1, body + 1, last + 1))
    return found


def read(crate, file):
    """The edits of a file of falsify/."""
    home = str(file.relative_to(crate / "falsify")).removesuffix(".edits")
    name, path, old, found = "", "", "", {}
    for line in file.read_text().split("\n"):
        kind, _, text = line.partition(":")
        text = text.removeprefix(" ")
        if kind == "edit":
            name, path = text.strip(), home
            found[name] = []
        elif kind == "file":
            path = text.strip()
        elif kind == "old":
            old = text
        elif kind == "new":
            found[name].append((path, old, text))
    return [Edit(crate, name, tuple(changes)) for name, changes in found.items()]


def edits_of(crate):
    """All edits of a crate's falsify/, by name."""
    found = [edit for file in (crate / "falsify").rglob("*.edits") for edit in read(crate, file)]
    return sorted(found, key=lambda edit: edit.name)


def check(crate, edits=()):
    """Checks a crate with these edits, over what the checks before this one kept, and returns the lines of the report."""
    kept = {crate / path: (crate / path).read_text() for edit in edits for path, _, _ in edit.changes}
    for edit in edits:
        for path, old, new in edit.changes:
            (crate / path).write_text((crate / path).read_text().replace(old, new))
    ran = subprocess.run([RT, "check", *JOBS], cwd=crate, stdin=subprocess.DEVNULL, stdout=subprocess.PIPE, stderr=subprocess.STDOUT, text=True, errors="replace")
    for path, source in kept.items():
        path.write_text(source)
    return ran.stdout.split("\n")


def is_refused(said):
    """Whether the report is one of a crate that was read and is not proved."""
    return any(it.startswith("logic=not-proved") for it in said)


def rounds(edits):
    """Cuts edits into groups, in none of which a function is changed twice. Returns them, with the functions of each edit, and the edits in none."""
    groups, others = [], []
    for edit in edits:
        changed = edit.functions()
        if not changed:
            others.append(edit)
            continue
        group = next((it for it in groups if not any(changed & theirs for _, theirs in it)), None)
        if group is None:
            groups.append(group := [])
        group.append((edit, changed))
    return groups, others


def try_together(crate, group, known):
    """Tries the edits of a group in one check. Returns a line of the report for each that it refuses; a group that can't be read is halved."""
    said = [it for it in check(crate, [edit for edit, _ in group]) if it not in known]
    if not is_refused(said):
        halves = [group[: len(group) // 2], group[len(group) // 2 :]] if len(group) > 1 else []
        return {edit: line for half in halves for edit, line in try_together(crate, half, known).items()}
    changed = frozenset().union(*(theirs for _, theirs in group))
    told = [it for it in said if IN_SOURCE.match(it) or IN_PROOF.match(it) and not OF_NAMES.search(it)]
    strays = [it for it in told if not any(function.is_told(it) for function in changed)]
    for it in strays:
        print(f"{crate.name}: no edit of the group changes this function: {it[:160]}", file=sys.stderr)
    found = {edit: next((it for it in told if any(function.is_told(it) for function in theirs)), None) for edit, theirs in group}
    return {} if strays else {edit: line for edit, line in found.items() if line}


def try_alone(crate, edit, known):
    """Tries one edit, and returns the line of the report that refuses it, or none, and what is to be said instead."""
    whole = check(crate, [edit])
    said = [it for it in whole if it not in known]
    computed = next((it for it in said if OF_CONSTANTS.match(it)), None)
    if computed:
        return computed, ""
    texts = [(it, IN_TEXT.match(it)) for it in said]
    unread = next((it for it, at in texts if at and (not at["item"] or UNREAD.search(at["why"]))), None)
    if unread:
        return None, f"the edited text can't be read: {unread}"
    if not is_refused(said):
        return None, "NOT REFUSED: the crate is still proved" if any(it.startswith("logic=proved") for it in whole) else "no verdict"
    told = [it for it in said if re.match(r"(note: )?\S+:\d+:\d+:", it)]
    return next((it for it in told if not OF_NAMES.search(it)), None), "refused only because a proof names what the edit took away"


def falsify(crate):
    """Tries the edits of a crate, prints a line for each, and returns how many there are and how many were refused."""
    edits = edits_of(crate)
    for edit in edits:
        if not edit.lines():
            print(f"{crate.name}/{edit.name}: BAD EDIT: an old text does not stand in its file once", flush=True)
    groups, alone = rounds([it for it in edits if it.lines()])
    print(f"{crate.name}: {len(edits)} edits, of which {len(edits) - len(alone)} in {len(groups)} checks", file=sys.stderr)
    known = set(check(crate))
    if not any(it.startswith("logic=proved") for it in known):
        sys.exit(f"{crate.name} is not proved as it stands")
    refused = 0
    for group in groups:
        found = try_together(crate, group, known)
        for edit, line in found.items():
            print(f"{crate.name}/{edit.name}: refused: {line[:160]}", flush=True)
        refused += len(found)
        alone += [edit for edit, _ in group if edit not in found]
    for edit in alone:
        line, why = try_alone(crate, edit, known)
        print(f"{crate.name}/{edit.name}: {f'refused: {line}' if line else why}"[:220], flush=True)
        refused += line is not None
    print(f"{crate.name}: {refused} of {len(edits)} refused", flush=True)
    return len(edits), refused


def main(names):
    edits, refused = map(sum, zip(*(falsify(pathlib.Path("crates", it).resolve()) for it in names)))
    print(f"{refused} of {edits} refused")
    return refused != edits


if __name__ == "__main__":
    sys.exit(main(sys.argv[1:]))
