"""Compares the contracts of public functions in two trees, for who reviews a change: which are the same, which changed, which are new, gone, or stand elsewhere now.

usage: contracts.py OLD NEW      two folders, each with a tree of this repository

A function goes by its crate, its module, the type of its impl, and its name. Where no such function is left, it goes by these without a role in them, then in another module of that crate, in a module of
the same name, and anywhere. Two contracts are the same where their clauses are, except for white space and the last semicolon of a record. A clause that is the same may cite a definition that changed. Prints a line for each function whose contract is not the same, with the clauses that differ, and then how many there are of each kind."""

import re
import sys
from collections import Counter
from pathlib import Path

FUNCTION = re.compile(r"^(\s*)pub (?:const )?fn (\w+)")
IMPL = re.compile(r"^impl(?:<.*?>)? (?:(\w+)(?:<.*>)? for )?(\w+)")
CLAUSE = re.compile(r"(requires|ensures\*?)\s*(\w+)?\s*\{")
# What may stand between two clauses: white space, and a comment over a group of them.
GAP = re.compile(r"(\s|//[^\n]*\n)*")
OPENING = re.compile(r"\{\}?$", re.M)


def braces(text, start):
    """The end of the braces that open at `start`."""
    depth = 0
    for at in range(start, len(text)):
        depth += {"{": 1, "}": -1}.get(text[at], 0)
        if not depth:
            return at + 1
    return len(text)


def clauses_of(text):
    """The clauses that stand between a signature and its body, by kind and name."""
    found, at = {}, 0
    while (clause := CLAUSE.match(text, at)) is not None:
        end = braces(text, clause.end() - 1)
        name = f"{clause[1]} {clause[2] or ''}".strip()
        found[name] = " ".join(text[clause.end() : end - 1].replace("{", "{ ").split()).replace("; }", " }")
        at = end + GAP.match(text[end:]).end()
    return found


def contracts_in(tree):
    """The contracts of a tree's public functions."""
    found = {}
    for path in sorted((tree / "crates").glob("*/src/**/*.rt")):
        crate, text, owner, at = path.relative_to(tree).parts[1], path.read_text(encoding="utf-8"), "", 0
        module = "::".join(path.relative_to(tree).with_suffix("").parts[3:])
        for line in text.split("\n"):
            if impl := IMPL.match(line):
                owner = impl[2]
            elif line.startswith(("pub fn", "fn", "}")):
                owner = "" if not line.startswith("}") else owner
            if function := FUNCTION.match(line):
                first = CLAUSE.search(text, at)
                opening = OPENING.search(text, at)
                inside = first is not None and opening is not None and first.start() < opening.start()
                key = (crate, "", owner, function[2]) if function[1] else (crate, module, "", function[2])
                found[key] = clauses_of(text[first.start() :]) if inside else {}
            at += len(line) + 1
    return found


def of_either_role(key):
    """The key without the role in it, and with the last name of its module."""
    crate, module, owner, name = key
    last = re.sub(r"^(client|server)_|_(client|server)$", "", module.split("::")[-1])
    return re.sub(r"_(client|server)$", "", crate), last, re.sub(r"^(Client|Server)", "", owner), re.sub(r"_(client|server)$", "", name)


def counterpart(key, new):
    """The key of the same function in the other tree, or none."""
    if key in new:
        return key
    crate, last, owner, name = of_either_role(key)
    for wanted in ((crate, last, owner, name), (crate, None, owner, name), (None, last, owner, name), (None, None, owner, name), (None, None, None, name)):
        places = [it for it in new if all(want in (None, has) for want, has in zip(wanted, (it[0], it[1].split("::")[-1], it[2], it[3])))]
        if len(places) == 1 or places and wanted[1]:
            return places[0]
    return None


def shown(key):
    """The name of a function in a line."""
    crate, module, owner, name = key
    return "::".join(it for it in (crate, owner or module, name) if it)


def main(old, new):
    kinds = Counter()
    matched = set()
    for key, before in old.items():
        place = counterpart(key, new)
        name = shown(key)
        if place is None:
            kinds["gone"] += 1
            print(f"gone     {name}")
            continue
        matched.add(place)
        after = new[place]
        differ = [it for it in sorted(before | after) if before.get(it) != after.get(it)]
        kind = ("changed" if differ else "same") + ("" if place == key else ", elsewhere")
        kinds[kind] += 1
        if kind != "same":
            print(f"{kind:<8} {name}" + ("" if place == key else " -> " + shown(place)) + (": " + ", ".join(differ) if differ else ""))
    kinds["new"] = len(set(new) - matched)
    print(", ".join(f"{kind} {count}" for kind, count in sorted(kinds.items())))


if __name__ == "__main__":
    main(*(contracts_in(Path(it)) for it in sys.argv[1:3]))
