"""The receipt of what is built here: of which sources it was made, by what they were proved, and the sums of the files.

    receipt.py proved FILE                      writes what was proved here, once it was, and prints the sum of it, which the library answers by dv_receipt()
    receipt.py write FILE PROVED NAME=FILE..    writes the receipt, of what was proved and these built files under these names
    receipt.py check FILE [TREE]                compares the files beside a receipt with it, and the sources of TREE, if that is given. It is
                                                `divrelca-receipt` of an archive. Status 1 where something differs

All sums are SHA-256. That of a crate is of its files in src, specs and proofs: of lines of a sum, two spaces and a path, in the order of the paths."""

import hashlib
import json
import os
import subprocess
import sys
from pathlib import Path

TOP = Path(__file__).resolve().parent.parent
CRATE = "divrelca_c"


def sum_of(data):
    return hashlib.sha256(data).hexdigest()


def stands_on(tree):
    """What crates.txt has of each crate."""
    lines = [it.partition("#")[0].partition(":") for it in (tree / "crates.txt").read_text().split("\n")]
    return {head.split()[0]: words.split() for head, colon, words in lines if colon}


def below(name, crates):
    """A crate and those below it."""
    found = {name}
    for it in crates[name]:
        if it in crates:
            found |= below(it, crates)
    return found


def sum_of_crate(tree, name):
    folder = tree / "crates" / name
    files = sorted(it.relative_to(folder).as_posix() for part in ("src", "specs", "proofs") for it in (folder / part).rglob("*") if it.is_file())
    return sum_of("".join(f"{sum_of((folder / it).read_bytes())}  {it}\n" for it in files).encode())


def sources(tree):
    return {it: sum_of_crate(tree, it) for it in sorted(below(CRATE, stands_on(tree)))}


def said(*words):
    ran = subprocess.run(words, cwd=TOP, stdin=subprocess.DEVNULL, stdout=subprocess.PIPE, stderr=subprocess.DEVNULL, text=True)
    return ran.stdout.strip() if ran.returncode == 0 else ""


def proved():
    """What was proved here, by which kit, and from which state of the repository. That it was is known to who calls."""
    commit = said("git", "rev-parse", "HEAD")
    if commit and said("git", "status", "--porcelain"):
        commit += ", changed"
    return {"kit": said(os.environ.get("RT", "rt"), "version"), "commit": commit, "sources": sources(TOP)}


def text_of(part):
    return json.dumps(part, indent=2, sort_keys=True) + "\n"


def write(file, of_proof, *built):
    files = dict(it.split("=", 1) for it in built)
    part = json.loads(Path(of_proof).read_text())
    whole = {"proved": part, "sum": sum_of(text_of(part).encode()), "built": {name: sum_of(Path(it).read_bytes()) for name, it in files.items()}}
    Path(file).write_text(text_of(whole))


def check(file, tree=None):
    whole, folder, wrong = json.loads(Path(file).read_text()), Path(file).resolve().parent, []
    if sum_of(text_of(whole["proved"]).encode()) != whole["sum"]:
        wrong.append("the sum is not that of what was proved")
    for name, wanted in whole["built"].items():
        place = folder / name
        if not place.is_file():
            wrong.append(f"{name} is not there")
        elif sum_of(place.read_bytes()) != wanted:
            wrong.append(f"{name} is another file")
    if tree is not None:
        found = sources(Path(tree))
        wrong += [f"{it} has other sources" for it in sorted(set(found) | set(whole["proved"]["sources"])) if found.get(it) != whole["proved"]["sources"].get(it)]
    for it in wrong:
        print(it)
    if not wrong:
        print(f"{len(whole['built'])} files are those of the receipt{'' if tree is None else ', and so are the sources'}; its sum is {whole['sum']}")
    return 1 if wrong else 0


def main(words):
    if words[:1] == ["write"] and len(words) > 3:
        write(*words[1:])
    elif words[:1] == ["proved"] and len(words) == 2:
        text = text_of(proved())
        Path(words[1]).write_text(text)
        print(sum_of(text.encode()))
    elif words[:1] == ["check"] and len(words) in (2, 3):
        return check(*words[1:])
    else:
        sys.exit(__doc__)
    return 0


if __name__ == "__main__":
    sys.exit(main(sys.argv[1:]))
