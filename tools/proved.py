"""The libraries that the gate proved and left in crates/*/out/rlib, over which the library for C is built without proving them again.

    proved.py before             before the gate: notes what it is about to read
    proved.py after              after the gate passed: notes what it left, where no file that it read has changed meanwhile
    proved.py archive FILE FILE  proves the crate divrelca_c over what it left, once, and compiles it by LLVM and by Rattle's own compiler, to one file each. Status 3, and nothing
                                 is built, where what the gate left is not there, or a file of these crates, or of what it left, is another now

Only the crates below divrelca_c are looked at. What the gate left is gone where `rt check` or `rt lib` had built libraries before it: those are put back. RT_JOBS says how many jobs
a check takes."""

import hashlib
import json
import os
import shutil
import subprocess
import sys
import tempfile
from pathlib import Path

TOP = Path(__file__).resolve().parent.parent
RT = os.environ.get("RT", "rt")
CRATE = "divrelca_c"
BEFORE, LEFT = TOP / "build/gate.before", TOP / "build/gate.left"
ELSEWHERE = 3


def stands_on():
    """The words that crates.txt has of each crate: what it stands on."""
    found = {}
    for line in (TOP / "crates.txt").read_text().split("\n"):
        head, colon, words = line.partition("#")[0].partition(":")
        if colon:
            found[head.split()[0]] = words.split()
    return found


def below(name, crates):
    """The crates below one, each after those that it stands on."""
    found = []
    for it in crates[name]:
        if it in crates:
            found += [lower for lower in [*below(it, crates), it] if lower not in found]
    return found


def rlib(name):
    return TOP / f"crates/{name}/out/rlib/{name}.rlib"


def sum_of(folders):
    """A sum of all files below these folders, and of their names."""
    found = hashlib.sha256()
    for folder in folders:
        for file in sorted(it for it in folder.rglob("*") if it.is_file()):
            found.update(repr((str(file.relative_to(TOP)), hashlib.sha256(file.read_bytes()).digest())).encode())
    return found.hexdigest()


def read(crates):
    """A sum of what a proof of these crates reads."""
    version = subprocess.run([RT, "version"], stdin=subprocess.DEVNULL, stdout=subprocess.PIPE, text=True, check=True).stdout
    parts = [TOP / f"crates/{it}/{part}" for it in [*below(CRATE, crates), CRATE] for part in ("src", "specs", "proofs")]
    return [version, (TOP / "crates.txt").read_text(), (TOP / "HANDLES").read_text(), sum_of(parts)]


def left(crates):
    """A sum of the libraries that the gate left, or none where one is missing or has the stamp of another command."""
    rlibs = [rlib(it) for it in below(CRATE, crates)]
    if not all(it.is_dir() and not (it.parent / "stamp").exists() for it in rlibs):
        return None
    return sum_of(rlibs)


def before():
    LEFT.parent.mkdir(exist_ok=True)
    LEFT.unlink(missing_ok=True)
    BEFORE.write_text(json.dumps(read(stands_on())))


def after():
    crates = stands_on()
    found = {"read": read(crates), "left": left(crates)}
    if not BEFORE.is_file() or json.loads(BEFORE.read_text()) != found["read"]:
        print("files changed while the gate ran: what it proved is not noted")
    elif found["left"] is None:
        print("the libraries that the gate proved are not in crates/*/out/rlib: other commands had built some before")
    else:
        LEFT.write_text(json.dumps(found))
    BEFORE.unlink(missing_ok=True)


def words(crates, kit):
    """What the toolchain is told of the crate, over these libraries: its logic, and its jobs, stand apart, since only a proof takes them."""
    said = ["--crate-name", CRATE, "src/lib.rt"]
    for it in ["std", *crates[CRATE]]:
        said += ["--extern", f"{it}={rlib(it) if it in crates else kit / 'rlibs' / f'{it}.rlib'}"]
    for it in [kit / "rlibs", *(rlib(it).parent for it in below(CRATE, crates))]:
        said += ["-L", f"dependency={it}"]
    said += ["--antt-project", str(kit / "rattle/logic/antt-project.json"), "--links", f"{CRATE}=", "--crate-type", "staticlib"]
    return said, ["--logic-built", str(kit / "logic_built"), "--jobs", os.environ.get("RT_JOBS", "2")]


def archive(by_llvm, by_rattle):
    crates = stands_on()
    if not LEFT.is_file() or json.loads(LEFT.read_text()) != {"read": read(crates), "left": left(crates)}:
        sys.exit(ELSEWHERE)
    kit = Path(shutil.which(RT)).resolve().parents[1]
    said, of_proof = words(crates, kit)
    with tempfile.TemporaryDirectory() as room:

        def rattle(*given):
            whole = [str(kit / "bin/rattle"), *given]
            if subprocess.run(whole, cwd=TOP / f"crates/{CRATE}", stdin=subprocess.DEVNULL).returncode:
                sys.exit(1)

        rattle("check", *said, *of_proof, "-o", f"{room}/checked")
        for backend, file in (("llvm", by_llvm), ("rattle", by_rattle)):
            rattle("build", *said, "--crate-checked", f"{room}/checked", "--toolchain", str(kit / "toolchain"), "--backend", backend, "-o", os.path.abspath(file))


if __name__ == "__main__":
    {"before": before, "after": after, "archive": archive}[sys.argv[1]](*sys.argv[2:])
