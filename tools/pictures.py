"""Looks at pictures of `ssh_trace draw`: no two texts overlap, and each stands inside of its picture. A picture that is stored in docs/pictures has
to be what the program draws of the script of that name.

    pictures.py stored      those of docs/pictures
    pictures.py drawn       those of all stored scripts, as the program draws them that the gate leaves in crates/ssh_trace_program/out
    pictures.py write FOLDER    writes the stored scripts that are not long as inputs of `rt try --cases`, which draws them
    pictures.py printed FILE    those pictures, in what `rt try --cases` printed
    pictures.py store PROGRAM   writes those of docs/pictures anew, as this program draws them

A text is reckoned at 7.3 pixels a character and from 11 pixels above its line to 4 below it, which is what browsers take in a fixed font of 12 pixels. Ends
with status 1 where something is wrong."""

import re
import shutil
import subprocess
import sys
import xml.etree.ElementTree
from pathlib import Path

TOP = Path(__file__).resolve().parent.parent
PROGRAM = TOP / "crates/ssh_trace_program/out/ssh_trace_program"
FOLDER = TOP / "docs/pictures"
SCRIPTS = ("examples/*.txt", "docs/pictures/*.txt", "crates/test_plays/data/*.txt")
SPACE = "{http://www.w3.org/2000/svg}"
MOST_WIDE, MOST_HIGH, MOST_BYTES = 8600, 14000, 60000
LONG = 6000
CELL, ABOVE, BELOW = 73, 110, 40


def box_of(text):
    """The left, top, right and bottom of a text, in tenths of a pixel."""
    width = CELL * len("".join(text.itertext()))
    left = int(text.get("x")) - {"middle": width // 2, "end": width}.get(text.get("text-anchor"), 0)
    line = int(text.get("y"))
    return left, line - ABOVE, left + width, line + BELOW


def overlap(one, other):
    return one[0] < other[2] and other[0] < one[2] and one[1] < other[3] and other[1] < one[3]


def faults_of(picture):
    """What is wrong with a picture."""
    root = xml.etree.ElementTree.fromstring(picture)
    _, _, width, height = map(int, root.get("viewBox").split())
    if width != MOST_WIDE or height > MOST_HIGH or len(picture.encode()) > MOST_BYTES:
        yield f"it is {width} by {height} tenths of a pixel and has {len(picture.encode())} bytes"
    if root[0].tag != SPACE + "title" or root[1].tag != SPACE + "desc" or not (root[0].text and root[1].text):
        yield "it does not begin with a title and a description"
    texts = root.findall(f".//{SPACE}text")
    boxes = [(box_of(text), "".join(text.itertext())) for text in texts]
    for number, (box, text) in enumerate(boxes):
        if box[0] < 0 or box[1] < 0 or box[2] > width or box[3] > height:
            yield f"{text!r} does not stand inside"
        for other, beside in boxes[:number]:
            if overlap(box, other):
                yield f"{text!r} and {beside!r} overlap"


def scripts():
    """All stored scripts of two ends."""
    return [script for pattern in SCRIPTS for script in sorted(TOP.glob(pattern)) if script.name != "clear_packets.txt"]


def picture_by(program, script):
    return subprocess.run([program, "draw", script], capture_output=True, text=True, timeout=120).stdout


def drawn(_):
    for script in scripts():
        yield str(script.relative_to(TOP)), picture_by(PROGRAM, script), script


def stored(_):
    for file in sorted(FOLDER.glob("*.svg")):
        yield str(file.relative_to(TOP)), file.read_text(), None


def script_of(file):
    """The first script of the name of a stored picture."""
    return next((script for script in scripts() if script.stem == file.stem), None)


def store(program):
    for file in FOLDER.glob("*.svg"):
        file.write_text(picture_by(program, script_of(file)))


def other_than_stored(script, picture):
    """What is wrong with a picture of a script, next to the stored one of that name."""
    file = FOLDER / f"{script.stem}.svg" if script else FOLDER
    if file.is_file() and script_of(file) == script and file.read_text() != picture:
        yield f"{file.relative_to(TOP)} is another: run python3 tools/pictures.py store build/ssh_trace"


def write(folder):
    for number, script in enumerate(scripts()):
        if script.stat().st_size < LONG:
            name = f"drawn-{number}-{script.stem}"
            shutil.copy(script, Path(folder) / name)
            (Path(folder) / f"{name}.args").write_text("draw\n{}\n")


def printed(words):
    """The pictures, each with the name of its script: `rt try` names its inputs otherwise."""
    drawings = re.findall(r"^== (drawn-(\d+)-\S+)\n(<svg.*?</svg>\n)?", Path(words[0]).read_text(), re.S | re.M)
    for name, number, picture in drawings:
        script = scripts()[int(number)]
        for title in re.findall("<title>(.*?)</title>", picture):
            picture = picture.replace(f">{title}<", f">{script.name}<")
        yield name, picture, script


def main(word, *words):
    if word in ("write", "store"):
        {"write": write, "store": store}[word](*words)
        return 0
    count = wrong = 0
    for name, picture, script in {"stored": stored, "drawn": drawn, "printed": printed}[word](words):
        count += 1
        for fault in [*faults_of(picture), *other_than_stored(script, picture)] if picture else ["there is no picture"]:
            wrong += 1
            print(f"{name}: {fault}")
    print(f"{count} pictures, {wrong} faults")
    return 1 if wrong or not count else 0


if __name__ == "__main__":
    sys.exit(main(*sys.argv[1:]))
