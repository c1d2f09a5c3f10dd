"""Writes the counts of edits, cases and stored scripts into docs/TIMES.md; `counts.py check` compares them."""

import sys
from pathlib import Path

from falsify import edits_of

TOP = Path(__file__).resolve().parent.parent
PAGE = TOP / "docs/TIMES.md"
BEGIN, END = "<!-- made by tools/counts.py -->\n", "<!-- end -->\n"


def count(pattern):
    return sum(1 for _ in (TOP / "crates").glob(pattern))


def cases():
    files = (TOP / "crates").glob("*/cases/*.txt")
    return sum(line.startswith("$ ") for file in files for line in file.read_text().split("\n"))


def table():
    edits = {folder.parent.name: len(edits_of(folder.parent)) for folder in sorted((TOP / "crates").glob("*/falsify"))}
    rows = [
        ("edits that the gate tries, `must-fail/`", count("*/must-fail/*.edit")),
        ("edits of `make falsify`", sum(edits.values())),
        ("cases of the programs", cases()),
        ("scripts and recorded sessions of `test_plays`", count("test_plays/data/*")),
    ]
    each = ", ".join(f"`{crate}` {number}" for crate, number in edits.items())
    lines = ["| What there is | Count |", "|---|---|", *(f"| {what} | {number:,} |" for what, number in rows)]
    return "\n".join(lines) + f"\n\nThose of `make falsify`: {each}.\n"


def main(words):
    text = PAGE.read_text()
    before, _, rest = text.partition(BEGIN)
    _, _, after = rest.partition(END)
    made = f"{before}{BEGIN}{table()}{END}{after}"
    if words == ["check"]:
        if made != text:
            print("the counts in docs/TIMES.md are not what tools/counts.py counts")
        return int(made != text)
    PAGE.write_text(made)
    return 0


if __name__ == "__main__":
    sys.exit(main(sys.argv[1:]))
