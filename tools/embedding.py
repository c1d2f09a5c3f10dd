"""Keeps what docs/EMBEDDING.md has of a program what it is in crates/example_embedding, and those of docs/C.md and docs/RUST.md what they are in bindings.

    embedding.py write          puts the program's line of crates.txt and the files that the pages show into the pages
    embedding.py check          says whether the pages have them as they are, and docs/EMBEDDING.md links to all other files; status 1 where not
    embedding.py tree FOLDER    makes a tree there of what the page says: the line of crates.txt and the files that it shows out of the page, those that it
                                links to, and the crates below the program, as a clone has them

In the page a file stands in a fenced block after a line `<!-- file NAME -->`, and a link is `(../NAME)`."""

import re
import shutil
import sys
from pathlib import Path

TOP = Path(__file__).resolve().parent.parent
PAGE = TOP / "docs/EMBEDDING.md"
PAGES = [PAGE, TOP / "docs/C.md", TOP / "docs/RUST.md"]
CRATE = "example_embedding"
# What every program of this kind has, and the page shows: the parts of an end, and the loop around it.
SHOWN = ["crates.txt", f"crates/{CRATE}/src/parts.rt", f"crates/{CRATE}/src/driving.rt"]
BLOCK = re.compile(r"(<!-- file (\S+) -->\n```\w+\n)(.*?)(```\n)", re.S)


def lines_of_crates():
    """Each crate's line of crates.txt."""
    lines = [line for line in (TOP / "crates.txt").read_text().split("\n") if line and not line.startswith("#")]
    return {line.split(":")[0].split()[0]: line for line in lines}


def text_of(name):
    """What the page has to have of a file."""
    return lines_of_crates()[CRATE] + "\n" if name == "crates.txt" else (TOP / name).read_text()


def written(page):
    return BLOCK.sub(lambda block: block[1] + text_of(block[2]) + block[4], page)


def links_in(page):
    """The files of the program to which a page links."""
    return re.findall(rf"\(\.\./(crates/{CRATE}/src/[\w/]+\.rt)\)", page)


def wanted():
    sources = sorted(str(file.relative_to(TOP)) for file in (TOP / "crates" / CRATE / "src").rglob("*.rt"))
    return ["crates.txt", *sources]


def faults():
    for each in PAGES:
        if written(each.read_text()) != each.read_text():
            yield f"docs/{each.name} is stale: run python3 tools/embedding.py write"
    page = PAGE.read_text()
    named = [block[2] for block in BLOCK.finditer(page)] + links_in(page)
    for name in wanted():
        if named.count(name) != 1:
            yield f"docs/EMBEDDING.md has {name} {named.count(name)} times"
    for name in SHOWN:
        if name in links_in(page):
            yield f"docs/EMBEDDING.md only links to {name}"


def below(line, lines):
    """The crates of this repository on which one stands, by its line of crates.txt."""
    found = set()
    for name in line.split(":")[1].split():
        if name in lines:
            found |= {name} | below(lines[name], lines)
    return found


def tree(folder):
    lines, page = lines_of_crates(), PAGE.read_text()
    files = {name: text_of(name) for name in links_in(page)} | {block[2]: block[3] for block in BLOCK.finditer(page)}
    crates = sorted(below(files["crates.txt"], lines))
    for name in crates:
        shutil.copytree(TOP / "crates" / name, folder / "crates" / name, ignore=shutil.ignore_patterns("out", "falsify", "must-fail"))
    for name, text in files.items():
        (folder / name).parent.mkdir(parents=True, exist_ok=True)
        (folder / name).write_text(text)
    with (folder / "crates.txt").open("a") as file:
        file.write("".join(f"{lines[name]}\n" for name in crates))
    (folder / "HANDLES").write_text((TOP / "HANDLES").read_text())


def main(words):
    if words == ["write"]:
        for page in PAGES:
            page.write_text(written(page.read_text()))
        return 0
    if words == ["check"]:
        found = list(faults())
        print("\n".join(found), end="\n" if found else "")
        return 1 if found else 0
    if words[:1] == ["tree"] and len(words) == 2:
        tree(Path(words[1]))
        return 0
    print(__doc__, file=sys.stderr)
    return 2


if __name__ == "__main__":
    sys.exit(main(sys.argv[1:]))
