"""Fails if a function of crates/*/src calls itself, directly or by way of other functions of its crate: how deep such calls go is up to whoever
wrote the input, and a stack ends before 400 kB of stars in a line of known_hosts do.

A call is seen by its text: `name(` and `name::<..>(` of a function of the same file, or of one that a `use` or a path brings in; and `self.name(` and
`Self::name(` of a method of the same type. Calls through traits, closures and values are not seen."""

import pathlib
import re
import sys

TOP = pathlib.Path(__file__).resolve().parent.parent
FUNCTION = re.compile(r"^(?P<indent> *)(?:pub(?:\([^)]*\))? )?(?:const )?(?:unsafe )?(?:extern \"C\" )?fn (?P<name>\w+)", re.M)
OWNER = re.compile(r"^(?:unsafe )?(?:impl(?:<.*?>)? (?:(?:\S+|.*> )for )?|(?:pub )?trait )(?P<name>\w+)", re.M)
CALL = re.compile(r"(?P<before>self\.|Self::|(?:\w+::)+|\.)?\b(?P<name>[a-z_]\w*)(?:::<[^()]*?>)?\(")
NOT_CODE = re.compile(r'//[^\n]*|b?"(?:\\.|[^"\\])*"|b?\'(?:\\.|[^\'\\])\'', re.S)

# Functions that seem to call themselves and do not, each with the reason.
ALLOWED = {
    "ssh_pipe/src/error.rt: PipeError::from": "it calls the `from` of another type of error",
}


def functions_of(path):
    """Of each function of a file: its owner (a type, a trait, or nothing), its name, and the text after that."""
    text = NOT_CODE.sub(lambda it: re.sub(r"[^\n]", " ", it[0]), path.read_text())
    starts = [(it.start(), it["name"]) for it in OWNER.finditer(text)]
    for found in FUNCTION.finditer(text):
        # up to the brace that closes the function, or to the next function where this one has no body
        after = re.compile(rf"^{found['indent']}\}}|^ *(?:pub |const )*fn ", re.M).search(text, found.end())
        owner = next((name for start, name in reversed(starts) if start < found.start()), "") if found["indent"] else ""
        yield owner, found["name"], text[found.end() : after.start() if after else len(text)]


def called(names, files, key, body):
    """The functions of the crate that a body calls by name."""
    path, owner, _ = key
    uses = re.findall(r"^use ((?:\w+::)+)([^;]*);", files[path], re.M)
    for call in CALL.finditer(body):
        before, name = call["before"], call["name"]
        free = [it for it in names.get(name, []) if not it[1]]
        if before in ("self.", "Self::"):
            yield from (it for it in names.get(name, []) if owner and it[1] == owner)
        elif before is None:
            modules = [front.split("::")[-2] for front, brought in uses if re.search(rf"\b{name}\b", brought)]
            yield from (it for it in free if it[0] == path or it[0].stem in modules)
        elif before != ".":
            first, *_, place = [""] + before.split("::")[:-1] if before.count("::") == 1 else before.split("::")[:-1]
            foreign = first not in ("", "crate", "self", "super")
            foreign |= any(not front.startswith(("crate::", "self::", "super::")) and re.search(rf"\b{place}\b", front + brought) for front, brought in uses)
            yield from (it for it in names.get(name, []) if not foreign and (it[1] == place or not it[1] and it[0].stem == place))


def cycles(edges):
    """The functions from which calls lead back to themselves."""
    for start in edges:
        seen, waiting = set(), list(edges[start])
        while waiting:
            it = waiting.pop()
            if it == start:
                yield start
                break
            if it not in seen:
                seen.add(it)
                waiting.extend(edges.get(it, ()))


def main():
    found, count = [], 0
    for crate in sorted((TOP / "crates").iterdir()):
        names, files, bodies = {}, {}, []
        for path in sorted((crate / "src").rglob("*.rt")):
            files[path] = path.read_text()
            for owner, name, body in functions_of(path):
                names.setdefault(name, []).append((path, owner, name))
                bodies.append(((path, owner, name), body))
        edges = {}
        for key, body in bodies:
            edges.setdefault(key, set()).update(called(names, files, key, body))
        count += len(bodies)
        for path, owner, name in cycles(edges):
            whole = f"{path.relative_to(TOP / 'crates')}: {owner + '::' if owner else ''}{name}"
            if whole not in ALLOWED:
                found.append(whole)
    print("\n".join(found) or f"none of {count} functions calls itself")
    return bool(found) or not count


if __name__ == "__main__":
    sys.exit(main())
